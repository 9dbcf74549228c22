#!/bin/sh
# Times a call of the library beside the program on one processor: scripts of 250, 1000 and 4000 generated commits, and ten frames
# of 1920x1080. Both write the same report.
#
# usage: bench/library.sh PROGRAM LIBRARY_PROGRAM     the second is c/kms.c over the library, built with optimisation
set -eu
[ $# -eq 2 ] || { sed -n '2,5s/^# \{0,1\}//p' "$0" >&2; exit 2; }
program=$1 library=$2
top=$(cd "$(dirname "$0")/.." && pwd)
made=$(mktemp -d)
trap 'rm -r "$made"' EXIT
for commits in 250 1000 4000; do "$program" gen 0 $commits >"$made/$commits.kms"; done
cp "$top/bench/frames/frames.kms" "$made"
milliseconds() {
    begun=$(date +%s%N)
    taskset -c 0 "$1" one <"$2" >"$made/$3"
    echo $((($(date +%s%N) - begun) / 1000000))
}
for script in 250 1000 4000 frames; do
    for run in 1 2 3 4 5; do
        one=$(milliseconds "$program" "$made/$script.kms" program)
        other=$(milliseconds "$library" "$made/$script.kms" library)
        cmp "$made/program" "$made/library"
        echo "$script: the program $one ms, the library $other ms"
    done
done
