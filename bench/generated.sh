#!/bin/sh
# Times the running of generated scripts: bench/generated.sh PROGRAM. Prints the least time of five runs of `gen 0 1000 --run`
# and `gen 0 4000 --run`, and their ratio, which is to be at most 4.4: four times the commits take four times as long. Then
# compiles generated/generated.c (with the SHA-256 of libcrypto), which composes and digests the same 4002 frames alone,
# compares the digests with those that `one` tells of the script, and prints its time and how many times as long the program
# takes for everything, which is to be at most twice.
set -eu
here=$(dirname "$0")
work=$(mktemp -d)
trap 'rm -rf "$work"' EXIT
. "$here/least.sh"
${CC:-gcc} -O2 -Wall -Wextra -o "$work/generated" "$here/generated/generated.c" -lcrypto

few=$(least /dev/null "$work/few" "$1" gen 0 1000 --run)
many=$(least /dev/null "$work/many" "$1" gen 0 4000 --run)
plain=$(least /dev/null "$work/expected" "$work/generated" 0 4000)
cat "$work/many"
"$1" gen 0 4000 >"$work/script"
"$1" one <"$work/script" | awk '$1 == "L" { print $5 }' >"$work/digests"
cmp "$work/expected" "$work/digests"
awk -v few="$few" -v many="$many" -v plain="$plain" 'BEGIN {
    printf "1000 commits %.1f ms, 4000 commits %.1f ms, ratio %.2f\n", few / 1000, many / 1000, many / few
    printf "same digests; plain C %.1f ms for the frames of 4000 commits, ratio %.2f\n", plain / 1000, many / plain
}'
