#!/bin/sh
# What the timings share that stand beside plain C. The caller is in the folder $here, below this one; files go into $work.
work=$(mktemp -d)
trap 'rm -rf "$work"' EXIT
. "$here/../least.sh"

# The median of the numbers in a file.
median() {
    sort -n "$1" | awk '{ all[NR] = $1 } END { print all[int((NR + 1) / 2)] }'
}

# beside KIND C KMS [PROGRAM]: compiles and runs plain C (with the SHA-256 of libcrypto), which prints a digest for each frame.
# Given the path of the program, runs it on a script too, on all processors and on one, in turn with plain C seven times, since a
# machine may be slower a minute later; compares the digests of its latches, and prints the median times and their ratios.
beside() {
    ${CC:-cc} -O3 -Wall -Wextra -o "$work/$1" "$2" -lcrypto
    "$work/$1" >"$work/expected"
    cat "$work/expected"
    [ -n "${4-}" ] || return 0
    rm -f "$work"/times.*
    for _ in 1 2 3 4 5 6 7; do
        time_of /dev/null "$work/expected" "$work/$1" >>"$work/times.plain"
        for processors in "$(nproc)" 1; do
            time_of "$3" "$work/report" taskset -c 0-$((processors - 1)) "$4" one >>"$work/times.$processors"
            awk '$1 == "L" { print $5 }' "$work/report" >"$work/digests"
            cmp "$work/expected" "$work/digests"
        done
    done
    plain=$(median "$work/times.plain")
    for processors in "$(nproc)" 1; do
        took=$(median "$work/times.$processors")
        awk -v kind="$1" -v processors="$processors" -v program="$took" -v plain="$plain" 'BEGIN {
            printf "%s: same digests; the program %.1f ms on %d processors, plain C %.1f ms on one, ratio %.2f\n",
                kind, program / 1000, processors, plain / 1000, program / plain
        }' >&2
    done
}
