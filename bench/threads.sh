#!/bin/sh
# Times runs by threads beside `one`: bench/threads.sh PROGRAM [RUNS]. The scripts are `gen 0 1000`, `gen 0 4000`, eight clients that
# commit 125 times each on one CRTC, and four clients that commit 250 times each on a CRTC of their own. Each is executed by `one`, and by
# `run` with 1, 2, 4 and 16 threads, so many times each (3 without the second word). Prints of the quickest run of each: the wall time, how
# many times that of `one` it is and how many times that of one thread, the program's own and the system's processor time, how often its
# threads gave a processor away and how often they were made to. The aims, on four quiet processors: one thread at most 1.3 times `one`,
# the others at most 1.2 times one thread. No part of the gate.
set -eu
[ $# -ge 1 ] || { sed -n '2,7s/^# \{0,1\}//p' "$0" >&2; exit 2; }
program=$1
runs=${2:-3}
here=$(dirname "$0")
work=$(mktemp -d)
trap 'rm -rf "$work"' EXIT

# What sets a CRTC and what it shows.
lit() {
    printf 'atomic 0x400 0 crtc%s.ACTIVE=1 crtc%s.MODE_ID=@m%s conn%s.CRTC_ID=crtc%s' "$1" "$1" "$1" "$1" "$1"
    printf ' plane%s.FB_ID=@f%s plane%s.CRTC_ID=crtc%s' "$1" "$1" "$1" "$1"
    printf ' plane%s.CRTC_W=1 plane%s.CRTC_H=1 plane%s.SRC_W=65536 plane%s.SRC_H=65536\n' "$1" "$1" "$1" "$1"
}

# A script of clients that commit on CRTCs: its name, how many CRTCs there are, how many clients, and how many commits each makes. A client
# commits on the CRTC whose index is its own, from 0, modulo the number of CRTCs.
clients() {
    {
        printf 'kms 1\ncrtcs %s\n' "$2"
        for crtc in $(seq 0 $(($2 - 1))); do printf 'plane primary %s XR24\n' "$crtc"; done
        for crtc in $(seq 0 $(($2 - 1))); do printf 'conn %s\n' "$crtc"; done
        for client in $(seq 0 $(($3 - 1))); do
            crtc=$((client % $2))
            echo client
            if [ "$client" -eq "$crtc" ]; then
                printf 'buffer b%s 1 1 XR24 solid 00616263\naddfb f%s b%s\n' "$crtc" "$crtc" "$crtc"
                printf 'mode m%s 1 1 1 1 1 0 1 1 1 1 0 60 0 0 tiny\n' "$crtc"
                lit "$crtc"
            fi
            seq 1 "$4" | sed "s/.*/atomic 0x0 0 plane$crtc.alpha=&/"
        done
    } >"$work/$1"
}

# The quickest of some runs of the words after the first, from the script with that name.
quickest() {
    name=$1
    shift
    for _ in $(seq "$runs"); do python3 "$here/spent.py" "$work/$name" "$work/said" "$program" "$@"; done | sort -n | head -1
}

# A line of the table: the script, by what, the wall time of `one` and of one thread, and what the quickest run took.
line() {
    echo "$@" | awk '{
        printf "%-14s %-11s %8d ms wall  %5.2f of one  %5.2f of one thread  %8d ms user  %8d ms system  %8d given away  %8d taken\n",
            $1, $2, $5, $5 / $3, $5 / $4, $6, $7, $8, $9 }'
}

"$program" gen 0 1000 >"$work/generated-1000"
"$program" gen 0 4000 >"$work/generated-4000"
clients one-crtc 1 8 125
clients four-crtcs 4 4 250
for script in generated-1000 generated-4000 one-crtc four-crtcs; do
    alone=$(quickest "$script" one)
    base=${alone%% *}
    first=
    for threads in 1 2 4 16; do
        took=$(quickest "$script" run --threads "$threads")
        if [ -z "$first" ]; then
            first=${took%% *}
            # shellcheck disable=SC2086
            line "$script" one "$base" "$first" $alone
        fi
        # shellcheck disable=SC2086
        line "$script" "$threads-threads" "$base" "$first" $took
    done
done
