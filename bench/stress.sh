#!/bin/sh
# Runs scripts by threads: bench/stress.sh PROGRAM [SECONDS]. For so many seconds, at most 60 (50 without the second word), it
# takes scripts in turn: those of examples/, generated ones of random seeds with 100 commits and with 2000, and one whose clients
# wait for a fence that the last of them signals after 3000 other commands. It runs each with 1 to 16 threads, and gives the steps
# that the run tells to `replay`, whose report must be the same bytes and whose status the same. Prints how many runs and events
# there were, by kind of script and by number of threads, with the events a second, the wall time, and the processor time of the
# program and of the system; and the differences. Its status is 1 where there are any. No part of the gate.
set -eu
[ $# -ge 1 ] || { sed -n '2,7s/^# \{0,1\}//p' "$0" >&2; exit 2; }
program=$1
seconds=${2:-50}
[ "$seconds" -le 60 ] || seconds=60
top=$(cd "$(dirname "$0")/.." && pwd)
work=$(mktemp -d)
trap 'rm -rf "$work"' EXIT
end=$(($(date +%s) + seconds))
differences=0

# The status of the program on a file, which writes another.
status_of() {
    from=$1 into=$2
    shift 2
    ended=0
    "$program" "$@" <"$from" >"$into" 2>"$work/said" || ended=$?
    echo "$ended"
}

# The processor time in milliseconds, the programs' own and the system's, between two records of `times`.
between() {
    for file in "$1" "$2"; do sed -n '2s/[ms]/ /gp' "$file"; done | awk '
        { user[NR] = $1 * 60000 + $2 * 1000; sys[NR] = $3 * 60000 + $4 * 1000 }
        END { printf "%d %d\n", user[2] - user[1], sys[2] - sys[1] }'
}

# One run of a script, given as a kind, a file and a name, with a number of threads.
one_run() {
    times >"$work/before"
    start=$(date +%s%N)
    ran=$(status_of "$2" "$work/ran" run --threads "$4" --trace)
    took=$((($(date +%s%N) - start) / 1000))
    times >"$work/after"
    { cat "$2"; echo schedule; grep '^T ' "$work/ran" || true; } >"$work/schedule"
    replayed=$(status_of "$work/schedule" "$work/replayed" replay --trace)
    echo "$1 $4 $(grep -c '^T ' "$work/ran" || true) $took $(between "$work/before" "$work/after")" >>"$work/runs"
    if [ "$ran" != "$replayed" ] || ! cmp -s "$work/ran" "$work/replayed"; then
        differences=$((differences + 1))
        echo "differs: $3 with $4 threads: status $ran, replayed $replayed"
    fi
}

# A generated script with so many commits, and its run.
generated() {
    seed=$(od -An -N4 -tu4 /dev/urandom | tr -d ' ')
    "$program" gen "$seed" "$2" >"$work/script"
    one_run "$1" "$work/script" "gen $seed $2" "$3"
}

"$top/bench/waiting.sh" >"$work/waiting"
threads=0
while [ "$(date +%s)" -lt "$end" ]; do
    for script in "$top"/examples/*.kms "$top"/examples/kernel/*.kms generated waiting long; do
        [ "$(date +%s)" -lt "$end" ] || break
        threads=$((threads % 16 + 1))
        case $script in
            generated) generated generated 100 "$threads" ;;
            long) generated long 2000 "$threads" ;;
            waiting) one_run waiting "$work/waiting" waiting "$threads" ;;
            *) one_run example "$script" "$script" "$threads" ;;
        esac
    done
done
awk -v differences="$differences" '
    function told(name) {
        printf "%s: %d runs, %d events, %.0f events a second, %.2f s wall, %.2f s user, %.2f s system\n", name, runs[name],
            events[name], events[name] / (wall[name] / 1000000), wall[name] / 1000000, user[name] / 1000, system_time[name] / 1000
    }
    function count(name) {
        runs[name]++; events[name] += $3; wall[name] += $4; user[name] += $5; system_time[name] += $6
    }
    { count($1); count($2 " threads"); count("all") }
    END {
        for (n = 1; n <= 16; n++)
            if (runs[n " threads"]) told(n " threads")
        for (kind in runs) if (kind !~ /threads|all/) told(kind)
        told("all")
        printf "%d differences\n", differences
    }' "$work/runs"
[ "$differences" -eq 0 ]
