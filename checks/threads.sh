#!/bin/sh
# Runs scripts by sixteen threads on one processor and on two. Each run drains its script within a minute, `replay` of its steps
# tells the same, and `audit` says yes to its report. One script is generated, the other has sixteen clients, which wait.
#
# usage: checks/threads.sh PROGRAM
set -eu
[ $# -eq 1 ] || { sed -n '2,5s/^# \{0,1\}//p' "$0" >&2; exit 2; }
program=$1
top=$(cd "$(dirname "$0")/.." && pwd)
folder=$(mktemp -d)
trap 'rm -rf "$folder"' EXIT
"$program" gen 7 200 >"$folder/generated"
"$top/bench/waiting.sh" >"$folder/waiting"
for processors in 1 2; do
    [ "$processors" -le "$(nproc)" ] || continue
    for script in generated waiting; do
        timeout 60 taskset -c 0-$((processors - 1)) "$program" run --threads 16 --trace <"$folder/$script" >"$folder/ran"
        { cat "$folder/$script"; echo schedule; grep '^T ' "$folder/ran"; } | "$program" replay --trace | cmp - "$folder/ran"
        grep -v '^T ' "$folder/ran" >"$folder/report"
        [ "$({ cat "$folder/$script"; echo report; cat "$folder/report"; } | "$program" audit)" = "audit yes" ]
        echo "run --threads 16 of the script $script, processors: $processors: drained, replayed alike, and audited"
    done
done
