#!/bin/sh
# Runs a built program on the examples and compares what it writes with their reports, the drawing among them. Each is run on
# one, two and four processors, as far as they are there, since as many threads make a report. Each report is audited, and so are
# those of runs by threads.
#
# usage: checks/examples.sh PROGRAM
set -eu
[ $# -eq 1 ] || { sed -n '2,6s/^# \{0,1\}//p' "$0" >&2; exit 2; }
program=$1
top=$(cd "$(dirname "$0")/.." && pwd)
folder=$(mktemp -d)
trap 'rm -rf "$folder"' EXIT
# An input, the report that is expected of it, and the words.
compare() {
    input=$1 report=$2
    shift 2
    for processors in 1 2 4; do
        [ "$processors" -le "$(nproc)" ] || continue
        taskset -c 0-$((processors - 1)) "$program" "$@" <"$top/examples/$input" | cmp - "$top/examples/$report"
        echo "$* < $input on $processors processors: as $report"
    done
}
compare first_light.kms first_light.report one
compare two_screens.kms two_screens.report one
compare blend_modes.kms blend_modes.report one
compare scaling.kms scaling.report one
compare older_calls.kms older_calls.atomic.kms legacy
compare older_calls.atomic.kms older_calls.report one
compare sleep.kms sleep.report suspend
compare meeting.kms meeting.report one --trace
compare meeting.replay meeting.report replay --trace
# An audit says yes to each of these reports behind its script, and to that of a run by threads; whatever stands in place of a digest
# is told.
audit() {
    { cat "$top/examples/$1"; echo report; cat "$2"; } | "$program" audit
}
for name in first_light two_screens blend_modes scaling meeting; do
    [ "$(audit $name.kms "$top/examples/$name.report")" = "audit yes" ]
    "$program" run --threads 4 <"$top/examples/$name.kms" >"$folder/run" 2>"$folder/said" || [ $? -eq 5 ]
    [ "$(audit $name.kms "$folder/run")" = "audit yes" ]
    sed '/^L/s/ [0-9a-f]*$/ off/' "$folder/run" >"$folder/off"
    wrong=$(sed -n '/^L/{=;q}' "$folder/run")
    ! audit $name.kms "$folder/off" 2>"$folder/said"
    [ "$(cat "$folder/said")" = "kms: audit: line $wrong" ]
    echo "audit < $name.kms and its reports: yes, and line $wrong without its frames"
done
[ "$(audit older_calls.atomic.kms "$top/examples/older_calls.report")" = "audit yes" ]
PYTHONDONTWRITEBYTECODE=1 "$top/tools/timeline.py" <"$top/examples/meeting.report" | cmp - "$top/docs/pictures/meeting.svg"
echo "timeline.py < meeting.report: as docs/pictures/meeting.svg"
