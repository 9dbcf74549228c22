#!/bin/sh
# Tries the tools of tools/ that read scripts and reports, by answers that are recorded in checks/tools: what explain says of each
# rule and of a kernel's errnos, what compare finds first, what timeline.py and view say where something is missing, and that a page
# of view needs nothing from elsewhere.
#
# usage: checks/tools.sh
set -eu
[ $# -eq 0 ] || { sed -n '2,6s/^# \{0,1\}//p' "$0" >&2; exit 2; }
top=$(cd "$(dirname "$0")/.." && pwd)
recorded=$top/checks/tools
export PYTHONDONTWRITEBYTECODE=1
work=$(mktemp -d)
trap 'rm -rf "$work"' EXIT
cd "$top/tools"

# same NAME: compares standard input with what is recorded under a name.
same() { cmp - "$recorded/$1" && echo "$1: the same"; }
# says STATUS WORD..: what the words say, with their status, which must be this one.
says() {
    want=$1 got=0
    shift
    "$@" 2>&1 || got=$?
    [ "$got" -eq "$want" ] || echo "status $got, not $want"
}
# The words of a rule are the manual's, so they are left out.
without_rules() { sed 's/^\( *| [0-9]* [A-Z_]*\): .*/\1/'; }

./explain "$recorded/refusals.kms" "$recorded/refusals.report" | without_rules | same refusals.explained
./explain "$recorded/refusals.kms" "$recorded/kernel.report" | without_rules | same kernel.explained
(
    cd "$recorded"
    for other in reply latch event end; do
        says 1 ../../tools/compare refusals.report "$other.report" refusals.kms
    done
    says 0 ../../tools/compare refusals.report refusals.report
) | same compared
(
    says 1 ./timeline.py <"$top/examples/first_light.report"
    says 1 ./frames.py "$work" 1 <"$top/examples/first_light.report"
    says 1 ./frames.py | head -n 1
) | same missing
./card_script ../checks/on_kernel/stand_in.card 7 | same stand_in_7.kms
./view "$top/examples/first_light.kms" "$top/examples/first_light.report" >"$work/page"
grep -c 'The report has no' "$work/page" | grep -qx 2
echo "view: says what is missing"
"$top/tools/view" "$top/examples/meeting.kms" "$top/examples/meeting.report" >"$work/page"
sed 's/xmlns="[^"]*"//' "$work/page" | grep -E 'https?:|src="[^d]|href=' && { echo "view: the page needs something"; exit 1; }
echo "view: the page needs nothing from elsewhere"
