#!/bin/sh
# Runs a built program on the scripts that docs/KERNEL.md names, and looks for the lines that stand there, in their order, in
# what it writes. A line that ends with two points is the beginning of one.
#
# usage: checks/kernel.sh PROGRAM
set -eu
[ $# -eq 1 ] || { sed -n '2,5s/^# \{0,1\}//p' "$0" >&2; exit 2; }
program=$1
top=$(cd "$(dirname "$0")/.." && pwd)
wanted=$(mktemp)
trap 'rm -f "$wanted"' EXIT
# For each case a line `WORDS;SCRIPT;LINES`, with the lines parted by bars.
awk '
    /^`kms .* < .*` writes$/ {
        split(substr($0, 6, length($0) - 13), parts, " < ")
        case_of = parts[1] ";" parts[2] ";"
    }
    /^```/ { inside = !inside; if (inside) lines = ""; else if (case_of != "") { print case_of lines; case_of = "" } ; next }
    inside { lines = lines (lines == "" ? "" : "|") $0 }
' "$top/docs/KERNEL.md" >"$wanted"
failed=0
while IFS=';' read -r words script lines; do
    # The words are words.
    # shellcheck disable=SC2086
    if "$program" $words <"$top/$script" | awk -v wanted="$lines" '
        BEGIN { count = split(wanted, line, "|"); at = 1 }
        at <= count {
            want = line[at]
            if (want ~ / \.\.$/) { want = substr(want, 1, length(want) - 2); if (index($0, want) == 1) at++ }
            else if ($0 == want) at++
        }
        END { exit at <= count }
    '; then
        echo "$script: as docs/KERNEL.md"
    else
        echo "$script: not as docs/KERNEL.md"
        failed=1
    fi
done <"$wanted"
exit $failed
