#!/bin/sh
# Puts the tables that the program `kms_tables` prints into docs/DEVICE.md, each between its marks: a line `<!-- NAME -->` and a
# line `<!-- end -->`. With --check it writes nothing, and says whether they stand there. What the program prints stands in
# crates/kms_tables/stdout, and the gate compares it with what the program does print.
#
# usage: checks/device_tables.sh [--check]
set -eu
top=$(cd "$(dirname "$0")/.." && pwd)
tables=$top/crates/kms_tables/stdout
page=$top/docs/DEVICE.md
made=$(mktemp)
trap 'rm -f "$made"' EXIT

awk '
    function name_of(line) { return substr(line, 6, length(line) - 9) }
    function is_mark(line) { return line ~ /^<!-- [a-z]+ -->$/ }
    FNR == 1 { file++ }
    file == 1 && is_mark($0) { name = name_of($0); next }
    file == 1 { if (name != "" && name != "end") table[name] = table[name] $0 "\n"; next }
    is_mark($0) && name_of($0) == "end" { skipping = 0 }
    !skipping { print }
    is_mark($0) && name_of($0) != "end" {
        if (!(name_of($0) in table)) { print "no table " name_of($0) >"/dev/stderr"; exit 1 }
        printf "%s", table[name_of($0)]
        used[name_of($0)] = 1
        skipping = 1
    }
    END { for (t in table) if (!(t in used)) { print "no place for the table " t >"/dev/stderr"; exit 1 } }
' "$tables" "$page" >"$made"

case ${1-} in
    "") cat "$made" >"$page" ;;
    --check) cmp "$made" "$page" && echo "the tables of docs/DEVICE.md are those of kms_tables" ;;
    *) sed -n '2,7s/^# \{0,1\}//p' "$0" >&2; exit 2 ;;
esac
