#!/bin/sh
# Runs a built program on every script of docs/TUTORIAL.md and compares what it writes, and its status, with the report behind
# the script.
#
# usage: checks/tutorial.sh PROGRAM
set -eu
[ $# -eq 1 ] || { sed -n '2,5s/^# \{0,1\}//p' "$0" >&2; exit 2; }
program=$1
top=$(cd "$(dirname "$0")/.." && pwd)
folder=$(mktemp -d)
trap 'rm -rf "$folder"' EXIT
# N.script, N.report without its first line, and N.words, which are those of the first line.
awk -v folder="$folder" '
    /^```script$/ { n++; to = folder "/" n ".script"; next }
    /^```report$/ { to = folder "/" n ".report"; getline; print substr($0, 7) >(folder "/" n ".words"); next }
    /^```/ { to = ""; next }
    to != "" { print >to }
' "$top/docs/TUTORIAL.md"
n=1
failed=0
while [ -f "$folder/$n.script" ]; do
    words=$(cat "$folder/$n.words")
    status=0
    # The words are words.
    # shellcheck disable=SC2086
    "$program" $words <"$folder/$n.script" >"$folder/out" 2>"$folder/err" || status=$?
    cat "$folder/err" >>"$folder/out"
    [ "$status" -eq 0 ] || echo "status $status" >>"$folder/out"
    if cmp -s "$folder/out" "$folder/$n.report"; then
        echo "script $n, $words: as docs/TUTORIAL.md"
    else
        echo "script $n, $words: not as docs/TUTORIAL.md"
        diff "$folder/$n.report" "$folder/out" || failed=1
    fi
    n=$((n + 1))
done
[ "$n" -gt 1 ] || { echo "no script in docs/TUTORIAL.md"; exit 1; }
exit $failed
