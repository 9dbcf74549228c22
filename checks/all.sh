#!/bin/sh
# Runs the checks of the built program, of the documents and of the kernel's headers, one after the other, and says of each whether
# it passed, failed or was skipped for want of a tool. `.ci/run` runs it behind the gate, which leaves the program.
#
# usage: checks/all.sh PROGRAM [PASSED]      PASSED: how many the gate passed, which the last line counts too
set -u
case $# in 1 | 2) ;; *) sed -n '2,5s/^# \{0,1\}//p' "$0" >&2; exit 2 ;; esac
program=$1
passed=${2-0}
failed=0
top=$(cd "$(dirname "$0")/.." && pwd)
said=$(mktemp)
trap 'rm -f "$said"' EXIT

# check NAME TOOLS WORD..: runs the words where the tools are there. What they say is shown where they fail.
check() {
    name=$1
    for tool in $2; do
        command -v "$tool" >/dev/null 2>&1 && continue
        echo "check $name: skipped, there is no $tool"
        return
    done
    shift 2
    if ! "$@" >"$said" 2>&1; then
        failed=$((failed + 1))
        cat "$said"
        echo "check $name: failed"
    elif grep -q ': skipped, ' "$said"; then
        sed -n 's/^.*: skipped, /: skipped, /p' "$said" | sed "s/^/check $name/"
    else
        passed=$((passed + 1))
        echo "check $name: passed"
    fi
}

check examples "taskset nproc python3" "$top/checks/examples.sh" "$program"
check threads "taskset nproc timeout" "$top/checks/threads.sh" "$program"
check tutorial "" "$top/checks/tutorial.sh" "$program"
check kernel "" "$top/checks/kernel.sh" "$program"
check device_tables "" "$top/checks/device_tables.sh" --check
check limits python3 python3 "$top/checks/limits.py" "$program"
check tools python3 "$top/checks/tools.sh"
check card_scripts python3 python3 "$top/checks/card_scripts.py" "$program"
check pictures python3 "$top/checks/pictures.sh" "$program"
check documents python3 python3 "$top/tools/documents.py"
check mode_bytes "" sh "$top/checks/mode_bytes.sh"
check event_bytes "" sh "$top/checks/event_bytes.sh"
check on_kernel "" "$top/checks/on_kernel.sh"
check record "" "$top/checks/record.sh" "$program"
check conform python3 "$top/checks/conform.sh" "$program"
check library "rt cc python3 rustc" "$top/checks/library.sh"
check page "node python3" node "$top/web/test.mjs"
check page_in_browser "python3 rt" "$top/checks/page.sh"
echo "$passed passed, $failed failed"
[ "$failed" -eq 0 ]
