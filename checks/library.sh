#!/bin/sh
# Builds the C and the Rust programs over the library and runs them: the examples byte for byte, how calls end, each room, each
# fault, and all example inputs of another implementation where these are there; the replies alone against those of reports.
#
# usage: checks/library.sh [ARCHIVE HEAP]      ARCHIVE: libkms_c.a, which is built else; HEAP: the archive with the toolchain's heap
set -eu
case $# in 0 | 2) ;; *) sed -n '5s/^# \{0,1\}//p' "$0" >&2; exit 2 ;; esac
top=$(cd "$(dirname "$0")/.." && pwd)
made=$(mktemp -d)
trap 'rm -r "$made"' EXIT
if [ $# -eq 0 ]; then
    kit=${RT_KIT:-$(dirname "$(dirname "$(realpath "$(command -v rt)")")")}
    "$top/tools/archive.sh" "$top/crates/kms_c" "$made/libkms_c.a"
    set -- "$made/libkms_c.a" "$kit/c/liblibc_c.a"
fi
archive=$1 heap=$2
cases=$top/../shared/tools/cases
for program in kms test cursor; do
    cc -std=c11 -Wall -Wextra -Werror -g -fsanitize=address,undefined \
        -o "$made/$program" "$top/c/$program.c" "$archive" "$heap" -lpthread
done
"$made/test" "$top/examples/first_light.kms" "$top/examples/first_light.report"
"$made/cursor"
echo "the cursor that moves: accepted, and the frame is shown"

# word, example and what is to be written, three at a time
triples() {
    for name in first_light two_screens blend_modes scaling; do
        echo one "$top/examples/$name.kms" "$top/examples/$name.report"
    done
    echo suspend "$top/examples/sleep.kms" "$top/examples/sleep.report"
    echo legacy "$top/examples/older_calls.kms" "$top/examples/older_calls.atomic.kms"
    echo replay "$top/examples/meeting.replay" "$top/examples/meeting.report"
}
triples | while read -r word input output; do
    case $word in replay) steps=--trace ;; *) steps= ;; esac
    # shellcheck disable=SC2086 -- no word, or one
    "$made/kms" "$word" $steps <"$input" | cmp - "$output"
done
echo "the examples: as their reports"
for name in first_light two_screens blend_modes scaling; do
    { cat "$top/examples/$name.kms"; echo report; cat "$top/examples/$name.report"; } >"$made/$name.audit"
    [ "$("$made/kms" audit <"$made/$name.audit")" = "audit yes" ]
done
echo "audits of their reports: yes"

# how a call ends: the program's number, and what it says
ends() {
    number=$1 says=$2 word=$3
    set +e
    said=$("$made/kms" "$word" 2>&1 >"$made/text")
    ended=$?
    set -e
    [ "$ended" = "$number" ] && [ "$said" = "$says" ] && return
    echo "$word: ended with $ended and '$said', not with $number and '$says'" >&2
    exit 1
}
meeting=$top/examples/meeting.replay
sed '$d' "$meeting" | ends 8 "kms: open" replay
sed '$p' "$meeting" | ends 7 "kms: event 99 is not legal" replay
ends 10 "kms: closed 101" suspend <"$top/examples/two_screens.kms"
ends 4 "kms: line 1: form" one <"$top/README.md"
sed '$d' "$made/first_light.audit" | ends 9 "kms: audit: line 10" audit
echo "endings: as the program's"

if command -v rustc >/dev/null; then
    rustc --edition 2024 -o "$made/test_rs" "$top/c/test.rs" -C link-arg="$archive" -C link-arg="$heap"
    # shellcheck disable=SC2046 -- each word is an argument
    "$made/test_rs" $(triples)
fi

# whether `kms verdicts` writes the lines of a report that begin with R, and ends with the same number and word
verdicts_are() {
    grep '^R' "$2" >"$made/wanted" || :
    set +e
    "$made/kms" verdicts <"$1" >"$made/text" 2>"$made/word"
    ended=$?
    set -e
    cmp "$made/text" "$made/wanted" && [ "$ended" = "$3" ] && [ "$(cat "$made/word")" = "$4" ] && return
    echo "verdicts of $1: ended with $ended" >&2
    exit 1
}
for name in first_light two_screens blend_modes scaling; do
    verdicts_are "$top/examples/$name.kms" "$top/examples/$name.report" 0 ""
done
compared=4
if [ -e "$cases" ]; then
    for words in "$top"/../shared/cases/rich/*.words "$top"/../shared/cases/meet/*.words "$top"/../shared/cases/hostile/*.words; do
        case=${words%.words}
        [ "$(head -n 1 "$words")" = one ] || continue
        verdicts_are "$case.in" "$case.out" "$(cat "$case.status")" "$(cat "$case.err")"
        compared=$((compared + 1))
    done
fi
echo "replies alone: those of $compared reports"
if [ -e "$cases" ]; then "$cases" "$made/kms" rich meet replay hostile legacy suspend audit; fi
