#!/bin/sh
# Refuses each allocation of three runs of the machine in turn: the run in which a client lights a CRTC, the one in which an
# event is read and a framebuffer freed, and one of two clients that test the same, with a refused request. A step that finds no
# memory leaves the machine as it was, as a second machine beside it tells, and is done at the second try; both then answer each
# question in the same way, and their reports have the same bytes. And it refuses each allocation of a call of the program by
# `one`, `suspend` and `audit`, from the bytes of the input to what is written: then nothing is written, and a second call
# writes all. The tests (allocations/memory.rt.txt) ask for that. The toolchain refuses the allocation of one number in each
# test (`rt try --test --fail-alloc`, which proves nothing). So that one build does, there is a test for each allocation of a
# run, which first takes memory so often that the number falls on it. For each run it says how often it saw what.
#     checks/allocations.sh [MOST]
# has as many tests of each run, which must be more than the run has allocations.
set -eu
here=$(cd "$(dirname "$0")" && pwd)
top=$(cd "$here/.." && pwd)
most=${1:-400}
work=$(mktemp -d)
trap 'rm -rf "$work"' EXIT
tests=$work/crates/memory_tests
(cd "$top" && tar -cf - --exclude=out HANDLES crates.txt crates) | tar -xf - -C "$work"
mkdir -p "$tests/src"
echo "memory_tests: kms_model kms_io kms_core kms_course kms_report kms_run kms_samples" >>"$work/crates.txt"
printf '//! Want of memory.\n#![tactic(auto)]\n\n#[cfg(test)]\nmod memory;\n' >"$tests/src/lib.rt"

# The tests of a run, that of its last allocation first; they are done in the order of their names.
write_tests() {
    times=0
    while [ "$times" -lt "$most" ]; do
        printf '\n#[test]\nfn %s_after_%04d(rt: HostRuntime) -> Result<(), Fail> {\n    %s(&rt, %d)\n}\n' \
            "$1" "$times" "$1" "$times"
        times=$((times + 1))
    done
}

# How the tests of a run ended. From the last allocation on there are those that the run does not come to, those of answers at
# its end, those of steps, and those before the first step.
judge() {
    awk -v run="$1" -v most="$most" '
        $1 == "test" { is_of_run = index($2, "::" run "_after_") }
        is_of_run && /^    / {
            is_of_run = 0
            ended = 5
            if (/all memory was there/) ended = 1
            if (/an answer found no memory/) ended = 2
            if (/a step found no memory/) ended = 3
            if (/error: (NoMemory|AllocError|AllocFailed .*)$/) ended = 4
            if (ended == 5 || ended < last) print run ": " $0
            if (ended == 5 || ended < last) is_wrong = 1
            last = ended
            count[ended]++
        }
        END {
            refused = count[2] + count[3] + count[4]
            if (is_wrong || !count[1] || !count[3] || count[1] + refused != most) exit 1
            print run ": " refused " allocations refused: " count[4] + 0 " before the first step, " count[3] \
                " at a step and " count[2] + 0 " at an answer, which were there at the second try"
        }' "$work/said" || {
        echo "$1: not each of $most tests ended as it should:"
        tail -n 5 "$work/said"
        return 1
    }
}

{
    cat "$here/allocations/memory.rt.txt"
    write_tests lights
    write_tests reads
    write_tests crosses
    write_tests answers
    write_tests suspends
    write_tests audits
} >"$tests/src/memory.rt"
(cd "$tests" && rt try --test --fail-alloc "$most") >"$work/said" 2>&1 || true
judge lights
judge reads
judge crosses
judge answers
judge suspends
judge audits
