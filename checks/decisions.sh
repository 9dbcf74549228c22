#!/bin/sh
# Tests the calls of the core that take locks and decide requests, one by one, as clients make them: a request is resolved
# with look-ups, states are duplicated as locks are taken, and a check of them is handed to `swap` or `test`. Look-ups that
# grew old are told. `kms_courses` makes these calls too, each once it has asked whether it may, and is proved. Here are
# besides a lock that is the client's own or a younger one's, and a request that its context decides again. These tests run
# what is proved, but are themselves not proved, since no run can ask for the conditions of these; so they are no part of
# the gate.
set -eu
here=$(cd "$(dirname "$0")" && pwd)
top=$(cd "$here/.." && pwd)
work=$(mktemp -d)
trap 'rm -rf "$work"' EXIT
(cd "$top" && tar -cf - --exclude=out HANDLES crates.txt crates) | tar -xf - -C "$work"
sed -i 's/^kms_machine_tests .*/& kms_request kms_check kms_state/' "$work/crates.txt"
cp "$here/decisions/decisions.rt.txt" "$work/crates/kms_machine_tests/src/decisions.rt"
printf '#[cfg(test)]\nmod decisions;\n' >>"$work/crates/kms_machine_tests/src/lib.rt"
cd "$work/crates/kms_machine_tests"
rt try --test >"$work/said" 2>&1 || :
grep "decisions::" "$work/said" || { cat "$work/said" >&2; exit 1; }
! grep -q "decisions::.*FAILED" "$work/said"
