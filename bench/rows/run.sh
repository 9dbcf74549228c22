#!/bin/sh
# Times rows of 4096 places that are blended, 20,000 of each kind: two blend modes at an opaque plane, and all three at an
# alpha of 40000. Builds the program of main.rt.txt beside copies of the crates that it uses, with what was proved of them, in
# a folder of its own, and runs it.
set -eu
here=$(cd "$(dirname "$0")" && pwd)
. "$here/../program.sh"
program bench_rows kms_model kms_blend
rt run 2>&1 | grep "^mode"
