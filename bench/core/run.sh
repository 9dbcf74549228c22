#!/bin/sh
# Times the machine on generated scripts of 1000, 2000 and 4000 commits: two clients flip the planes of a CRTC each, and
# wait for the event of each flip. Builds the program of main.rt.txt beside copies of the crates that it uses, with what was
# proved of them, in a folder of its own, and runs it. It prints the steps and the time of each script, in microseconds, and fails
# where the time of 4000 commits is not below four and a half times that of 1000.
set -eu
here=$(cd "$(dirname "$0")" && pwd)
. "$here/../program.sh"
program bench_core kms_model kms_core kms_script
rt run 2>&1 | grep "commits:" | tee "$work/times"
awk '$1 == 1000 { few = $(NF - 1) } $1 == 4000 { many = $(NF - 1) } END { exit !(few && many && many < 4.5 * few) }' "$work/times"
