#!/bin/sh
# Times the tracker of commits after 100 to 100,000 commits on one CRTC in turn. Builds the program of main.rt.txt beside
# copies of the crates that it uses, in a folder of its own, and runs it: for each number of commits it prints the time that
# they took, and that of a million calls of `busy` and of `ready`, in microseconds. These stay where no call costs more for
# the commits that are over.
set -eu
here=$(cd "$(dirname "$0")" && pwd)
. "$here/../program.sh"
program bench_tracker kms_model kms_signal kms_track
rt run 2>&1 | grep "commits in"
