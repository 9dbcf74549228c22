#!/bin/sh
# Tries tools/conform. First by what vkms and virtio-gpu answered once (to seeds 404 and 549 of docs/CONFORMANCE.md): their known
# differences are waived, and one thing that is changed besides is named at its line. Then by the stand-in for a card of checks/on_kernel:
# a script that it does right is told yes, and one thing that it does wrong is named at its line. That is a frame, an errno, one that no
# report has, an event twice, and one that is lost. A waiver lets a line pass.
#
# usage: checks/conform.sh PROGRAM
set -eu
[ $# -eq 1 ] || { sed -n '2,7s/^# \{0,1\}//p' "$0" >&2; exit 2; }
program=$(cd "$(dirname "$1")" && pwd)/$(basename "$1")
top=$(cd "$(dirname "$0")/.." && pwd)
here=$top/checks/conform
export PYTHONDONTWRITEBYTECODE=1
work=$(mktemp -d)
trap 'rm -rf "$work"' EXIT

# recorded DRIVER CHANGE: what conform says of a driver's recorded answers, with a change by a word of sed.
recorded() {
    echo "-- recorded $*"
    sed "$2" "$here/$1.answers" >"$work/answers"
    got=0
    "$top/tools/conform" --program "$program" --machine none --answers "$work/answers" "$1" "$here/$1.kms" || got=$?
    echo "status $got"
}
(
    recorded vkms ""
    recorded vkms "s/6bfe8ed9/6bfe8ed8/"
    recorded vkms "s/^R 1 28 34 EINVAL 31/R 1 28 34 ENOENT 33/"
    recorded vkms "/^E 1 30 4 100/p"
    recorded vkms "s/^R 1 24 31 event .*/R 1 24 31 none/; /^E 1 37/d"
    recorded virtio_gpu ""
    recorded virtio_gpu "s/^R 1 16 26 EINVAL 2/R 1 16 26 EINVAL 3/"
) | cmp - "$here/recorded"
echo "conform: as recorded"

"$top/checks/on_kernel.sh" "$work" >"$work/built"
if grep -q skipped "$work/built"; then
    sed 's/^on_kernel/conform/' "$work/built"
    exit 0
fi

# judged WRONG WORD..: what conform says where the stand-in does this wrong.
judged() {
    echo "-- $*"
    wrong=$1
    shift
    got=0
    STAND_IN=$wrong "$top/tools/conform" --program "$program" --on-kernel "$work/on_stand_in" "$@" stand-in "$here/judged.kms" || got=$?
    echo "status $got"
}
(
    judged nothing
    judged "frame 2"
    judged "frame 2" --waivers "$here/waivers"
    judged "ERANGE 3"
    judged "ERANGE 4"
    judged "ERANGE 4" --waivers "$here/waivers"
    judged "EIO 4"
    judged "ERANGE 6"
    judged "twice 1"
    judged "lost 2"
) 2>&1 | sed "s|$here/||" | cmp - "$here/said"
echo "conform: as said"
