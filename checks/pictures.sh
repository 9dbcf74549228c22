#!/bin/sh
# Makes the pictures of docs/pictures anew, those of frames with a built program, and compares them with what stands there, frames
# pixel by pixel. (That of a history is made by checks/examples.sh.)
#
# usage: checks/pictures.sh PROGRAM
set -eu
[ $# -eq 1 ] || { sed -n '2,5s/^# \{0,1\}//p' "$0" >&2; exit 2; }
program=$1
top=$(cd "$(dirname "$0")/.." && pwd)
export PYTHONDONTWRITEBYTECODE=1
work=$(mktemp -d)
trap 'rm -rf "$work"' EXIT
"$top/tools/commit_path.py" | cmp - "$top/docs/pictures/commit.svg"
echo "commit_path.py: as docs/pictures/commit.svg"
# frames EXAMPLE FOLDER SCALE
frames() {
    "$program" one --ppm <"$top/examples/$1.kms" | "$top/tools/frames.py" "$work/$1" "$3"
    "$top/tools/frames.py" --same "$work/$1" "$top/$2"
    echo "one --ppm < $1.kms: as $2"
}
frames two_screens docs/pictures 3
frames blend_modes docs/pictures/blend 8
frames scaling docs/pictures/scaling 8
