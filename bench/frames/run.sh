#!/bin/sh
# Ten frames of 1920x1080 of each of two kinds. frames: an opaque primary plane, an overlay of 640x480 at half alpha in each
# blend mode, and a cursor of 64x64. scaled: the same with the overlay on 960x720, and a gamma table. Each kind is
# compared with plain C, where the path of the program is given.
set -eu
here=$(dirname "$0")
. "$here/../beside.sh"
for kind in frames scaled; do
    beside "$kind" "$here/$kind.c" "$here/$kind.kms" "${1-}"
done
