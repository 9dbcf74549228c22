#!/bin/sh
# Four CRTCs of 1920x1080, each with an opaque primary plane and a cursor of 64x64, and a hundred commits, each of which moves
# the cursor of the next CRTC: 104 frames, compared with plain C, where the path of the program is given.
set -eu
here=$(dirname "$0")
. "$here/../beside.sh"
beside screens "$here/screens.c" "$here/screens.kms" "${1-}"
