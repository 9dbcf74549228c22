#!/bin/sh
# Six frames of 1920x1080, two in each blend mode: an opaque layer under three and under twelve translucent ones of the same size, in
# a format with alpha and in one without. Compared with plain C, where the path of the program is given.
set -eu
here=$(dirname "$0")
. "$here/../beside.sh"
for count in 4 13; do
    for format in AR24 XR24; do
        alpha=0
        if [ "$format" = AR24 ]; then alpha=1; fi
        sh "$here/script.sh" "$count" "$format" >"$work/$count-$format.kms"
        CC="${PLAIN_CC:-cc} -DLAYERS=$count -DHAS_ALPHA=$alpha" \
            beside "layers-$count-$format" "$here/layers.c" "$work/$count-$format.kms" "${1-}"
    done
done
