#!/bin/sh
# Prints a script whose CRTC shows $1 layers of 1920x1080 in six frames: an opaque one below, and above it translucent ones in the
# format $2, whose blend mode and alpha change with each frame.
set -eu
echo "kms 1
crtcs 1
plane primary 0 XR24"
for _ in $(seq 2 "$1"); do
    echo "plane overlay 0 $2"
done
echo "conn 0
client
buffer back 1920 1080 XR24 ramp
buffer over 1920 1080 $2 checker 80402010 c0306090 16
addfb backfb back
addfb overfb over
mode m 148500 1920 2008 2052 2200 0 1080 1084 1089 1125 0 60 5 64 1920x1080"
for frame in $(seq 0 5); do
    flags=0x0
    words=
    if [ "$frame" = 0 ]; then
        flags=0x400
        words=" crtc0.ACTIVE=1 crtc0.MODE_ID=@m conn0.CRTC_ID=crtc0"
    fi
    for plane in $(seq 0 $(($1 - 1))); do
        if [ "$frame" = 0 ]; then
            fb=overfb
            if [ "$plane" = 0 ]; then fb=backfb; fi
            words="$words plane$plane.FB_ID=@$fb plane$plane.CRTC_ID=crtc0 plane$plane.CRTC_X=0 plane$plane.CRTC_Y=0"
            words="$words plane$plane.CRTC_W=1920 plane$plane.CRTC_H=1080 plane$plane.SRC_W=125829120 plane$plane.SRC_H=70778880"
        fi
        if [ "$plane" != 0 ]; then
            words="$words plane$plane.alpha=$((20000 + 1000 * plane + frame)) plane$plane.pixel_blend_mode=$((frame % 3))"
        fi
    done
    echo "atomic $flags 0$words"
done
