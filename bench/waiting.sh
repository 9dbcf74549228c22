#!/bin/sh
# Prints a script of sixteen clients. The first lights the CRTC and commits once more behind a fence, and fourteen wait for events.
# The last one signals the fence once it has made 3000 blobs.
set -eu
printf 'kms 1\ncrtcs 1\nplane primary 0 XR24\nconn 0\nclient\nbuffer b 1 1 XR24 solid 00616263\naddfb f b\n'
printf 'mode m 1 1 1 1 1 0 1 1 1 1 0 60 0 0 tiny\nfence n\natomic 0x400 0 crtc0.ACTIVE=1 crtc0.MODE_ID=@m'
printf ' conn0.CRTC_ID=crtc0 plane0.FB_ID=@f plane0.CRTC_ID=crtc0 plane0.CRTC_W=1 plane0.CRTC_H=1'
printf ' plane0.SRC_W=65536 plane0.SRC_H=65536\natomic 0x1 1 plane0.IN_FENCE_FD=@n\nwait\n'
for _ in 1 2 3 4 5 6 7 8 9 10 11 12 13 14; do
    printf 'client\natomic 0x1 2 plane0.alpha=9 plane0.IN_FENCE_FD=@n\nwait\n'
done
echo client
seq 1 3000 | sed 's/.*/blob p& 00/'
echo 'signal n'
