/* A compositor's test: is a cursor that moves over a scaled primary plane accepted, and which frame is shown? */
#include "kms.h"

#include <stdio.h>
#include <string.h>

static const char script[] =
    "kms 2\ncrtcs 1\nplane primary 0 XR24\nplane cursor 0 AR24\nconn 0\nclient\n"
    "buffer ground 4 4 XR24 checker 00ffffff 00a0a0a0 1\naddfb groundfb ground\n"
    "buffer arrow 2 2 AR24 solid ffd02020\naddfb arrowfb arrow\n"
    "mode small 1000 8 8 8 8 0 8 8 8 8 0 60 0 0 8x8\n"
    "atomic 0x400 0 crtc0.ACTIVE=1 crtc0.MODE_ID=@small conn0.CRTC_ID=crtc0 plane0.FB_ID=@groundfb"
    " plane0.CRTC_ID=crtc0 plane0.CRTC_W=8 plane0.CRTC_H=8 plane0.SRC_W=262144 plane0.SRC_H=262144"
    " plane1.FB_ID=@arrowfb plane1.CRTC_ID=crtc0 plane1.CRTC_W=2 plane1.CRTC_H=2 plane1.SRC_W=131072"
    " plane1.SRC_H=131072\n"
    "atomic 0x0 0 plane1.CRTC_X=3 plane1.CRTC_Y=2\n";

static const char move[] = "R 1 7 6 commit 1\n";
static const char frame[] = "L 0 1 2 5a22b3170e087f5b6a6c7bb70289f823d3986873d43eabcd9627bd42294cfd08\n";

int main(void) {
    char report[4096];
    struct kms_told told;
    kms_one((const uint8_t *)script, sizeof script - 1, 0, (uint8_t *)report, sizeof report - 1, &told);
    if (told.status != KMS_DRAINED) return fprintf(stderr, "status %u, line %u\n", told.status, told.line), 1;
    report[told.length] = 0;
    if (!strstr(report, move)) return fprintf(stderr, "the move is refused:\n%s", report), 1;
    if (!strstr(report, frame)) return fprintf(stderr, "another frame:\n%s", report), 1;
    return 0;
}
