#!/bin/sh
# Compares the bytes of 1920x1080, which the tests of kms_blobs have, with those of the kernel's own struct
# (struct drm_mode_modeinfo of drm_mode.h). Skipped where the header or a C compiler is missing.
here=$(dirname "$0")
. "$here/compiling.sh"
want=144402008007d80704089808000038043c04410465040000
want=${want}3c0000000500000040000000
want=${want}3139323078313038300000000000000000000000000000000000000000000000
kernel_bytes mode_bytes drm_mode.h "$want"
