#!/bin/sh
# Compares the bytes of an event, which kms_machine_tests has, with those of the kernel's own struct
# (struct drm_event_vblank of drm.h). Skipped where the header or a C compiler is missing.
here=$(dirname "$0")
. "$here/compiling.sh"
kernel_bytes event_bytes drm.h 0200000020000000070000000000000000000000000000000100000064000000
