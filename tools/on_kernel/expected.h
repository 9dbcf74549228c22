/* The report that a run is held beside: that of `kms one --ppm` on the same script. */
#ifndef EXPECTED_H
#define EXPECTED_H

#include <stdint.h>

enum { DIGEST_SIZE = 65 };

/* A frame's pixels: three bytes for each, row by row. */
struct frame {
    unsigned width, height;
    uint8_t *bytes; /* NULL where the report has no frame here */
};

struct expected;

/* Reads a report. */
struct expected *read_expected(const char *path);

/* The words of the reply to a command, or "". */
const char *expected_reply(const struct expected *e, int client, unsigned command);

/* The digest of what a CRTC shows after a client's command (`off` too), or "". */
const char *expected_digest(const struct expected *e, unsigned crtc, int client, unsigned command);
struct frame expected_frame(const struct expected *e, unsigned crtc, int client, unsigned command);

/* vkms's checksum of a frame: the CRC32 of its pixels, as four words of 16 bits each with full alpha (vkms_composer.c). */
uint32_t vkms_checksum(struct frame f);

#endif
