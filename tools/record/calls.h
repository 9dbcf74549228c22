/* The kernel's calls as lines of a script. */
#ifndef CALLS_H
#define CALLS_H

#include <stddef.h>

#include "script.h"

/* A call that is being made: what is to be remembered of it until it comes back. */
struct call {
    int file;
    struct client *client; /* none where nothing is recorded of it */
    unsigned line;
    char foreign[MOST_PLANES][LABEL_SIZE]; /* fences that were not made by requests */
    char out[MOST_CRTCS][LABEL_SIZE];      /* out-fences, and where the kernel writes their files */
    const int32_t *out_files[MOST_CRTCS];
    unsigned foreign_count, out_count;
};

/* Whether something is said, or counted, of such a call. */
bool is_recorded(unsigned long request);

/* A call is about to be made, and has come back with this errno or 0. */
void begin_call(struct call *c, int file, unsigned long request, const void *argument);
void end_call(struct call *c, unsigned long request, const void *argument, int error);

/* Events were read. */
void note_events(int file, const void *bytes, size_t size);

#endif
