/* What a run was told by the kernel, and how it is printed: as the kernel said it, or as a report that `kms audit` reads. */
#ifndef TOLD_H
#define TOLD_H

#include <stdbool.h>
#include <stddef.h>
#include <stdint.h>

#include "expected.h"

enum { CHECKSUM_SIZE = 96, REPLY_SIZE = 128 };

/* How a command ended. */
struct reply {
    int client;
    unsigned command, place; /* the place in the journal */
    int error;               /* the errno, or 0 */
    bool is_accepted;        /* it is in the journal */
    int event;               /* the event that it read, or -1 */
    unsigned used;           /* bytes of events that the client was promised and had not read */
    int busy_crtc;           /* the first CRTC that it names and a commit named before, or -1 */
    unsigned busy_commit;
    char text[REPLY_SIZE]; /* where there is neither an errno nor an event */
};

/* An accepted commit. CRTCs are bits. */
struct commit {
    int client;
    unsigned command;
    bool has_event;
    uint64_t user_data;
    unsigned named, active; /* the CRTCs that it names, and those that are active behind it */
};

struct event {
    int client;
    uint64_t user_data;
    uint32_t sequence; /* the kernel's */
    unsigned crtc;
};

/* A driver's checksum of what a CRTC showed after a commit, and of the expected frame, where it was seen alone. */
struct checksum {
    unsigned crtc, commit;
    char seen[CHECKSUM_SIZE], alone[CHECKSUM_SIZE];
};

void tell_reply(const struct reply *r);
void tell_commit(const struct commit *c);
int tell_event(const struct event *e); /* its number */
unsigned tell_checksum(unsigned crtc, unsigned commit, const char *seen); /* its number */

unsigned told_commits(void);
const struct commit *told_commit(unsigned number);
struct checksum *told_checksum(unsigned number); /* NULL behind the last */
struct checksum *find_checksum(unsigned crtc, unsigned commit); /* or NULL */

/* The last commit that named a CRTC, or -1. */
int last_commit(unsigned crtc);

/* The commit whose event this is, as far as the kernel's events tell: the first of its client with its user data that names its
 * CRTC and whose event was not read. */
int commit_of_event(unsigned number);

/* Prints what the kernel said. `end` is the line of the end. */
void print_answers(const char *end);

/* Prints a report. `is_vkms`: the driver's checksum is the one that expected.h computes. Status 0, or 6 where a reply has an errno that
 * no report has: the report ends before it, and standard error has it. */
int print_report(const char *end, const struct expected *expected, bool is_vkms);

#endif
