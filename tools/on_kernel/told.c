#define _GNU_SOURCE
#include "told.h"

#include <errno.h>
#include <stdio.h>
#include <stdlib.h>
#include <string.h>

#include "card.h"
#include "topology.h"

enum { BYTES_OF_EVENT = 32, DIGEST_DIGITS = 64, FIRST_CRTC = 100, NO_SPACE = 25, BUSY = 26 };

/* The errno of each refusal, by its number (docs/DEVICE.md); 0 where there is none. */
static const int errno_of[] = {
    [1] = EINVAL,  [2] = EINVAL,  [3] = EINVAL,  [4] = ENOENT,  [5] = ENOENT,  [6] = EINVAL,  [7] = EINVAL,  [8] = EINVAL,
    [9] = EINVAL,  [10] = EINVAL, [11] = EINVAL, [12] = EINVAL, [13] = ERANGE, [14] = ENOSPC, [15] = EINVAL, [16] = EINVAL,
    [17] = EINVAL, [18] = EINVAL, [19] = EINVAL, [20] = EINVAL, [21] = EINVAL, [22] = ERANGE, [23] = EINVAL, [24] = EINVAL,
    [25] = ENOMEM, [26] = EBUSY,  [31] = EINVAL, [32] = ENOSPC, [33] = ENOENT, [34] = EPERM,  [35] = EINVAL,
};
enum { REFUSALS = sizeof errno_of / sizeof *errno_of };

static struct reply *replies;
static struct commit *commits;
static struct event *events;
static struct checksum *checksums;
static unsigned reply_count, commit_count, event_count, checksum_count;

/* Makes room for one more. */
static void *grow(void *all, unsigned count, size_t size) {
    void *more = realloc(all, (count + 1) * size);
    if (!more)
        give_up("no memory", "");
    return more;
}

void tell_reply(const struct reply *r) {
    replies = grow(replies, reply_count, sizeof *r);
    replies[reply_count++] = *r;
}

void tell_commit(const struct commit *c) {
    commits = grow(commits, commit_count, sizeof *c);
    commits[commit_count++] = *c;
}

int tell_event(const struct event *e) {
    events = grow(events, event_count, sizeof *e);
    events[event_count] = *e;
    return event_count++;
}

unsigned tell_checksum(unsigned crtc, unsigned commit, const char *seen) {
    checksums = grow(checksums, checksum_count, sizeof *checksums);
    struct checksum *c = &checksums[checksum_count++];
    *c = (struct checksum){.crtc = crtc, .commit = commit};
    snprintf(c->seen, sizeof c->seen, "%s", seen);
    return checksum_count - 1;
}

unsigned told_commits(void) { return commit_count; }
const struct commit *told_commit(unsigned number) { return &commits[number]; }
struct checksum *told_checksum(unsigned number) { return number < checksum_count ? &checksums[number] : NULL; }

int last_commit(unsigned crtc) {
    for (int k = (int)commit_count - 1; k >= 0; k--)
        if (commits[k].named >> crtc & 1)
            return k;
    return -1;
}

struct checksum *find_checksum(unsigned crtc, unsigned commit) {
    for (unsigned i = 0; i < checksum_count; i++)
        if (checksums[i].crtc == crtc && checksums[i].commit == commit)
            return &checksums[i];
    return NULL;
}

/* Whether an event can be that of a commit, by what both tell. */
static bool is_event_of(const struct event *e, const struct commit *c) {
    return c->client == e->client && c->has_event && c->user_data == e->user_data && c->named >> e->crtc & 1;
}

/* The n-th such commit (from 0), or -1. */
static int find_commit(const struct event *e, unsigned n) {
    for (unsigned k = 0; k < commit_count; k++)
        if (is_event_of(e, &commits[k]) && n-- == 0)
            return k;
    return -1;
}

int commit_of_event(unsigned number) {
    const struct event *e = &events[number];
    unsigned alike = 0;
    for (unsigned i = 0; i < number; i++) {
        const struct event *o = &events[i];
        alike += o->client == e->client && o->user_data == e->user_data && o->crtc == e->crtc;
    }
    return find_commit(e, alike);
}

/* The count of a report's latch: one more than that of the one before where the CRTC is active, else the same. A commit behind the
 * last has a count that no latch has. */
static unsigned count_at(unsigned crtc, unsigned commit) {
    unsigned count = 0;
    for (unsigned k = 0; k < commit_count && k <= commit; k++)
        count += (commits[k].named & commits[k].active) >> crtc & 1;
    return commit < commit_count ? count : count + 1;
}

/* As the kernel said it */

static const char *error_name(int error) {
    const char *name = strerrorname_np(error);
    return name ? name : "EUNKNOWN";
}

static void print_event_words(const struct event *e, uint32_t sequence) {
    printf("%llu %u %u\n", (unsigned long long)e->user_data, sequence, FIRST_CRTC + e->crtc);
}

static void print_journal(void) {
    for (unsigned place = 0, i = 0; i < reply_count; i++)
        if (replies[i].is_accepted && replies[i].place == place) {
            printf("J %d %u\n", replies[i].client, replies[i].command);
            place++;
        }
}

/* Replies came in the order in which calls came back; a report has them by clients. */
static int compare_replies(const void *a, const void *b) {
    const struct reply *one = a, *other = b;
    if (one->client != other->client)
        return one->client < other->client ? -1 : 1;
    return one->command < other->command ? -1 : one->command > other->command;
}

static void sort_replies(void) { qsort(replies, reply_count, sizeof *replies, compare_replies); }

static void print_head(const struct reply *r) { printf("R %d %u %u ", r->client, r->command, r->place); }

void print_answers(const char *end) {
    print_journal();
    sort_replies();
    for (unsigned i = 0; i < reply_count; i++) {
        const struct reply *r = &replies[i];
        print_head(r);
        if (r->event >= 0) {
            printf("event ");
            print_event_words(&events[r->event], events[r->event].sequence);
        } else {
            puts(r->error ? error_name(r->error) : r->text);
        }
    }
    for (unsigned i = 0; i < checksum_count; i++)
        printf("C %u %u %s\n", checksums[i].crtc, checksums[i].commit, checksums[i].seen);
    for (unsigned i = 0; i < reply_count; i++)
        if (replies[i].event >= 0) {
            printf("E %d ", replies[i].client);
            print_event_words(&events[replies[i].event], events[replies[i].event].sequence);
        }
    puts(end);
}

/* A report */

static uint32_t sequence_of(unsigned event) {
    int commit = commit_of_event(event);
    return count_at(events[event].crtc, commit < 0 ? commit_count : (unsigned)commit);
}

/* The number of a refusal: the expected one where its errno is this, else the least of that errno, which cannot be right there; 0 where
 * no refusal has it. */
static unsigned refusal_number(const struct reply *r, const char *expected) {
    const char *name = error_name(r->error);
    size_t length = strlen(name);
    if (!strncmp(expected, name, length) && expected[length] == ' ' && r->error != ENOMEM && r->error != EBUSY)
        return strtoul(expected + length, NULL, 10);
    for (unsigned i = 1; i < REFUSALS; i++)
        if (errno_of[i] == r->error)
            return i;
    return 0;
}

static void print_refusal(const struct reply *r, unsigned number) {
    if (number == NO_SPACE)
        printf("ENOMEM events %u %u\n", number, r->used);
    else if (number == BUSY)
        printf("EBUSY %u crtc%d %u\n", number, r->busy_crtc < 0 ? 0 : r->busy_crtc, r->busy_commit);
    else
        printf("%s %u\n", error_name(r->error), number);
}

/* False, and nothing printed, where no report has such a reply. */
static bool print_report_reply(const struct reply *r, const struct expected *expected) {
    unsigned number = r->error ? refusal_number(r, expected_reply(expected, r->client, r->command)) : 0;
    if (r->error && !number)
        return false;
    print_head(r);
    if (r->error) {
        print_refusal(r, number);
    } else if (r->event >= 0) {
        printf("event ");
        print_event_words(&events[r->event], sequence_of(r->event));
    } else {
        puts(r->text);
    }
    return true;
}

/* The digits of a checksum, behind so many zeros that they are a digest's. */
static void print_padded(const char *sum) {
    const char *digits = strrchr(sum, 'x') ? strrchr(sum, 'x') + 1 : sum;
    int count = strlen(digits);
    for (int i = count; i < DIGEST_DIGITS; i++)
        putchar('0');
    puts(count > DIGEST_DIGITS ? digits + count - DIGEST_DIGITS : digits);
}

/* Whether the driver's checksum of what was shown is that of the expected frame. */
static bool is_as_expected(const struct checksum *c, struct frame f, bool is_vkms) {
    if (!is_vkms || !f.bytes)
        return *c->alone && !strcmp(c->seen, c->alone);
    const char *last = strrchr(c->seen, ' ');
    return strtoul(last ? last + 1 : c->seen, NULL, 16) == vkms_checksum(f);
}

/* Prints the latch of a commit; true where its frame was seen, or is none. */
static bool print_latch(unsigned crtc, unsigned commit, const struct expected *expected, bool is_vkms) {
    const struct commit *of = &commits[commit];
    printf("L %u %u %u ", crtc, commit, count_at(crtc, commit));
    if (!(of->active >> crtc & 1)) {
        puts("off");
        return true;
    }
    const char *digest = expected_digest(expected, crtc, of->client, of->command);
    const struct checksum *c = find_checksum(crtc, commit);
    if (*digest && (!c || is_as_expected(c, expected_frame(expected, crtc, of->client, of->command), is_vkms))) {
        puts(digest);
        return c != NULL;
    }
    print_padded(c ? c->seen : "");
    return c != NULL;
}

static void print_latches(const struct expected *expected, bool is_vkms) {
    unsigned unseen = 0;
    for (unsigned crtc = 0; crtc < MOST_CRTCS; crtc++)
        for (unsigned k = 0; k < commit_count; k++)
            if (commits[k].named >> crtc & 1)
                unseen += !print_latch(crtc, k, expected, is_vkms);
    if (unseen)
        fprintf(stderr, "on_kernel: %u frames were not seen\n", unseen);
}

int print_report(const char *end, const struct expected *expected, bool is_vkms) {
    print_journal();
    sort_replies();
    for (unsigned i = 0; i < reply_count; i++)
        if (!print_report_reply(&replies[i], expected)) {
            fprintf(stderr, "on_kernel: command %u of client %d: %s, which no report has\n", replies[i].command, replies[i].client,
                    error_name(replies[i].error));
            return 6;
        }
    print_latches(expected, is_vkms);
    for (unsigned i = 0; i < reply_count; i++)
        if (replies[i].event >= 0) {
            printf("E %d ", replies[i].client);
            print_event_words(&events[replies[i].event], sequence_of(replies[i].event));
        }
    puts(end);
    return 0;
}
