#include "expected.h"

#include <stdbool.h>
#include <stdio.h>
#include <stdlib.h>
#include <string.h>

#include "card.h"

struct expected_reply {
    int client;
    unsigned command;
    char words[128];
};

struct expected_latch {
    unsigned crtc, commit;
    char digest[DIGEST_SIZE];
    struct frame frame;
};

struct expected {
    struct expected_reply *replies;
    struct expected_latch *latches;
    unsigned reply_count, latch_count;
};

static void add_reply(struct expected *e, const char *line) {
    struct expected_reply r = {0};
    if (sscanf(line, "R %d %u %*u %127[^\n]", &r.client, &r.command, r.words) != 3)
        give_up("not a reply of a report", line);
    e->replies = realloc(e->replies, (e->reply_count + 1) * sizeof r);
    e->replies[e->reply_count++] = r;
}

static void add_latch(struct expected *e, const char *line) {
    struct expected_latch l = {0};
    if (sscanf(line, "L %u %u %*u %64s", &l.crtc, &l.commit, l.digest) != 3)
        give_up("not a latch of a report", line);
    e->latches = realloc(e->latches, (e->latch_count + 1) * sizeof l);
    e->latches[e->latch_count++] = l;
}

/* The next number, without scanf's costs: a report has many. */
static bool read_channel(FILE *from, uint8_t *channel) {
    int next = getc_unlocked(from), value = 0;
    while (next == ' ' || next == '\n')
        next = getc_unlocked(from);
    bool is_number = next >= '0' && next <= '9';
    for (; next >= '0' && next <= '9'; next = getc_unlocked(from))
        value = 10 * value + next - '0';
    *channel = value;
    return is_number && value < 256;
}

/* The frame of the latch before, whose first line, `P3`, was read. */
static void add_frame(struct expected *e, FILE *from) {
    struct frame f;
    if (!e->latch_count || fscanf(from, "%u %u 255", &f.width, &f.height) != 2)
        give_up("not a frame of a report", "P3");
    size_t size = 3 * (size_t)f.width * f.height;
    f.bytes = malloc(size);
    for (size_t i = 0; i < size; i++)
        if (!read_channel(from, &f.bytes[i]))
            give_up("a frame that is too short", "");
    e->latches[e->latch_count - 1].frame = f;
}

struct expected *read_expected(const char *path) {
    struct expected *e = calloc(1, sizeof *e);
    FILE *from = fopen(path, "r");
    char *line = NULL;
    size_t size = 0;
    if (!from)
        give_up("no such report", path);
    while (getline(&line, &size, from) > 0)
        if (*line == 'R')
            add_reply(e, line);
        else if (*line == 'L')
            add_latch(e, line);
        else if (*line == 'P')
            add_frame(e, from);
    free(line);
    fclose(from);
    return e;
}

const char *expected_reply(const struct expected *e, int client, unsigned command) {
    for (unsigned i = 0; i < e->reply_count; i++)
        if (e->replies[i].client == client && e->replies[i].command == command)
            return e->replies[i].words;
    return "";
}

/* The latch of the commit that a command made. It is found by the command, since a kernel may count its commits otherwise. */
static const struct expected_latch *find_latch(const struct expected *e, unsigned crtc, int client, unsigned command) {
    unsigned commit;
    if (sscanf(expected_reply(e, client, command), "commit %u", &commit) != 1)
        return NULL;
    for (unsigned i = 0; i < e->latch_count; i++)
        if (e->latches[i].crtc == crtc && e->latches[i].commit == commit)
            return &e->latches[i];
    return NULL;
}

const char *expected_digest(const struct expected *e, unsigned crtc, int client, unsigned command) {
    const struct expected_latch *l = find_latch(e, crtc, client, command);
    return l ? l->digest : "";
}

struct frame expected_frame(const struct expected *e, unsigned crtc, int client, unsigned command) {
    const struct expected_latch *l = find_latch(e, crtc, client, command);
    return l ? l->frame : (struct frame){0};
}

/* The kernel's crc32_le, by its polynomial, lowest bit first: four bits at a time, by what they make of a sum. */
static uint32_t add_byte(uint32_t sum, uint8_t byte) {
    static uint32_t made[16];
    for (uint32_t bits = 1; !made[15] && bits < 16; bits++) {
        made[bits] = bits;
        for (int i = 0; i < 4; i++)
            made[bits] = made[bits] >> 1 ^ (made[bits] & 1 ? 0xedb88320u : 0);
    }
    sum ^= byte;
    sum = sum >> 4 ^ made[sum & 15];
    return sum >> 4 ^ made[sum & 15];
}

/* A channel of 8 bits as one of 16 has the byte twice. */
static uint32_t add_channel(uint32_t sum, uint8_t byte) { return add_byte(add_byte(sum, byte), byte); }

uint32_t vkms_checksum(struct frame f) {
    uint32_t sum = 0;
    for (size_t i = 0; i < (size_t)f.width * f.height; i++) {
        sum = add_channel(sum, 0xff);
        for (unsigned channel = 0; channel < 3; channel++)
            sum = add_channel(sum, f.bytes[3 * i + channel]);
    }
    return sum;
}
