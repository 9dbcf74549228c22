#define _GNU_SOURCE
#include "script.h"

#include <stdarg.h>
#include <stdlib.h>
#include <string.h>
#include <sys/stat.h>

/* As many as a script may have, and what one call may make at most. */
enum { MOST_CLIENTS = 16, MOST_COMMANDS = 4096, MOST_LABELS = 4096, ROOM = 64 };

enum { MOST_FILES = 4096, MOST_KINDS = 64 };
#define NO_FILE UINT32_MAX

struct client {
    char *lines[MOST_COMMANDS]; /* none where one was taken back */
    unsigned count, number, label_count;
};

static struct topology card;
static dev_t card_device;
static struct client *clients[MOST_CLIENTS];
static unsigned client_count;
static struct client *of_files[MOST_FILES];
static struct {
    enum kind kind;
    uint32_t id;
    char label[LABEL_SIZE];
} things[MOST_LABELS];
static unsigned thing_count, label_count;
static struct {
    char what[64];
    unsigned long count;
} left_out[MOST_KINDS];
static unsigned left_out_count;

/* Clients */

static struct client *add_client(int file) {
    struct stat s;
    if (fstat(file, &s))
        return NULL;
    if (!client_count) {
        card_device = s.st_rdev;
        card = read_topology(file);
    }
    if (client_count == MOST_CLIENTS || s.st_rdev != card_device) {
        leave_out("calls of another card, or of a client more than a script may have");
        return NULL;
    }
    struct client *c = calloc(1, sizeof *c);
    clients[client_count++] = of_files[file] = c;
    c->number = client_count;
    return c;
}

struct client *known_client(int file) { return file >= 0 && file < MOST_FILES ? of_files[file] : NULL; }

struct client *client_of(int file) {
    bool is_new = file >= 0 && file < MOST_FILES && !of_files[file];
    return is_new ? add_client(file) : known_client(file);
}

void forget_file(int file) {
    if (known_client(file))
        of_files[file] = NULL;
    for (unsigned i = 0; i < thing_count; i++)
        if (things[i].kind == FENCE && things[i].id == (uint32_t)file)
            things[i].id = NO_FILE;
}

const struct topology *card_topology(void) { return &card; }

bool is_begun(void) { return client_count > 0; }

/* Lines */

bool has_room(const struct client *c) {
    bool is_there = c->count + ROOM <= MOST_COMMANDS && label_count + ROOM <= MOST_LABELS;
    if (!is_there)
        leave_out("calls behind the last that a script has room for");
    return is_there;
}

unsigned add_line(struct client *c, char *line) {
    c->lines[c->count] = line;
    return c->count++;
}

void say(struct client *c, const char *words, ...) {
    char *line;
    va_list rest;
    va_start(rest, words);
    if (vasprintf(&line, words, rest) >= 0)
        add_line(c, line);
    va_end(rest);
}

void take_back(struct client *c, unsigned line) {
    free(c->lines[line]);
    c->lines[line] = NULL;
}

/* Labels */

void make_label(struct client *c, char *label, char letter) {
    snprintf(label, LABEL_SIZE, "%c%u_%u", letter, c->number, c->label_count++);
    label_count++;
}

void remember(enum kind kind, uint32_t id, const char *label) {
    things[thing_count].kind = kind;
    things[thing_count].id = id;
    snprintf(things[thing_count++].label, LABEL_SIZE, "%s", label);
}

const char *label_of(enum kind kind, uint32_t id) {
    for (unsigned i = thing_count; i > 0; i--)
        if (things[i - 1].kind == kind && things[i - 1].id == id)
            return things[i - 1].label;
    return NULL;
}

/* What is left out */

static unsigned long *count_of(const char *what) {
    for (unsigned i = 0; i < left_out_count; i++)
        if (!strcmp(left_out[i].what, what))
            return &left_out[i].count;
    if (left_out_count == MOST_KINDS)
        return &left_out[MOST_KINDS - 1].count;
    snprintf(left_out[left_out_count].what, sizeof left_out->what, "%s", what);
    return &left_out[left_out_count++].count;
}

void leave_out(const char *what, ...) {
    char text[sizeof left_out->what];
    va_list rest;
    va_start(rest, what);
    vsnprintf(text, sizeof text, what, rest);
    va_end(rest);
    ++*count_of(text);
}

/* The script */

static void write_head(FILE *to) {
    fputs("kms 2\n", to);
    print_crtcs_line(to, &card);
    for (unsigned i = 0; i < card.plane_count; i++)
        print_plane_line(to, &card.planes[i]);
    for (unsigned i = 0; i < card.connector_count; i++)
        print_connector_line(to, &card.connectors[i]);
}

void write_script(FILE *to, FILE *notes) {
    unsigned commands = 0;
    write_head(to);
    for (unsigned i = 0; i < client_count; i++) {
        fputs("client\n", to);
        for (unsigned n = 0; n < clients[i]->count; n++)
            if (clients[i]->lines[n]) {
                fprintf(to, "%s\n", clients[i]->lines[n]);
                commands++;
            }
    }
    fprintf(notes, "record: %u commands of %u clients\n", commands, client_count);
    for (unsigned i = 0; i < left_out_count; i++)
        fprintf(notes, "record: left out %lu times: %s\n", left_out[i].count, left_out[i].what);
}
