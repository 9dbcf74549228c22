/* The script that is recorded: the lines of each client, the labels of what they made, and how much was left out. */
#ifndef SCRIPT_H
#define SCRIPT_H

#include <stdbool.h>
#include <stdint.h>
#include <stdio.h>

#include "topology.h"

enum { LABEL_SIZE = 17 };

enum kind { FRAMEBUFFER, BLOB, FENCE };

struct client;

/* The client of an open file of the card, or none where the file has made no call yet. */
struct client *known_client(int file);

/* The same, and a new client where there is none and the script can have one more. The first file tells which card it is. */
struct client *client_of(int file);

/* The file was closed: its number may come again for another. */
void forget_file(int file);

/* What the card has, once a client is there. */
const struct topology *card_topology(void);

/* Whether there is room for all that one call makes. What has none is left out, and counted. */
bool has_room(const struct client *c);

/* Adds a line to a client's, which is then the script's; its number. */
unsigned add_line(struct client *c, char *line);

/* Adds the line that these words make. */
__attribute__((format(printf, 2, 3))) void say(struct client *c, const char *words, ...);

/* Takes a line back, as if it had not been said. */
void take_back(struct client *c, unsigned line);

/* Makes a label of a letter, the client and a number. */
void make_label(struct client *c, char *label, char letter);

/* What has a label: the kernel's id of a thing, or the file of a fence. */
void remember(enum kind kind, uint32_t id, const char *label);

/* The label of the last thing of this kind that had the id, or none. */
const char *label_of(enum kind kind, uint32_t id);

/* Counts something that a script has no words for. */
__attribute__((format(printf, 1, 2))) void leave_out(const char *what, ...);

/* Whether anything was recorded. */
bool is_begun(void);

/* Writes the script, and says how much was left out. */
void write_script(FILE *to, FILE *notes);

#endif
