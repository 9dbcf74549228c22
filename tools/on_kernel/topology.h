/* What a script can say of a card. */
#ifndef TOPOLOGY_H
#define TOPOLOGY_H

#include <stdio.h>

#include "card.h"

/* As many as a script may have. */
enum { MOST_CRTCS = 4, MOST_PLANES = 16, MOST_CONNECTORS = 8 };

struct plane_line {
    uint32_t id, crtcs;    /* a bit for each CRTC that the plane may be on */
    unsigned type, formats; /* a bit for each format */
};

struct connector_line {
    uint32_t id, crtcs;
};

struct topology {
    uint32_t crtcs[MOST_CRTCS];
    struct plane_line planes[MOST_PLANES];
    struct connector_line connectors[MOST_CONNECTORS];
    unsigned crtc_count, plane_count, connector_count;
};

/* The name of a format that a script has, or none. */
const char *format_name(uint32_t code);

/* Reads what a card has. Planes that no script can say, since they have none of its formats or none of its CRTCs, are left out. */
struct topology read_topology(int file);

/* The lines of a script for these. */
void print_crtcs_line(FILE *to, const struct topology *t);
void print_plane_line(FILE *to, const struct plane_line *p);
void print_connector_line(FILE *to, const struct connector_line *c);

#endif
