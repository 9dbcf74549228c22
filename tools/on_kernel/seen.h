/* What a card shows, as far as its driver's checksums tell. */
#ifndef SEEN_H
#define SEEN_H

#include "card.h"
#include "expected.h"

/* A card's file, the number of its debugfs folder, and the objects that a script uses. */
struct view {
    int file, minor;
    const struct objects *crtcs, *planes, *connectors;
};

/* Whether the card has this driver. */
bool is_driver(int file, const char *name);

/* Tells the checksum of what a CRTC shows, as that of a commit, and keeps its mode; nothing where the driver gives none. */
void see_frame(const struct view *v, unsigned crtc, unsigned commit);

/* Shows each expected frame whose checksum was told alone, on the primary plane of its CRTC in the mode that it had, and keeps the
 * driver's checksum of it. For drivers whose checksum is not known: equal frames have equal checksums. All else is turned off. */
void see_alone(const struct view *v, const struct expected *expected);

#endif
