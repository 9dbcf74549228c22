/* What a card has: `on_kernel CARD --describe`. README.md, beside this file, says what the lines are. */
#include <errno.h>
#include <inttypes.h>
#include <stdio.h>
#include <unistd.h>

#include "topology.h"

#ifndef DRM_CAP_ATOMIC_ASYNC_PAGE_FLIP
#define DRM_CAP_ATOMIC_ASYNC_PAGE_FLIP 0x15
#endif

static bool is_signed(const drmModePropertyRes *p) {
    return (p->flags & DRM_MODE_PROP_EXTENDED_TYPE) == DRM_MODE_PROP_SIGNED_RANGE;
}

static const char *kind_of(const drmModePropertyRes *p) {
    if (p->flags & DRM_MODE_PROP_BLOB)
        return "blob";
    if (p->flags & DRM_MODE_PROP_ENUM)
        return "enum";
    if (p->flags & DRM_MODE_PROP_BITMASK)
        return "bitmask";
    if ((p->flags & DRM_MODE_PROP_EXTENDED_TYPE) == DRM_MODE_PROP_OBJECT)
        return "object";
    return is_signed(p) ? "signed" : "range";
}

/* The ends of a range, or the values of an enum. */
static void print_values(const drmModePropertyRes *p) {
    bool is_range = is_signed(p) || p->flags & DRM_MODE_PROP_RANGE;
    for (int i = 0; is_range && i < p->count_values; i++)
        if (is_signed(p))
            printf(" %" PRId64, (int64_t)p->values[i]);
        else
            printf(" %" PRIu64, (uint64_t)p->values[i]);
    for (int i = 0; i < p->count_enums; i++)
        printf(" %" PRIu64, (uint64_t)p->enums[i].value);
    printf("\n");
}

static void print_properties(int file, const char *kind, unsigned index, uint32_t id, uint32_t type) {
    drmModeObjectProperties *all = drmModeObjectGetProperties(file, id, type);
    for (uint32_t i = 0; all && i < all->count_props; i++) {
        drmModePropertyRes *p = drmModeGetProperty(file, all->props[i]);
        if (!p)
            continue;
        char name[DRM_PROP_NAME_LEN];
        write_name(name, p->name);
        printf("property %s%u %s%s %s", kind, index, name, p->flags & DRM_MODE_PROP_IMMUTABLE ? " immutable" : "", kind_of(p));
        print_values(p);
        drmModeFreeProperty(p);
    }
    drmModeFreeObjectProperties(all);
}

static void print_mode(unsigned connector, const drmModeModeInfo *m) {
    printf("mode %u %u %u %u %u %u %u", connector, m->clock, m->hdisplay, m->hsync_start, m->hsync_end, m->htotal, m->hskew);
    printf(" %u %u %u %u %u %u", m->vdisplay, m->vsync_start, m->vsync_end, m->vtotal, m->vscan, m->vrefresh);
    printf(" %u %u %s\n", m->flags, m->type, m->name);
}

static void print_modes(int file, unsigned index, uint32_t id) {
    drmModeConnector *c = drmModeGetConnector(file, id);
    for (int i = 0; c && i < c->count_modes; i++)
        print_mode(index, &c->modes[i]);
    drmModeFreeConnector(c);
}

static void describe_objects(int file, const struct topology *t) {
    print_crtcs_line(stdout, t);
    for (unsigned i = 0; i < t->crtc_count; i++)
        print_properties(file, "crtc", i, t->crtcs[i], DRM_MODE_OBJECT_CRTC);
    for (unsigned i = 0; i < t->plane_count; i++) {
        print_plane_line(stdout, &t->planes[i]);
        print_properties(file, "plane", i, t->planes[i].id, DRM_MODE_OBJECT_PLANE);
    }
    for (unsigned i = 0; i < t->connector_count; i++) {
        print_connector_line(stdout, &t->connectors[i]);
        print_modes(file, i, t->connectors[i].id);
        print_properties(file, "conn", i, t->connectors[i].id, DRM_MODE_OBJECT_CONNECTOR);
    }
}

static uint64_t capability(int file, uint64_t which) {
    uint64_t value = 0;
    return drmGetCap(file, which, &value) ? 0 : value;
}

/* Whether the kernel has CLOSEFB: it then looks for the framebuffer, which is not there. */
static bool has_closefb(int file) {
    struct drm_mode_closefb close = {.fb_id = UINT32_MAX};
    return !drmIoctl(file, DRM_IOCTL_MODE_CLOSEFB, &close) || errno == ENOENT;
}

void describe(int file) {
    drmVersion *driver = drmGetVersion(file);
    drmModeRes *card = drmModeGetResources(file);
    if (!card)
        give_up("the card has no mode setting", "");
    printf("driver %s\n", driver ? driver->name : "unknown");
    printf("sizes %u %u %u %u\n", card->min_width, card->min_height, card->max_width, card->max_height);
    printf("cursor %" PRIu64 " %" PRIu64 "\n", capability(file, DRM_CAP_CURSOR_WIDTH), capability(file, DRM_CAP_CURSOR_HEIGHT));
    printf("fences %s\n", access(SW_SYNC, R_OK | W_OK) ? "no" : "yes");
    printf("async %s\n", capability(file, DRM_CAP_ATOMIC_ASYNC_PAGE_FLIP) ? "yes" : "no");
    printf("closefb %s\n", has_closefb(file) ? "yes" : "no");
    struct topology t = read_topology(file);
    describe_objects(file, &t);
    drmModeFreeResources(card);
    drmFreeVersion(driver);
}
