#include "seen.h"

#include <fcntl.h>
#include <stdio.h>
#include <stdlib.h>
#include <string.h>
#include <sys/mman.h>
#include <unistd.h>

#include <drm_fourcc.h>

#include "told.h"

enum { MOST_SETS = 256, PRIMARY = 1 };

/* The mode and the connector of each frame that was seen, in the order of the checksums. */
struct lit {
    drmModeModeInfo mode;
    uint32_t connector;
};
static struct lit *lit;

bool is_driver(int file, const char *name) {
    drmVersionPtr version = drmGetVersion(file);
    bool is = version && !strcmp(version->name, name);
    drmFreeVersion(version);
    return is;
}

/* The driver's checksum of what a CRTC shows: the third one, which is of a frame after the commit. Each read gives a line with the
 * frame's number and the checksums. */
static bool read_checksum(const struct view *v, unsigned crtc, char sum[CHECKSUM_SIZE]) {
    char path[96], line[256] = "";
    snprintf(path, sizeof path, "/sys/kernel/debug/dri/%d/crtc-%u/crc/control", v->minor, crtc);
    int control = open(path, O_WRONLY | O_CLOEXEC);
    bool is_read = control >= 0 && write(control, "auto", 4) == 4;
    close(control);
    snprintf(path, sizeof path, "/sys/kernel/debug/dri/%d/crtc-%u/crc/data", v->minor, crtc);
    int data = is_read ? open(path, O_RDONLY | O_CLOEXEC) : -1;
    for (unsigned i = 0; is_read && i < 3; i++) {
        ssize_t length = read(data, line, sizeof line - 1);
        is_read = length > 0;
        line[is_read ? length : 0] = 0;
    }
    close(data);
    line[strcspn(line, "\n")] = 0;
    const char *sums = strchr(line, ' ');
    snprintf(sum, CHECKSUM_SIZE, "%s", sums ? sums + 1 : "");
    return is_read && sums;
}

static drmModeModeInfo mode_of(const struct view *v, unsigned crtc) {
    drmModeModeInfo mode = {0};
    drmModePropertyBlobPtr blob = drmModeGetPropertyBlob(v->file, property_value(v->file, &v->crtcs->all[crtc], "MODE_ID"));
    if (blob && blob->length == sizeof mode)
        memcpy(&mode, blob->data, sizeof mode);
    drmModeFreePropertyBlob(blob);
    return mode;
}

static uint32_t connector_of(const struct view *v, unsigned crtc) {
    for (unsigned i = 0; i < v->connectors->count; i++)
        if (v->connectors->all[i].crtc == v->crtcs->all[crtc].id)
            return v->connectors->all[i].id;
    return 0;
}

void see_frame(const struct view *v, unsigned crtc, unsigned commit) {
    char sum[CHECKSUM_SIZE];
    if (!read_checksum(v, crtc, sum))
        return;
    unsigned number = tell_checksum(crtc, commit, sum);
    lit = realloc(lit, (number + 1) * sizeof *lit);
    lit[number] = (struct lit){mode_of(v, crtc), connector_of(v, crtc)};
}

/* A request that turns everything off but what is set in it later: a later assignment of a property wins. */
struct sets {
    uint32_t objects[MOST_SETS], counts[MOST_SETS], properties[MOST_SETS];
    uint64_t values[MOST_SETS];
    unsigned count;
};

static void set(struct sets *s, const struct objects *all, uint32_t object, const char *name, uint64_t value) {
    uint32_t property = property_id(all, name);
    if (!property || s->count == MOST_SETS)
        return;
    s->objects[s->count] = object;
    s->counts[s->count] = 1;
    s->properties[s->count] = property;
    s->values[s->count++] = value;
}

static void set_all(struct sets *s, const struct objects *all, const char *name) {
    for (unsigned i = 0; i < all->count; i++)
        set(s, all, all->all[i].id, name, 0);
}

/* The first primary plane that may be on a CRTC, or 0. */
static uint32_t primary_of(const struct view *v, unsigned crtc) {
    for (unsigned i = 0; i < v->planes->count; i++) {
        const struct object *o = &v->planes->all[i];
        drmModePlane *p = drmModeGetPlane(v->file, o->id);
        bool is_possible = p && p->possible_crtcs >> crtc & 1;
        drmModeFreePlane(p);
        if (is_possible && property_value(v->file, o, "type") == PRIMARY)
            return o->id;
    }
    return 0;
}

/* A framebuffer of the frame's pixels, or 0. */
static uint32_t make_framebuffer(int file, struct frame f) {
    struct drm_mode_create_dumb make = {.width = f.width, .height = f.height, .bpp = 32};
    if (drmIoctl(file, DRM_IOCTL_MODE_CREATE_DUMB, &make))
        return 0;
    struct drm_mode_map_dumb map = {.handle = make.handle};
    drmIoctl(file, DRM_IOCTL_MODE_MAP_DUMB, &map);
    uint8_t *bytes = mmap(NULL, make.size, PROT_READ | PROT_WRITE, MAP_SHARED, file, map.offset);
    if (bytes == MAP_FAILED)
        return 0;
    for (unsigned y = 0; y < f.height; y++)
        for (unsigned x = 0; x < f.width; x++) {
            const uint8_t *pixel = &f.bytes[3 * ((size_t)y * f.width + x)];
            ((uint32_t *)(bytes + (size_t)y * make.pitch))[x] = 0xff000000u | pixel[0] << 16 | pixel[1] << 8 | pixel[2];
        }
    munmap(bytes, make.size);
    uint32_t handles[4] = {make.handle}, pitches[4] = {make.pitch}, offsets[4] = {0}, id = 0;
    return drmModeAddFB2(file, f.width, f.height, DRM_FORMAT_XRGB8888, handles, pitches, offsets, &id, 0) ? 0 : id;
}

static bool show(const struct view *v, unsigned crtc, const struct lit *l, struct frame f) {
    struct sets s = {.count = 0};
    uint32_t mode, plane = primary_of(v, crtc), framebuffer = make_framebuffer(v->file, f), id = v->crtcs->all[crtc].id;
    if (!plane || !framebuffer || drmModeCreatePropertyBlob(v->file, &l->mode, sizeof l->mode, &mode))
        return false;
    set_all(&s, v->connectors, "CRTC_ID");
    set_all(&s, v->planes, "CRTC_ID");
    set_all(&s, v->planes, "FB_ID");
    set_all(&s, v->crtcs, "ACTIVE");
    set_all(&s, v->crtcs, "MODE_ID");
    set(&s, v->connectors, l->connector, "CRTC_ID", id);
    set(&s, v->crtcs, id, "MODE_ID", mode);
    set(&s, v->crtcs, id, "ACTIVE", 1);
    set(&s, v->planes, plane, "FB_ID", framebuffer);
    set(&s, v->planes, plane, "CRTC_ID", id);
    set(&s, v->planes, plane, "CRTC_X", 0);
    set(&s, v->planes, plane, "CRTC_Y", 0);
    set(&s, v->planes, plane, "CRTC_W", f.width);
    set(&s, v->planes, plane, "CRTC_H", f.height);
    set(&s, v->planes, plane, "SRC_X", 0);
    set(&s, v->planes, plane, "SRC_Y", 0);
    set(&s, v->planes, plane, "SRC_W", (uint64_t)f.width << 16);
    set(&s, v->planes, plane, "SRC_H", (uint64_t)f.height << 16);
    struct drm_mode_atomic atomic = {.flags = DRM_MODE_ATOMIC_ALLOW_MODESET, .count_objs = s.count, .objs_ptr = (uintptr_t)s.objects,
                                     .count_props_ptr = (uintptr_t)s.counts, .props_ptr = (uintptr_t)s.properties,
                                     .prop_values_ptr = (uintptr_t)s.values};
    return !drmIoctl(v->file, DRM_IOCTL_MODE_ATOMIC, &atomic);
}

void see_alone(const struct view *v, const struct expected *expected) {
    struct checksum *c;
    for (unsigned i = 0; (c = told_checksum(i)); i++) {
        const struct commit *of = told_commit(c->commit);
        struct frame f = expected_frame(expected, c->crtc, of->client, of->command);
        if (f.bytes && show(v, c->crtc, &lit[i], f))
            read_checksum(v, c->crtc, c->alone);
    }
}
