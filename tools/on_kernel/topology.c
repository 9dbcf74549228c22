#include "topology.h"

#include <drm_fourcc.h>

enum { FORMATS = 3, TYPES = 3 };

static const uint32_t formats[FORMATS] = {DRM_FORMAT_XRGB8888, DRM_FORMAT_ARGB8888, DRM_FORMAT_RGB565};
static const char *const format_names[FORMATS] = {"XR24", "AR24", "RG16"};
static const char *const crtc_names[MOST_CRTCS] = {"0", "1", "2", "3"};
static const char *const types[TYPES] = {"overlay", "primary", "cursor"};

const char *format_name(uint32_t code) {
    for (unsigned f = 0; f < FORMATS; f++)
        if (formats[f] == code)
            return format_names[f];
    return NULL;
}

/* A bit for each format of a script that a plane has. */
static unsigned formats_of(const drmModePlane *p) {
    unsigned mask = 0;
    for (unsigned f = 0; f < FORMATS; f++)
        for (uint32_t i = 0; i < p->count_formats; i++)
            if (p->formats[i] == formats[f])
                mask |= 1u << f;
    return mask;
}

static uint32_t read_crtcs(struct topology *t, const drmModeRes *card) {
    while (t->crtc_count < (unsigned)card->count_crtcs && t->crtc_count < MOST_CRTCS) {
        t->crtcs[t->crtc_count] = card->crtcs[t->crtc_count];
        t->crtc_count++;
    }
    return (1u << t->crtc_count) - 1;
}

static void read_planes(struct topology *t, int file, uint32_t crtcs) {
    drmModePlaneRes *all = drmModeGetPlaneResources(file);
    for (uint32_t i = 0; all && i < all->count_planes && t->plane_count < MOST_PLANES; i++) {
        drmModePlane *p = drmModeGetPlane(file, all->planes[i]);
        struct object o = read_object(file, all->planes[i], DRM_MODE_OBJECT_PLANE);
        uint64_t type = property_value(file, &o, "type");
        if (p && p->possible_crtcs & crtcs && formats_of(p) && type < TYPES)
            t->planes[t->plane_count++] = (struct plane_line){p->plane_id, p->possible_crtcs & crtcs, type, formats_of(p)};
        drmModeFreePlane(p);
    }
    drmModeFreePlaneResources(all);
}

static void read_connectors(struct topology *t, int file, const drmModeRes *card, uint32_t crtcs) {
    for (int i = 0; i < card->count_connectors && t->connector_count < MOST_CONNECTORS; i++) {
        drmModeConnector *c = drmModeGetConnectorCurrent(file, card->connectors[i]);
        drmModeEncoder *e = c ? find_encoder(file, c, 0) : NULL;
        if (e && e->possible_crtcs & crtcs)
            t->connectors[t->connector_count++] = (struct connector_line){c->connector_id, e->possible_crtcs & crtcs};
        drmModeFreeEncoder(e);
        drmModeFreeConnector(c);
    }
}

struct topology read_topology(int file) {
    struct topology t = {0};
    drmModeRes *card = drmModeGetResources(file);
    if (card) {
        uint32_t crtcs = read_crtcs(&t, card);
        read_planes(&t, file, crtcs);
        read_connectors(&t, file, card, crtcs);
    }
    drmModeFreeResources(card);
    return t;
}

/* The names of the bits of a mask, parted by commas. */
static void print_bits(FILE *to, uint32_t mask, const char *const *names) {
    const char *comma = "";
    for (unsigned i = 0; mask >> i; i++)
        if (mask >> i & 1) {
            fprintf(to, "%s%s", comma, names[i]);
            comma = ",";
        }
}

void print_crtcs_line(FILE *to, const struct topology *t) { fprintf(to, "crtcs %u\n", t->crtc_count); }

void print_plane_line(FILE *to, const struct plane_line *p) {
    fprintf(to, "plane %s ", types[p->type]);
    print_bits(to, p->crtcs, crtc_names);
    fputc(' ', to);
    print_bits(to, p->formats, format_names);
    fputc('\n', to);
}

void print_connector_line(FILE *to, const struct connector_line *c) {
    fputs("conn ", to);
    print_bits(to, c->crtcs, crtc_names);
    fputc('\n', to);
}
