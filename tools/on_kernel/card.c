#include "card.h"

#include <stdio.h>
#include <stdlib.h>
#include <string.h>

void give_up(const char *what, const char *detail) {
    fprintf(stderr, "on_kernel: %s%s%s\n", what, *detail ? ": " : "", detail);
    exit(2);
}

void write_name(char *to, const char *name) {
    snprintf(to, DRM_PROP_NAME_LEN, "%s", name);
    for (char *at = to; *at; at++)
        if (*at == ' ')
            *at = '_';
}

struct object read_object(int file, uint32_t id, uint32_t type) {
    struct object o = {.id = id, .type = type};
    drmModeObjectProperties *all = drmModeObjectGetProperties(file, id, type);
    for (uint32_t i = 0; all && i < all->count_props && o.count < MOST_PROPERTIES; i++) {
        drmModePropertyRes *p = drmModeGetProperty(file, all->props[i]);
        if (!p)
            continue;
        struct property *to = &o.properties[o.count++];
        to->id = p->prop_id;
        write_name(to->name, p->name);
        drmModeFreeProperty(p);
    }
    drmModeFreeObjectProperties(all);
    return o;
}

struct object *find_object(struct objects *all, uint32_t id) {
    for (unsigned i = 0; i < all->count; i++)
        if (all->all[i].id == id)
            return &all->all[i];
    return NULL;
}

uint32_t property_id(const struct objects *all, const char *name) {
    for (unsigned i = 0; i < all->count; i++)
        for (unsigned j = 0; j < all->all[i].count; j++)
            if (!strcmp(all->all[i].properties[j].name, name))
                return all->all[i].properties[j].id;
    return 0;
}

uint64_t property_value(int file, const struct object *o, const char *name) {
    uint64_t value = 0;
    drmModeObjectProperties *all = drmModeObjectGetProperties(file, o->id, o->type);
    for (uint32_t i = 0; all && i < all->count_props; i++)
        for (unsigned j = 0; j < o->count; j++)
            if (o->properties[j].id == all->props[i] && !strcmp(o->properties[j].name, name))
                value = all->prop_values[i];
    drmModeFreeObjectProperties(all);
    return value;
}

drmModeEncoder *find_encoder(int file, const drmModeConnector *connector, uint32_t crtcs) {
    if (connector->connector_type == DRM_MODE_CONNECTOR_WRITEBACK)
        return NULL;
    for (int i = 0; i < connector->count_encoders; i++) {
        drmModeEncoder *e = drmModeGetEncoder(file, connector->encoders[i]);
        if (e && (e->possible_crtcs & crtcs) == crtcs)
            return e;
        drmModeFreeEncoder(e);
    }
    return NULL;
}
