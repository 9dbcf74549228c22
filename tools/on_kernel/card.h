/* The objects of a card and their properties. */
#ifndef CARD_H
#define CARD_H

#include <stdbool.h>
#include <stdint.h>

#include <xf86drm.h>
#include <xf86drmMode.h>

#ifndef DRM_IOCTL_MODE_CLOSEFB
struct drm_mode_closefb {
    uint32_t fb_id;
    uint32_t pad;
};
#define DRM_IOCTL_MODE_CLOSEFB DRM_IOWR(0xD0, struct drm_mode_closefb)
#endif

enum {
    MOST_OBJECTS = 64,
    MOST_PROPERTIES = 64,
};

/* The kernel's fences for tests: a timeline is an open file of SW_SYNC. (drivers/dma-buf/sw_sync.c) */
#define SW_SYNC "/sys/kernel/debug/sync/sw_sync"
struct sw_sync_create_fence_data {
    uint32_t value;
    char name[32];
    int32_t fence;
};
#define SW_SYNC_IOC_CREATE_FENCE _IOWR('W', 0, struct sw_sync_create_fence_data)
#define SW_SYNC_IOC_INC _IOW('W', 1, uint32_t)

struct property {
    uint32_t id;
    char name[DRM_PROP_NAME_LEN];
};

struct object {
    uint32_t id, type;
    uint32_t crtc; /* the CRTC that it is on, or 0; kept for planes and connectors, by what was accepted */
    struct property properties[MOST_PROPERTIES];
    unsigned count;
};

struct objects {
    struct object all[MOST_OBJECTS];
    unsigned count;
};

/* Says what is wrong and ends with status 2. */
_Noreturn void give_up(const char *what, const char *detail);

/* Writes a name of the kernel's as a script has it, with `_` for a blank; as much as a property's name may have. */
void write_name(char *to, const char *name);

/* The object with this id, and its properties. */
struct object read_object(int file, uint32_t id, uint32_t type);

/* The object of these that has the id, or none. */
struct object *find_object(struct objects *all, uint32_t id);

/* The id of a property of this name that one of these objects has, or 0. */
uint32_t property_id(const struct objects *all, const char *name);

/* What the property of this name has now, or 0. */
uint64_t property_value(int file, const struct object *o, const char *name);

/* The first encoder of a connector that may be on these CRTCs, or none; of a connector that shows nothing (writeback) none. */
drmModeEncoder *find_encoder(int file, const drmModeConnector *connector, uint32_t crtcs);

/* Prints what the card has, for a tool that writes scripts for it. */
void describe(int file);

#endif
