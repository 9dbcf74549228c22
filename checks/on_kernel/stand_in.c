/* A card that is none: it answers the calls that on_kernel makes of libdrm and of the system, so that the tool's own books can
 * be tried with no kernel. It has two CRTCs, a primary plane for each, an overlay and a cursor for both, and two connectors for both.
 *
 * A request is refused where it names what is not there, needs a modeset that is not allowed, asks for an event with no CRTC or in
 * a test, or does not block and meets a commit that has not flipped. Nothing else is checked. A commit flips once its fences are
 * signalled and those before it on its CRTCs have flipped; one that blocks waits for that before it is swapped, as Linux does.
 *
 * Its checksum of a CRTC is one of the bytes of the primary plane's buffer, so it sees a picture of that plane alone. The variable
 * STAND_IN has one thing go wrong: `EIO N` or `ERANGE N` (request N, from 1, is refused so), `frame N` (the N-th checksum is another),
 * `twice N` or `lost N` (the N-th event). */
#define _GNU_SOURCE
#include <errno.h>
#include <fcntl.h>
#include <pthread.h>
#include <stdarg.h>
#include <stdio.h>
#include <stdlib.h>
#include <string.h>
#include <sys/ioctl.h>
#include <sys/mman.h>
#include <sys/socket.h>
#include <unistd.h>

#include <drm_fourcc.h>

#include "card.h"

enum { CRTCS = 2, PLANES = 4, OBJECTS = 2 * CRTCS + PLANES };
enum { FIRST_CRTC = 31, FIRST_PLANE = 41, FIRST_CONNECTOR = 51, FIRST_PROPERTY = 71, FIRST_MADE = 1001 };
enum { OF_CRTC = 1, OF_PLANE = 2, OF_CONNECTOR = 4 };
enum { MOST_FILES = 4096, MOST_PENDING = 64, MOST_IDS = 4096 };

static const struct {
    const char *name;
    unsigned kinds;
    uint32_t flags;
    uint64_t values[2];
} properties[] = {
    {"type", OF_PLANE, DRM_MODE_PROP_ENUM | DRM_MODE_PROP_IMMUTABLE, {0}},
    {"ACTIVE", OF_CRTC, DRM_MODE_PROP_RANGE, {0, 1}},
    {"MODE_ID", OF_CRTC, DRM_MODE_PROP_BLOB, {0}},
    {"OUT_FENCE_PTR", OF_CRTC, DRM_MODE_PROP_RANGE, {0, UINT64_MAX}},
    {"FB_ID", OF_PLANE, DRM_MODE_PROP_OBJECT, {0}},
    {"CRTC_ID", OF_PLANE | OF_CONNECTOR, DRM_MODE_PROP_OBJECT, {0}},
    {"CRTC_X", OF_PLANE, DRM_MODE_PROP_SIGNED_RANGE, {(uint64_t)INT32_MIN, INT32_MAX}},
    {"CRTC_Y", OF_PLANE, DRM_MODE_PROP_SIGNED_RANGE, {(uint64_t)INT32_MIN, INT32_MAX}},
    {"CRTC_W", OF_PLANE, DRM_MODE_PROP_RANGE, {0, INT32_MAX}},
    {"CRTC_H", OF_PLANE, DRM_MODE_PROP_RANGE, {0, INT32_MAX}},
    {"SRC_X", OF_PLANE, DRM_MODE_PROP_RANGE, {0, UINT32_MAX}},
    {"SRC_Y", OF_PLANE, DRM_MODE_PROP_RANGE, {0, UINT32_MAX}},
    {"SRC_W", OF_PLANE, DRM_MODE_PROP_RANGE, {0, UINT32_MAX}},
    {"SRC_H", OF_PLANE, DRM_MODE_PROP_RANGE, {0, UINT32_MAX}},
    {"IN_FENCE_FD", OF_PLANE, DRM_MODE_PROP_SIGNED_RANGE, {(uint64_t)-1, INT32_MAX}},
    {"alpha", OF_PLANE, DRM_MODE_PROP_RANGE, {0, 65535}},
    {"pixel blend mode", OF_PLANE, DRM_MODE_PROP_ENUM, {0}},
    {"zpos", OF_PLANE, DRM_MODE_PROP_RANGE | DRM_MODE_PROP_IMMUTABLE, {0, 3}},
};
enum { PROPERTIES = sizeof properties / sizeof *properties };

struct commit {
    unsigned number, crtcs, events; /* bits: the CRTCs that it names, and those with an event */
    int file, fences[PLANES], out_fences[CRTCS];
    unsigned fence_count;
    uint64_t user_data;
};

struct request {
    struct commit commit;
    uint64_t states[OBJECTS][PROPERTIES];
    int32_t *out_pointers[CRTCS];
    bool is_modeset;
};

static const uint64_t plane_types[PLANES] = {DRM_PLANE_TYPE_PRIMARY, DRM_PLANE_TYPE_PRIMARY, DRM_PLANE_TYPE_OVERLAY, DRM_PLANE_TYPE_CURSOR};
static const uint32_t object_ids[OBJECTS] = {31, 32, 41, 42, 43, 44, 51, 52};
static uint64_t values[OBJECTS][PROPERTIES];
static int other_ends[MOST_FILES];  /* of a card's file: where its events are written */
static int fence_files[MOST_FILES]; /* of a timeline's file */
static enum { NO_FENCE, WAITING, SIGNALLED } fences[MOST_FILES];
static bool is_open[MOST_IDS]; /* framebuffers and blobs */
static uint32_t made_count, handle_count, commit_count, counts[CRTCS];
static struct buffer {
    size_t size;
    const uint8_t *bytes;
} buffers[MOST_IDS]; /* by handle; the bytes stay mapped */
static uint32_t buffer_of[MOST_IDS]; /* of a framebuffer, by its id */
static drmModePropertyBlobRes blobs[MOST_IDS];
static int checksum_crtcs[MOST_FILES]; /* of a file of checksums: the CRTC, from 1 */
static unsigned request_count, event_count, checksum_count;
static struct commit pending[MOST_PENDING]; /* in order: those that have not flipped */
static unsigned pending_count;
static pthread_mutex_t card = PTHREAD_MUTEX_INITIALIZER;
static pthread_cond_t changed = PTHREAD_COND_INITIALIZER;

int __real_open(const char *path, int flags, ...);
int __real_access(const char *path, int mode);
void *__real_mmap(void *at, size_t size, int protection, int flags, int file, off_t offset);
ssize_t __real_read(int file, void *to, size_t size);

/* Whether a thing of this number is to go wrong. */
static bool goes_wrong(const char *what, unsigned number) {
    char wanted[32] = "";
    unsigned at = 0;
    const char *variable = getenv("STAND_IN");
    return variable && sscanf(variable, "%31s %u", wanted, &at) == 2 && !strcmp(wanted, what) && at == number;
}

/* Ids */

static int object_index(uint32_t id) {
    for (int i = 0; i < OBJECTS; i++)
        if (object_ids[i] == id)
            return i;
    return -1;
}

static unsigned kind_of(int object) { return object < CRTCS ? OF_CRTC : object < CRTCS + PLANES ? OF_PLANE : OF_CONNECTOR; }

static int property_index(const char *name) {
    for (int i = 0; i < (int)PROPERTIES; i++)
        if (!strcmp(properties[i].name, name))
            return i;
    abort();
}

static uint32_t make_id(void) {
    is_open[made_count] = true;
    return FIRST_MADE + made_count++;
}

static bool is_made(uint64_t id) { return id >= FIRST_MADE && id < FIRST_MADE + made_count && is_open[id - FIRST_MADE]; }

static int unmake(uint32_t id) {
    if (!is_made(id))
        return ENOENT;
    is_open[id - FIRST_MADE] = false;
    return 0;
}

static unsigned crtc_bit(uint64_t id) { return id >= FIRST_CRTC && id < FIRST_CRTC + CRTCS ? 1u << (id - FIRST_CRTC) : 0; }

static int new_fence(void) {
    int file = __real_open("/dev/null", O_RDONLY);
    fences[file] = WAITING;
    return file;
}

/* Commits */

static bool are_signalled(const struct commit *c) {
    for (unsigned i = 0; i < c->fence_count; i++)
        if (fences[c->fences[i]] != SIGNALLED)
            return false;
    return true;
}

/* The CRTCs of the first pending commits, so many of them. */
static unsigned busy_crtcs(unsigned count) {
    unsigned busy = 0;
    for (unsigned i = 0; i < count; i++)
        busy |= pending[i].crtcs;
    return busy;
}

static void send_event(const struct commit *c, unsigned crtc) {
    struct drm_event_vblank event = {.base = {.type = DRM_EVENT_FLIP_COMPLETE, .length = sizeof event},
                                     .user_data = c->user_data,
                                     .sequence = counts[crtc],
                                     .crtc_id = FIRST_CRTC + crtc};
    unsigned number = ++event_count;
    unsigned times = goes_wrong("lost", number) ? 0 : goes_wrong("twice", number) ? 2 : 1;
    while (times--)
        if (write(other_ends[c->file], &event, sizeof event) != sizeof event)
            abort();
}

static void flip(const struct commit *c) {
    for (unsigned i = 0; i < CRTCS; i++) {
        counts[i] += c->crtcs >> i & 1;
        if (c->out_fences[i])
            fences[c->out_fences[i]] = SIGNALLED;
        if (c->events >> i & 1)
            send_event(c, i);
    }
}

/* The first pending commit that may flip does; false where none may. */
static bool flip_one(void) {
    for (unsigned i = 0; i < pending_count; i++)
        if (are_signalled(&pending[i]) && !(busy_crtcs(i) & pending[i].crtcs)) {
            flip(&pending[i]);
            memmove(&pending[i], &pending[i + 1], (--pending_count - i) * sizeof *pending);
            return true;
        }
    return false;
}

static void flip_all(void) {
    while (flip_one())
        ;
    pthread_cond_broadcast(&changed);
}

static bool is_pending(unsigned number) {
    for (unsigned i = 0; i < pending_count; i++)
        if (pending[i].number == number)
            return true;
    return false;
}

/* Requests */

static bool is_value(const char *name, uint64_t value) {
    if (!strcmp(name, "FB_ID") || !strcmp(name, "MODE_ID"))
        return !value || is_made(value);
    if (!strcmp(name, "CRTC_ID"))
        return !value || crtc_bit(value);
    if (!strcmp(name, "IN_FENCE_FD"))
        return (int64_t)value == -1 || (value < MOST_FILES && fences[value] != NO_FENCE);
    return true;
}

static bool is_modeset(const char *name, int object) {
    return !strcmp(name, "ACTIVE") || !strcmp(name, "MODE_ID") || (!strcmp(name, "CRTC_ID") && kind_of(object) == OF_CONNECTOR);
}

/* Takes an assignment into the states of a request; its errno, or 0. */
static int assign(struct request *r, uint32_t id, uint32_t property, uint64_t value) {
    int object = object_index(id), at = property - FIRST_PROPERTY;
    if (object < 0 || at < 0 || at >= (int)PROPERTIES || !(properties[at].kinds & kind_of(object)))
        return ENOENT;
    const char *name = properties[at].name;
    if (properties[at].flags & DRM_MODE_PROP_IMMUTABLE || !is_value(name, value))
        return EINVAL;
    uint64_t *state = r->states[object];
    r->commit.crtcs |= kind_of(object) == OF_CRTC ? crtc_bit(id) : crtc_bit(state[property_index("CRTC_ID")]);
    if (!strcmp(name, "CRTC_ID"))
        r->commit.crtcs |= crtc_bit(value);
    if (!strcmp(name, "IN_FENCE_FD")) {
        if ((int64_t)value != -1)
            r->commit.fences[r->commit.fence_count++] = value;
        return 0;
    }
    if (!strcmp(name, "OUT_FENCE_PTR")) {
        r->out_pointers[object] = (int32_t *)(uintptr_t)value;
        return 0;
    }
    r->is_modeset |= is_modeset(name, object) && state[at] != value;
    state[at] = value;
    return 0;
}

static int check(const struct request *r, uint32_t flags) {
    bool wants_event = flags & DRM_MODE_PAGE_FLIP_EVENT, is_test = flags & DRM_MODE_ATOMIC_TEST_ONLY;
    if ((wants_event && (is_test || !r->commit.crtcs)) || (r->is_modeset && !(flags & DRM_MODE_ATOMIC_ALLOW_MODESET)))
        return EINVAL;
    bool is_busy = busy_crtcs(pending_count) & r->commit.crtcs;
    return is_busy && flags & DRM_MODE_ATOMIC_NONBLOCK && !is_test ? EBUSY : 0;
}

static void swap(struct request *r, bool blocks) {
    if (pending_count == MOST_PENDING)
        abort();
    memcpy(values, r->states, sizeof values);
    for (unsigned i = 0; i < CRTCS; i++)
        if (r->out_pointers[i])
            *r->out_pointers[i] = r->commit.out_fences[i] = new_fence();
    r->commit.number = commit_count++;
    pending[pending_count++] = r->commit;
    flip_all();
    while (blocks && is_pending(r->commit.number))
        pthread_cond_wait(&changed, &card);
}

static int commit(int file, const struct drm_mode_atomic *a) {
    struct request r = {.commit = {.file = file, .user_data = a->user_data}};
    const uint32_t *ids = (void *)(uintptr_t)a->objs_ptr, *each = (void *)(uintptr_t)a->count_props_ptr;
    const uint32_t *names = (void *)(uintptr_t)a->props_ptr;
    const uint64_t *set = (void *)(uintptr_t)a->prop_values_ptr;
    request_count++;
    if (goes_wrong("EIO", request_count))
        return EIO;
    if (goes_wrong("ERANGE", request_count))
        return ERANGE;
    memcpy(r.states, values, sizeof values);
    for (uint32_t i = 0, at = 0; i < a->count_objs; i++)
        for (uint32_t n = 0; n < each[i]; n++, at++) {
            int error = assign(&r, ids[i], names[at], set[at]);
            if (error)
                return error;
        }
    int error = check(&r, a->flags);
    if (error || a->flags & DRM_MODE_ATOMIC_TEST_ONLY)
        return error;
    r.commit.events = a->flags & DRM_MODE_PAGE_FLIP_EVENT ? r.commit.crtcs : 0;
    swap(&r, !(a->flags & DRM_MODE_ATOMIC_NONBLOCK));
    return 0;
}

/* libdrm */

int drmSetMaster(int file) { return file < 0; }
int drmDropMaster(int file) { return file < 0; }
int drmSetClientCap(int file, uint64_t capability, uint64_t value) { return file < 0 || !capability || !value; }

int drmGetCap(int file, uint64_t capability, uint64_t *value) {
    *value = capability == DRM_CAP_CURSOR_WIDTH || capability == DRM_CAP_CURSOR_HEIGHT ? 8 : 0;
    return file < 0;
}

drmVersionPtr drmGetVersion(int file) {
    static drmVersion version = {.name = "stand-in"};
    return file < 0 ? NULL : &version;
}

static int make_buffer(struct drm_mode_create_dumb *make) {
    if (!make->width || !make->height)
        return EINVAL;
    make->handle = ++handle_count;
    make->pitch = make->width * make->bpp / 8;
    make->size = (uint64_t)make->pitch * make->height;
    buffers[make->handle] = (struct buffer){make->pitch * make->height, NULL};
    return 0;
}

int drmIoctl(int file, unsigned long request, void *argument) {
    int error = 0;
    pthread_mutex_lock(&card);
    if (request == DRM_IOCTL_MODE_ATOMIC) {
        error = commit(file, argument);
    } else if (request == DRM_IOCTL_MODE_CREATE_DUMB) {
        error = make_buffer(argument);
    } else if (request == DRM_IOCTL_MODE_MAP_DUMB) {
        struct drm_mode_map_dumb *map = argument;
        map->offset = (uint64_t)map->handle << 12;
    } else {
        /* closing a framebuffer: its id is the first number */
        error = unmake(*(uint32_t *)argument);
    }
    pthread_mutex_unlock(&card);
    errno = error;
    return error ? -1 : 0;
}

int drmModeAddFB2(int file, uint32_t width, uint32_t height, uint32_t format, const uint32_t handles[4], const uint32_t pitches[4],
                  const uint32_t offsets[4], uint32_t *id, uint32_t flags) {
    bool is_there = handles[0] >= 1 && handles[0] <= handle_count && pitches[0] && !offsets[0] && !flags;
    errno = file < 0 || !width || !height || !format ? EINVAL : is_there ? 0 : ENOENT;
    if (!errno) {
        *id = make_id();
        buffer_of[*id - FIRST_MADE] = handles[0];
    }
    return errno ? -1 : 0;
}

static void *copy_of(const void *bytes, size_t size) {
    void *copy = malloc(size);
    return copy ? memcpy(copy, bytes, size) : NULL;
}

int drmModeCreatePropertyBlob(int file, const void *data, size_t size, uint32_t *id) {
    *id = make_id();
    blobs[*id - FIRST_MADE] = (drmModePropertyBlobRes){*id, size, copy_of(data, size)};
    return file < 0 || !data || !size;
}

drmModePropertyBlobPtr drmModeGetPropertyBlob(int file, uint32_t id) {
    return file < 0 || id < FIRST_MADE || id >= FIRST_MADE + made_count ? NULL : &blobs[id - FIRST_MADE];
}

void drmModeFreePropertyBlob(drmModePropertyBlobPtr it) { (void)it; }

int drmModeDestroyPropertyBlob(int file, uint32_t id) {
    errno = file < 0 ? EBADF : unmake(id);
    return errno ? -1 : 0;
}

drmModeResPtr drmModeGetResources(int file) {
    static uint32_t crtcs[] = {31, 32}, connectors[] = {51, 52}, encoders[] = {61, 62};
    static drmModeRes all = {.count_crtcs = CRTCS, .crtcs = crtcs, .count_connectors = CRTCS, .connectors = connectors,
                             .count_encoders = CRTCS, .encoders = encoders, .min_width = 4, .min_height = 4,
                             .max_width = 4096, .max_height = 4096};
    return file < 0 ? NULL : &all;
}

drmModePlaneResPtr drmModeGetPlaneResources(int file) {
    static uint32_t planes[] = {41, 42, 43, 44};
    static drmModePlaneRes all = {.count_planes = PLANES, .planes = planes};
    return file < 0 ? NULL : &all;
}

drmModePlanePtr drmModeGetPlane(int file, uint32_t id) {
    static uint32_t formats[] = {DRM_FORMAT_ARGB8888, DRM_FORMAT_NV12, DRM_FORMAT_XRGB8888};
    unsigned index = id - FIRST_PLANE;
    drmModePlane plane = {.plane_id = id, .possible_crtcs = index < CRTCS ? 1u << index : 3, .formats = formats,
                          .count_formats = plane_types[index] == DRM_PLANE_TYPE_CURSOR ? 1 : 3};
    return file < 0 ? NULL : copy_of(&plane, sizeof plane);
}

drmModeConnectorPtr drmModeGetConnector(int file, uint32_t id) {
    static uint32_t encoders[] = {61, 62};
    static drmModeModeInfo mode = {.clock = 500, .hdisplay = 24, .hsync_start = 26, .hsync_end = 30, .htotal = 40, .vdisplay = 16,
                                   .vsync_start = 18, .vsync_end = 20, .vtotal = 24, .vrefresh = 60, .type = 64, .name = "24x16"};
    drmModeConnector connector = {.connector_id = id, .connector_type = DRM_MODE_CONNECTOR_VIRTUAL, .count_modes = 1, .modes = &mode,
                                  .count_encoders = 1, .encoders = &encoders[id - FIRST_CONNECTOR]};
    return file < 0 ? NULL : copy_of(&connector, sizeof connector);
}

drmModeConnectorPtr drmModeGetConnectorCurrent(int file, uint32_t id) { return drmModeGetConnector(file, id); }

drmModeEncoderPtr drmModeGetEncoder(int file, uint32_t id) {
    drmModeEncoder encoder = {.encoder_id = id, .possible_crtcs = 3};
    return file < 0 ? NULL : copy_of(&encoder, sizeof encoder);
}

drmModePropertyPtr drmModeGetProperty(int file, uint32_t id) {
    int at = id - FIRST_PROPERTY;
    if (file < 0 || at < 0 || at >= (int)PROPERTIES)
        return NULL;
    bool is_enum = properties[at].flags & DRM_MODE_PROP_ENUM;
    static struct drm_mode_property_enum enums[] = {{.value = 0}, {.value = 1}, {.value = 2}};
    drmModePropertyRes p = {.prop_id = id, .flags = properties[at].flags, .count_values = is_enum ? 3 : 2,
                            .values = (uint64_t *)properties[at].values, .count_enums = is_enum ? 3 : 0, .enums = enums};
    snprintf(p.name, sizeof p.name, "%s", properties[at].name);
    return copy_of(&p, sizeof p);
}

drmModeObjectPropertiesPtr drmModeObjectGetProperties(int file, uint32_t id, uint32_t type) {
    static uint32_t ids[OBJECTS][PROPERTIES];
    static uint64_t now[OBJECTS][PROPERTIES];
    int object = object_index(id);
    if (file < 0 || object < 0 || !type)
        return NULL;
    drmModeObjectProperties all = {.props = ids[object], .prop_values = now[object]};
    for (int i = 0; i < (int)PROPERTIES; i++)
        if (properties[i].kinds & kind_of(object)) {
            ids[object][all.count_props] = FIRST_PROPERTY + i;
            now[object][all.count_props++] = i == property_index("type") ? plane_types[object - CRTCS] : values[object][i];
        }
    return copy_of(&all, sizeof all);
}

void drmFreeVersion(drmVersionPtr it) { (void)it; }
void drmModeFreeResources(drmModeResPtr it) { (void)it; }
void drmModeFreePlaneResources(drmModePlaneResPtr it) { (void)it; }
void drmModeFreePlane(drmModePlanePtr it) { free(it); }
void drmModeFreeConnector(drmModeConnectorPtr it) { free(it); }
void drmModeFreeEncoder(drmModeEncoderPtr it) { free(it); }
void drmModeFreeProperty(drmModePropertyPtr it) { free(it); }
void drmModeFreeObjectProperties(drmModeObjectPropertiesPtr it) { free(it); }

/* The system's calls, by the linker's --wrap: those of the card's file and of fences are answered here. */

int __wrap_open(const char *path, int flags, ...) {
    if (!strcmp(path, "stand-in")) {
        int ends[2];
        if (socketpair(AF_UNIX, SOCK_SEQPACKET, 0, ends))
            return -1;
        other_ends[ends[0]] = ends[1];
        return ends[0];
    }
    int file = __real_open(strncmp(path, "/sys/", 5) ? path : "/dev/null", flags);
    unsigned crtc;
    checksum_crtcs[file] = sscanf(path, "/sys/kernel/debug/dri/%*d/crtc-%u/", &crtc) == 1 && strstr(path, "/data") ? crtc + 1 : 0;
    checksum_count += checksum_crtcs[file] != 0;
    return file;
}

/* The bytes of the primary plane's buffer of a CRTC, summed up. */
static unsigned sum_of(unsigned crtc) {
    uint64_t framebuffer = values[CRTCS + crtc][property_index("FB_ID")];
    unsigned sum = goes_wrong("frame", checksum_count);
    if (framebuffer < FIRST_MADE)
        return sum;
    const struct buffer *b = &buffers[buffer_of[framebuffer - FIRST_MADE]];
    for (size_t i = 0; b->bytes && i < b->size; i++)
        sum = sum * 31 + (i % 4 == 3 ? 0 : b->bytes[i]);
    return sum;
}

/* The check of the recorder has its own. */
__attribute__((weak)) ssize_t __wrap_read(int file, void *to, size_t size) {
    if (file < 0 || file >= MOST_FILES || !checksum_crtcs[file])
        return __real_read(file, to, size);
    return snprintf(to, size, "0x00000001 0x%08x\n", sum_of(checksum_crtcs[file] - 1));
}

/* Buffers stay mapped. */
int __wrap_munmap(void *at, size_t size) { return at && size ? 0 : -1; }

int __wrap_access(const char *path, int mode) { return strncmp(path, "/sys/", 5) ? __real_access(path, mode) : 0; }

void *__wrap_mmap(void *at, size_t size, int protection, int flags, int file, off_t offset) {
    uint8_t *bytes = __real_mmap(at, size, protection, flags | MAP_ANONYMOUS, file < MOST_FILES ? -1 : file, 0);
    buffers[offset >> 12].bytes = bytes;
    return bytes;
}

/* Of a timeline: its fence is made, or signalled. */
int __wrap_ioctl(int timeline, unsigned long request, ...) {
    va_list rest;
    va_start(rest, request);
    struct sw_sync_create_fence_data *made = va_arg(rest, void *);
    va_end(rest);
    pthread_mutex_lock(&card);
    if (request == SW_SYNC_IOC_CREATE_FENCE)
        fence_files[timeline] = made->fence = new_fence();
    else
        fences[fence_files[timeline]] = SIGNALLED;
    flip_all();
    pthread_mutex_unlock(&card);
    return 0;
}
