/* Executes the commands of a script through the kernel's mode-setting ioctls, and prints what the kernel answers.
 *
 *     on_kernel CARD [--crc] < SCRIPT
 *     on_kernel CARD --report EXPECTED < SCRIPT
 *     on_kernel CARD --describe
 *
 * CARD is a device file as /dev/dri/card0. The second prints a report, the third what the card has. README.md, beside this file, says
 * what is printed and how to run it. */
#define _GNU_SOURCE
#include <errno.h>
#include <fcntl.h>
#include <poll.h>
#include <pthread.h>
#include <semaphore.h>
#include <stdio.h>
#include <stdlib.h>
#include <string.h>
#include <sys/ioctl.h>
#include <sys/mman.h>
#include <sys/stat.h>
#include <sys/sysmacros.h>
#include <time.h>
#include <unistd.h>

#include <drm_fourcc.h>

#include "card.h"
#include "seen.h"
#include "told.h"

enum {
    MOST_CLIENTS = 16,
    MOST_THINGS = 8192,
    MOST_WORDS = 300,
    FIRST_THING = 1000,
    PATIENCE_MS = 300,      /* how long a command may take before the next client has its turn */
    MOST_STILL_ROUNDS = 10, /* rounds without an answer before the run is given up */
    REST_MS = 50,           /* how long commits that were let go have for their flips: three frames at 60 Hz */
};

/* An id and a file that nothing has. */
#define NO_ID 0xfffffff0u
#define NO_FILE 0x7ffffff0

enum kind { BUFFER, FRAMEBUFFER, BLOB, FENCE, OUT_FENCE };

struct thing {
    char label[17];
    enum kind kind;
    int owner;
    uint32_t id; /* the kernel's: a handle, a framebuffer, a blob */
    int file;    /* of a fence */
    int timeline;
    bool is_signalled;
    unsigned awaited; /* requests that wait for it, or did */
    uint32_t width, height, format, pitch;
};

struct client {
    int number, file;
    char **lines;
    unsigned count, answered_count;
    unsigned reserved; /* events that it was promised and has not read */
    bool is_running;
    bool lets_go;       /* its last command let a commit go that it did not wait for */
    struct reply reply; /* to its last command */
    sem_t turn, answered;
};

static struct objects crtcs, planes, connectors, encoders;
static struct thing things[MOST_THINGS];
static unsigned thing_count, made_count, journal_count;
static struct client clients[MOST_CLIENTS];
static unsigned client_count;
static struct client *master;
static pthread_mutex_t table = PTHREAD_MUTEX_INITIALIZER;
static int card_minor;
static bool wants_checksums;
static unsigned active; /* the CRTCs that are active, by what was accepted */

/* Words and lines */

static unsigned split(char *line, char **words) {
    unsigned count = 0;
    for (char *word = strtok(line, " "); word && count < MOST_WORDS; word = strtok(NULL, " "))
        words[count++] = word;
    return count;
}

static char *next_line(void) {
    static char *line;
    static size_t size;
    ssize_t length = getline(&line, &size, stdin);
    if (length <= 0)
        return NULL;
    if (line[length - 1] == '\n')
        line[length - 1] = 0;
    return line;
}

/* Answers */

static void answer(struct client *c, bool is_accepted, const char *text) {
    c->reply.is_accepted = is_accepted;
    snprintf(c->reply.text, sizeof c->reply.text, "%s", text);
}

static void answer_error(struct client *c, int error) { c->reply.error = error; }

static void answer_made(struct client *c) {
    char text[32];
    snprintf(text, sizeof text, "made %u", FIRST_THING + made_count++);
    answer(c, true, text);
}

/* Things */

static struct thing *find_thing(const char *label) {
    for (unsigned i = thing_count; i > 0; i--)
        if (!strcmp(things[i - 1].label, label))
            return &things[i - 1];
    return NULL;
}

static struct thing *add_thing(struct client *c, const char *label, enum kind kind) {
    if (thing_count == MOST_THINGS)
        give_up("too many things", "");
    struct thing *t = &things[thing_count++];
    memset(t, 0, sizeof *t);
    snprintf(t->label, sizeof t->label, "%s", label);
    t->kind = kind;
    t->owner = c->number;
    t->file = t->timeline = -1;
    return t;
}

/* The device's objects */

/* The id of a property of any kind of object; one of another kind is for the kernel to refuse. */
static uint32_t any_property_id(const struct objects *first, const char *name) {
    const struct objects *kinds[] = {first, &crtcs, &planes, &connectors};
    for (unsigned i = 0; i < 4; i++) {
        uint32_t id = property_id(kinds[i], name);
        if (id)
            return id;
    }
    return NO_ID;
}

/* The bits of a list of CRTC indices parted by commas. */
static uint32_t crtc_mask(const char *list) {
    uint32_t mask = 0;
    for (const char *at = list; *at; at++)
        if (*at != ',')
            mask |= 1u << strtoul(at, (char **)&at, 10), at--;
    return mask;
}

static void add_object(struct objects *to, struct object o) {
    if (to->count == MOST_OBJECTS)
        give_up("too many objects", "");
    to->all[to->count++] = o;
}

static void take_crtcs(int file, unsigned wanted) {
    drmModeRes *all = drmModeGetResources(file);
    if (!all || (unsigned)all->count_crtcs < wanted)
        give_up("the card has too few CRTCs", "");
    for (unsigned i = 0; i < wanted; i++)
        add_object(&crtcs, read_object(file, all->crtcs[i], DRM_MODE_OBJECT_CRTC));
    drmModeFreeResources(all);
}

static uint64_t type_of(const char *word) { return !strcmp(word, "primary") ? 1 : !strcmp(word, "cursor") ? 2 : 0; }

/* The first plane of the card that is not taken, of this type and for these CRTCs. */
static void take_plane(int file, char *line) {
    char *words[MOST_WORDS];
    if (split(line, words) < 4)
        give_up("not a plane", line);
    uint32_t mask = crtc_mask(words[2]);
    drmModePlaneRes *all = drmModeGetPlaneResources(file);
    for (uint32_t i = 0; all && i < all->count_planes; i++) {
        drmModePlane *p = drmModeGetPlane(file, all->planes[i]);
        struct object o = read_object(file, all->planes[i], DRM_MODE_OBJECT_PLANE);
        bool fits = p && !find_object(&planes, o.id) && (p->possible_crtcs & mask) == mask &&
                    property_value(file, &o, "type") == type_of(words[1]);
        drmModeFreePlane(p);
        if (fits) {
            add_object(&planes, o);
            return;
        }
    }
    give_up("the card has no such plane left", words[1]);
}

/* The first connector of the card that is not taken, with an encoder for these CRTCs, and that encoder. */
static void take_connector(int file, const char *list) {
    uint32_t mask = crtc_mask(list);
    drmModeRes *all = drmModeGetResources(file);
    for (int i = 0; all && i < all->count_connectors; i++) {
        drmModeConnector *c = find_object(&connectors, all->connectors[i]) ? NULL : drmModeGetConnector(file, all->connectors[i]);
        drmModeEncoder *e = c ? find_encoder(file, c, mask) : NULL;
        if (e) {
            add_object(&connectors, read_object(file, c->connector_id, DRM_MODE_OBJECT_CONNECTOR));
            add_object(&encoders, read_object(file, e->encoder_id, DRM_MODE_OBJECT_ENCODER));
            return;
        }
    }
    give_up("the card has no such connector left", list);
}

/* Buffers and framebuffers */

static uint32_t ramp(uint32_t format, uint32_t x, uint32_t y) {
    if (format == DRM_FORMAT_RGB565)
        return x % 32 * 2048 + y % 64 * 32 + (x + y) % 32;
    return 0xff000000u + x % 256 * 65536 + y % 256 * 256 + (x + y) % 256;
}

static uint32_t pattern_word(char **words, const struct thing *t, uint32_t x, uint32_t y) {
    const char *name = words[5];
    if (!strcmp(name, "ramp"))
        return ramp(t->format, x, y);
    if (!strcmp(name, "pixels"))
        return strtoul(words[6 + y * t->width + x], NULL, 16);
    uint32_t side = !strcmp(name, "checker") ? strtoul(words[8], NULL, 10) : 1;
    bool is_first = !strcmp(name, "solid") || (x / side + y / side) % 2 == 0;
    return strtoul(words[is_first ? 6 : 7], NULL, 16);
}

static bool draw(struct client *c, struct thing *t, char **words, uint64_t size) {
    struct drm_mode_map_dumb map = {.handle = t->id};
    if (drmIoctl(c->file, DRM_IOCTL_MODE_MAP_DUMB, &map))
        return false;
    uint8_t *bytes = mmap(NULL, size, PROT_READ | PROT_WRITE, MAP_SHARED, c->file, map.offset);
    if (bytes == MAP_FAILED)
        return false;
    for (uint32_t y = 0; y < t->height; y++)
        for (uint32_t x = 0; x < t->width; x++) {
            uint32_t word = pattern_word(words, t, x, y);
            if (t->format == DRM_FORMAT_RGB565)
                ((uint16_t *)(bytes + y * t->pitch))[x] = word;
            else
                ((uint32_t *)(bytes + y * t->pitch))[x] = word;
        }
    munmap(bytes, size);
    return true;
}

static void do_buffer(struct client *c, char **words) {
    bool is_narrow = !strcmp(words[4], "RG16");
    struct drm_mode_create_dumb make = {.width = strtoul(words[2], NULL, 10),
                                        .height = strtoul(words[3], NULL, 10),
                                        .bpp = is_narrow ? 16 : 32};
    if (drmIoctl(c->file, DRM_IOCTL_MODE_CREATE_DUMB, &make)) {
        answer_error(c, errno);
        return;
    }
    struct thing *t = add_thing(c, words[1], BUFFER);
    t->id = make.handle;
    t->width = make.width;
    t->height = make.height;
    t->pitch = make.pitch;
    t->format = is_narrow                     ? DRM_FORMAT_RGB565
                : !strcmp(words[4], "AR24") ? DRM_FORMAT_ARGB8888
                                              : DRM_FORMAT_XRGB8888;
    if (!draw(c, t, words, make.size))
        give_up("a buffer cannot be drawn", words[1]);
    answer_made(c);
}

static void do_addfb(struct client *c, char **words) {
    struct thing *b = find_thing(words[2]);
    bool is_own = b && b->kind == BUFFER && b->owner == c->number;
    uint32_t handles[4] = {is_own ? b->id : NO_ID}, offsets[4] = {0}, id;
    bool has_size = b && b->kind == BUFFER;
    /* what is no buffer has a size that drivers take, so that they look for it */
    uint32_t pitches[4] = {has_size ? b->pitch : 256};
    uint32_t format = has_size ? b->format : DRM_FORMAT_XRGB8888;
    if (drmModeAddFB2(c->file, has_size ? b->width : 64, has_size ? b->height : 64, format, handles, pitches, offsets, &id, 0)) {
        answer_error(c, errno);
        return;
    }
    add_thing(c, words[1], FRAMEBUFFER)->id = id;
    answer_made(c);
}

static void do_closefb(struct client *c, char **words) {
    struct thing *t = find_thing(words[1]);
    struct drm_mode_closefb close = {.fb_id = t && t->kind == FRAMEBUFFER ? t->id : NO_ID};
    if (drmIoctl(c->file, DRM_IOCTL_MODE_CLOSEFB, &close))
        answer_error(c, errno);
    else
        answer(c, true, "done");
}

/* Blobs */

static void make_blob(struct client *c, const char *label, const void *bytes, size_t size) {
    uint32_t id;
    if (drmModeCreatePropertyBlob(c->file, bytes, size, &id)) {
        answer_error(c, errno);
        return;
    }
    add_thing(c, label, BLOB)->id = id;
    answer_made(c);
}

static void do_mode(struct client *c, char **words) {
    uint32_t n[14];
    for (unsigned i = 0; i < 14; i++)
        n[i] = strtoul(words[2 + i], NULL, 10);
    struct drm_mode_modeinfo mode = {
        .clock = n[0], .hdisplay = n[1], .hsync_start = n[2], .hsync_end = n[3], .htotal = n[4],
        .hskew = n[5], .vdisplay = n[6], .vsync_start = n[7], .vsync_end = n[8], .vtotal = n[9],
        .vscan = n[10], .vrefresh = n[11], .flags = n[12], .type = n[13]};
    snprintf(mode.name, sizeof mode.name, "%s", words[16]);
    make_blob(c, words[1], &mode, sizeof mode);
}

static void do_blob(struct client *c, char **words) {
    uint8_t bytes[2048];
    size_t size = strlen(words[2]) / 2;
    for (size_t i = 0; i < size && i < sizeof bytes; i++)
        sscanf(words[2] + 2 * i, "%2hhx", &bytes[i]);
    make_blob(c, words[1], bytes, size);
}

static void do_destroy(struct client *c, char **words) {
    struct thing *t = find_thing(words[1]);
    if (drmModeDestroyPropertyBlob(c->file, t && t->kind == BLOB ? t->id : NO_ID))
        answer_error(c, errno);
    else
        answer(c, true, "done");
}

/* Fences */

static void do_fence(struct client *c, char **words) {
    struct sw_sync_create_fence_data data = {.value = 1, .fence = -1};
    snprintf(data.name, sizeof data.name, "%s", words[1]);
    int timeline = open(SW_SYNC, O_RDWR | O_CLOEXEC);
    if (timeline < 0 || ioctl(timeline, SW_SYNC_IOC_CREATE_FENCE, &data))
        give_up("no fences (CONFIG_SW_SYNC, and debugfs mounted)", SW_SYNC);
    struct thing *t = add_thing(c, words[1], FENCE);
    t->timeline = timeline;
    t->file = data.fence;
    answer_made(c);
}

static void do_signal(struct client *c, char **words) {
    struct thing *t = find_thing(words[1]);
    uint32_t one = 1;
    if (!t || t->kind != FENCE || ioctl(t->timeline, SW_SYNC_IOC_INC, &one)) {
        answer_error(c, EINVAL);
        return;
    }
    t->is_signalled = true;
    c->lets_go = true;
    answer(c, false, "done");
}

static const struct thing *awaited_fence(void) {
    for (unsigned i = 0; i < thing_count; i++)
        if (things[i].kind == FENCE && things[i].awaited && !things[i].is_signalled)
            return &things[i];
    return NULL;
}

/* Requests */

struct request {
    uint32_t objects[MOST_WORDS], counts[MOST_WORDS], properties[MOST_WORDS];
    uint64_t values[MOST_WORDS];
    int32_t out_fences[MOST_WORDS];
    const char *out_labels[MOST_WORDS];
    struct thing *in_fences[MOST_WORDS];
    unsigned count;
};

static const struct objects *kind_named(const char *word, const char **digits) {
    static const struct {
        const char *name;
        const struct objects *all;
    } kinds[] = {{"crtc", &crtcs}, {"plane", &planes}, {"conn", &connectors}, {"enc", &encoders}};
    for (unsigned i = 0; i < 4; i++)
        if (!strncmp(word, kinds[i].name, strlen(kinds[i].name))) {
            *digits = word + strlen(kinds[i].name);
            return kinds[i].all;
        }
    give_up("not an object", word);
}

static uint32_t object_id(const char *word, const struct objects **all) {
    const char *digits;
    *all = kind_named(word, &digits);
    unsigned index = strtoul(digits, NULL, 10);
    return index < (*all)->count ? (*all)->all[index].id : NO_ID;
}

static uint64_t number(const char *word) {
    return *word == '-' ? (uint64_t)strtoll(word, NULL, 10) : strtoull(word, NULL, 10);
}

static uint64_t file_of(const struct thing *t) { return t->file < 0 ? NO_FILE : t->file; }

/* A handle of a buffer is no id. */
static uint64_t id_of(const struct thing *t) { return t->kind == BUFFER || !t->id ? NO_ID : t->id; }

/* The value that an assignment gives to the kernel. What nothing was made under becomes an id that nothing has. */
static uint64_t value_of(struct request *r, const char *property, const char *word) {
    const struct objects *all;
    bool is_fence = !strcmp(property, "IN_FENCE_FD");
    if (*word == '@') {
        struct thing *t = find_thing(word + 1);
        if (!t)
            return is_fence ? NO_FILE : NO_ID;
        r->in_fences[r->count] = is_fence ? t : NULL;
        return is_fence ? file_of(t) : id_of(t);
    }
    if (*word == '+') {
        r->out_labels[r->count] = word + 1;
        r->out_fences[r->count] = -1;
        return (uintptr_t)&r->out_fences[r->count];
    }
    return *word == 'c' ? object_id(word, &all) : number(word);
}

static void assign(struct request *r, char *word) {
    char *property = strchr(word, '.'), *value = strchr(word, '=');
    if (!property || !value)
        give_up("not an assignment", word);
    *property++ = *value++ = 0;
    const struct objects *all;
    r->objects[r->count] = object_id(word, &all);
    r->counts[r->count] = 1;
    r->properties[r->count] = any_property_id(all, property);
    r->values[r->count] = value_of(r, property, value);
    r->count++;
}

static void become_master(struct client *c) {
    if (master == c)
        return;
    if (master)
        drmDropMaster(master->file);
    if (drmSetMaster(c->file))
        give_up("no master of the card (run as root, with no other display server)", strerror(errno));
    master = c;
}

static int commit_request(struct client *c, struct request *r, uint32_t flags, uint64_t user_data) {
    struct drm_mode_atomic atomic = {.flags = flags,
                                     .count_objs = r->count,
                                     .objs_ptr = (uintptr_t)r->objects,
                                     .count_props_ptr = (uintptr_t)r->counts,
                                     .props_ptr = (uintptr_t)r->properties,
                                     .prop_values_ptr = (uintptr_t)r->values,
                                     .user_data = user_data};
    become_master(c);
    pthread_mutex_unlock(&table);
    int error = drmIoctl(c->file, DRM_IOCTL_MODE_ATOMIC, &atomic) ? errno : 0;
    pthread_mutex_lock(&table);
    return error;
}

static void keep_out_fences(struct client *c, struct request *r) {
    for (unsigned i = 0; i < r->count; i++)
        if (r->out_labels[i] && r->out_fences[i] >= 0) {
            add_thing(c, r->out_labels[i], OUT_FENCE)->file = r->out_fences[i];
            made_count++;
        }
}

static struct view view(void) { return (struct view){clients[0].file, card_minor, &crtcs, &planes, &connectors}; }

/* The last commit that named a CRTC has flipped: what it shows is seen, where that was not done. */
static void see_flipped(unsigned crtc) {
    int commit = last_commit(crtc);
    struct view v = view();
    if (wants_checksums && commit >= 0 && told_commit(commit)->active >> crtc & 1 && !find_checksum(crtc, commit))
        see_frame(&v, crtc, commit);
}

/* The plane or the connector with this id, or none. */
static struct object *find_routed(uint32_t id) {
    struct object *plane = find_object(&planes, id);
    return plane ? plane : find_object(&connectors, id);
}

static uint32_t crtc_bit(uint32_t id) {
    for (unsigned i = 0; i < crtcs.count; i++)
        if (crtcs.all[i].id == id)
            return 1u << i;
    return 0;
}

static void set_bit(unsigned *bits, unsigned bit, bool is_set) { *bits = is_set ? *bits | bit : *bits & ~bit; }

/* The CRTCs that a request names, as the kernel counts them: at each assignment the object's CRTC, before and after it. The CRTCs that
 * planes and connectors are on, and those that are active, are kept where it is accepted. */
static unsigned follow_request(const struct request *r, bool is_accepted) {
    static struct objects planes_before, connectors_before;
    unsigned named = 0, active_before = active;
    planes_before = planes;
    connectors_before = connectors;
    for (unsigned i = 0; i < r->count; i++) {
        struct object *o = find_routed(r->objects[i]);
        named |= crtc_bit(o ? o->crtc : r->objects[i]);
        if (o && r->properties[i] == any_property_id(&planes, "CRTC_ID")) {
            o->crtc = r->values[i];
            named |= crtc_bit(o->crtc);
        }
        if (r->properties[i] == property_id(&crtcs, "ACTIVE"))
            set_bit(&active, crtc_bit(r->objects[i]), r->values[i]);
    }
    if (!is_accepted) {
        planes = planes_before;
        connectors = connectors_before;
        active = active_before;
    }
    return named;
}

/* Counts a request among those that wait for its fences, or no longer. */
static void await_fences(struct request *r, int change) {
    for (unsigned i = 0; i < r->count; i++)
        if (r->in_fences[i])
            r->in_fences[i]->awaited += change;
}

static void enter_commit(struct client *c, struct request *r, uint32_t flags, uint64_t user_data) {
    char text[32];
    snprintf(text, sizeof text, "commit %u", told_commits());
    answer(c, true, text);
    keep_out_fences(c, r);
    unsigned named = follow_request(r, true);
    bool has_event = flags & DRM_MODE_PAGE_FLIP_EVENT;
    tell_commit(&(struct commit){c->number, c->reply.command, has_event, user_data, named, active});
    c->reserved += has_event ? __builtin_popcount(named) : 0;
    c->lets_go = flags & DRM_MODE_ATOMIC_NONBLOCK;
    for (unsigned i = 0; i < crtcs.count && !c->lets_go; i++)
        if (named >> i & 1)
            see_flipped(i);
}

/* What a refusal for want of space or of a free CRTC tells besides its errno, by the tool's own books. */
static void answer_refusal(struct client *c, const struct request *r, int error) {
    answer_error(c, error);
    c->reply.used = 32 * c->reserved;
    unsigned named = follow_request(r, false);
    for (unsigned i = 0; i < crtcs.count && c->reply.busy_crtc < 0; i++)
        if (named >> i & 1 && last_commit(i) >= 0) {
            c->reply.busy_crtc = i;
            c->reply.busy_commit = last_commit(i);
        }
}

static void do_atomic(struct client *c, char **words, unsigned count) {
    struct request *r = calloc(1, sizeof *r);
    uint32_t flags = strtoul(words[1], NULL, 16);
    for (unsigned i = 3; i < count; i++)
        assign(r, words[i]);
    bool is_test = flags & DRM_MODE_ATOMIC_TEST_ONLY;
    if (!is_test)
        await_fences(r, 1);
    uint64_t user_data = strtoull(words[2], NULL, 10);
    int error = commit_request(c, r, flags, user_data);
    if (error && !is_test)
        await_fences(r, -1);
    if (error)
        answer_refusal(c, r, error);
    else if (is_test)
        answer(c, false, "tested");
    else
        enter_commit(c, r, flags, user_data);
    free(r);
}

/* Events */

static unsigned crtc_index(uint32_t id) {
    for (unsigned i = 0; i < crtcs.count; i++)
        if (crtcs.all[i].id == id)
            return i;
    return 0;
}

/* Whether an event can be read: one that is reserved is waited for, while a commit waits for a fence and 0.9 s more. */
static bool await_event(struct client *c) {
    struct pollfd one = {.fd = c->file, .events = POLLIN};
    int ready;
    do {
        pthread_mutex_unlock(&table);
        ready = poll(&one, 1, c->reserved ? 3 * PATIENCE_MS : 0);
        pthread_mutex_lock(&table);
    } while (ready == 0 && c->reserved && awaited_fence());
    return ready > 0;
}

static void do_wait(struct client *c) {
    struct drm_event_vblank event;
    /* one event fits, so one is read */
    if (!await_event(c) || read(c->file, &event, sizeof event) != sizeof event) {
        answer(c, false, "none");
        return;
    }
    if (c->reserved)
        c->reserved--;
    unsigned crtc = crtc_index(event.crtc_id);
    c->reply.event = tell_event(&(struct event){c->number, event.user_data, event.sequence, crtc});
    if (commit_of_event(c->reply.event) == last_commit(crtc))
        see_flipped(crtc);
}

/* Clients */

static void execute(struct client *c, char *line) {
    char *words[MOST_WORDS];
    unsigned count = split(line, words);
    const char *name = count ? words[0] : "";
    if (!strcmp(name, "wait") && count == 1)
        do_wait(c);
    else if (!strcmp(name, "atomic") && count >= 3)
        do_atomic(c, words, count);
    else if (!strcmp(name, "buffer") && count >= 6)
        do_buffer(c, words);
    else if (!strcmp(name, "addfb") && count == 3)
        do_addfb(c, words);
    else if (!strcmp(name, "mode") && count == 17)
        do_mode(c, words);
    else if (!strcmp(name, "blob") && count == 3)
        do_blob(c, words);
    else if (!strcmp(name, "destroy") && count == 2)
        do_destroy(c, words);
    else if (!strcmp(name, "closefb") && count == 2)
        do_closefb(c, words);
    else if (!strcmp(name, "fence") && count == 2)
        do_fence(c, words);
    else if (!strcmp(name, "signal") && count == 2)
        do_signal(c, words);
    else
        give_up("not a command", name);
}

/* Executes a command, and tells the reply and its place in the journal: by the order in which calls come back. */
static void run_command(struct client *c, unsigned command) {
    c->reply = (struct reply){.client = c->number, .command = command, .event = -1, .busy_crtc = -1};
    c->lets_go = false;
    execute(c, c->lines[command - 1]);
    c->reply.place = journal_count;
    journal_count += c->reply.is_accepted;
    tell_reply(&c->reply);
}

static void *run_client(void *of) {
    struct client *c = of;
    for (unsigned i = 0; i < c->count; i++) {
        sem_wait(&c->turn);
        pthread_mutex_lock(&table);
        /* strtok is of the thread that holds the table */
        run_command(c, i + 1);
        pthread_mutex_unlock(&table);
        sem_post(&c->answered);
    }
    return NULL;
}

static bool is_answered(struct client *c) {
    struct timespec until;
    clock_gettime(CLOCK_REALTIME, &until);
    until.tv_nsec += PATIENCE_MS * 1000000L;
    until.tv_sec += until.tv_nsec / 1000000000L;
    until.tv_nsec %= 1000000000L;
    return sem_timedwait(&c->answered, &until) == 0;
}

static bool is_one_running(void) {
    for (unsigned i = 0; i < client_count; i++)
        if (clients[i].is_running)
            return true;
    return false;
}

/* Lets commits flip that nobody waited for, as `kms one` does before the next client's turn. Where no commit waits for a fence and no call
 * is in the kernel, all have flipped then, and what they show is seen. */
static void rest(void) {
    usleep(REST_MS * 1000);
    pthread_mutex_lock(&table);
    for (unsigned i = 0; i < crtcs.count && !awaited_fence() && !is_one_running(); i++)
        see_flipped(i);
    pthread_mutex_unlock(&table);
}

/* One command of each client, as far as it answers in time; false where no client has a command left. */
static bool run_round(bool *moved) {
    bool is_left = false;
    for (unsigned i = 0; i < client_count; i++) {
        struct client *c = &clients[i];
        if (c->answered_count == c->count)
            continue;
        is_left = true;
        if (!c->is_running)
            sem_post(&c->turn);
        c->is_running = true;
        if (is_answered(c)) {
            c->answered_count++;
            c->is_running = false;
            *moved = true;
            if (c->lets_go)
                rest();
        }
    }
    return is_left;
}

static bool run_all(void) {
    unsigned still = 0;
    for (;;) {
        bool moved = false;
        if (!run_round(&moved))
            return awaited_fence() == NULL;
        still = moved ? 0 : still + 1;
        if (still == MOST_STILL_ROUNDS)
            return false;
    }
}

/* The whole run */

static int open_card(const char *path) {
    int file = open(path, O_RDWR | O_CLOEXEC);
    if (file < 0)
        give_up(path, strerror(errno));
    if (drmSetClientCap(file, DRM_CLIENT_CAP_UNIVERSAL_PLANES, 1) || drmSetClientCap(file, DRM_CLIENT_CAP_ATOMIC, 1))
        give_up("the card has no atomic mode setting", path);
    return file;
}

static void add_client(const char *path) {
    if (client_count == MOST_CLIENTS)
        give_up("too many clients", "");
    struct client *c = &clients[client_count++];
    c->number = client_count;
    c->file = open_card(path);
    sem_init(&c->turn, 0, 0);
    sem_init(&c->answered, 0, 0);
}

static void add_command(const char *line) {
    struct client *c = &clients[client_count - 1];
    c->lines = realloc(c->lines, (c->count + 1) * sizeof *c->lines);
    c->lines[c->count++] = strdup(line);
}

static void read_script(const char *path, int file) {
    char *line = next_line();
    if (!line || strcmp(line, "kms 1"))
        give_up("the script does not begin with `kms 1`", "");
    while ((line = next_line())) {
        if (!strncmp(line, "crtcs ", 6))
            take_crtcs(file, strtoul(line + 6, NULL, 10));
        else if (!strncmp(line, "plane ", 6))
            take_plane(file, line);
        else if (!strncmp(line, "conn ", 5))
            take_connector(file, line + 5);
        else if (!strcmp(line, "client"))
            add_client(path);
        else if (client_count)
            add_command(line);
        else
            give_up("not a line of a device", line);
    }
}

/* All is turned off, as at a script's start. */
static void turn_off(struct client *c) {
    static const char *names[] = {"ACTIVE", "MODE_ID", "FB_ID", "CRTC_ID"};
    struct request *r = calloc(1, sizeof *r);
    const struct objects *kinds[] = {&connectors, &planes, &crtcs};
    for (unsigned k = 0; k < 3; k++)
        for (unsigned i = 0; i < kinds[k]->count; i++)
            for (unsigned n = 0; n < 4; n++) {
                uint32_t id = property_id(kinds[k], names[n]);
                if (!id || r->count == MOST_WORDS)
                    continue;
                r->objects[r->count] = kinds[k]->all[i].id;
                r->counts[r->count] = 1;
                r->properties[r->count++] = id;
            }
    pthread_mutex_lock(&table);
    int error = commit_request(c, r, DRM_MODE_ATOMIC_ALLOW_MODESET, 0);
    pthread_mutex_unlock(&table);
    if (error)
        give_up("the card cannot be turned off", strerror(error));
    free(r);
}

/* Prints what was told. Calls that come back meanwhile wait for the table. */
static int print_told(bool is_drained, const struct expected *expected) {
    char end[32] = "D drained";
    pthread_mutex_lock(&table);
    const struct thing *fence = awaited_fence();
    if (!is_drained)
        snprintf(end, sizeof end, "D stalled %s", fence ? fence->label : "");
    int status = 0;
    if (!expected) {
        print_answers(end);
    } else {
        struct view v = view();
        bool is_vkms = client_count && is_driver(v.file, "vkms");
        if (!is_vkms && is_drained)
            see_alone(&v, expected);
        status = print_report(end, expected, is_vkms);
    }
    fflush(stdout);
    pthread_mutex_unlock(&table);
    return status ? status : is_drained ? 0 : 5;
}

/* What still waits in the kernel is let go. */
static void signal_all(void) {
    uint32_t one = 1;
    for (unsigned i = 0; i < thing_count; i++)
        if (things[i].kind == FENCE && ioctl(things[i].timeline, SW_SYNC_IOC_INC, &one))
            perror("on_kernel: signal");
}

int main(int count, char **words) {
    bool wants_description = count == 3 && !strcmp(words[2], "--describe");
    bool wants_report = count == 4 && !strcmp(words[2], "--report");
    wants_checksums = wants_report || (count == 3 && !strcmp(words[2], "--crc"));
    if (count < 2 || (count > 2 && !wants_description && !wants_checksums))
        give_up("usage: on_kernel CARD [--crc] < SCRIPT, on_kernel CARD --report EXPECTED < SCRIPT, on_kernel CARD --describe", "");
    int file = open_card(words[1]);
    if (wants_description) {
        describe(file);
        return 0;
    }
    const struct expected *expected = wants_report ? read_expected(words[3]) : NULL;
    struct stat card;
    fstat(file, &card);
    card_minor = minor(card.st_rdev);
    read_script(words[1], file);
    drmDropMaster(file);
    if (client_count)
        turn_off(&clients[0]);
    for (unsigned i = 0; i < client_count; i++) {
        pthread_t thread;
        if (pthread_create(&thread, NULL, run_client, &clients[i]))
            give_up("no thread", "");
    }
    int status = print_told(run_all(), expected);
    signal_all();
    return status;
}
