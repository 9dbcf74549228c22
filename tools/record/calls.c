#define _GNU_SOURCE
#include "calls.h"

#include <errno.h>
#include <inttypes.h>
#include <stdlib.h>
#include <string.h>

#include <drm_fourcc.h>

enum { MOST_ASSIGNMENTS = 256, MOST_BLOB = 2048, MOST_NAMES = 512 };

static const void *pointer(uint64_t address) { return (const void *)(uintptr_t)address; }

/* Values of assignments */

static void write_unsigned(FILE *to, struct call *c, uint64_t value) {
    (void)c;
    fprintf(to, "%" PRIu64, value);
}

static void write_signed(FILE *to, struct call *c, uint64_t value) {
    (void)c;
    fprintf(to, "%" PRId64, (int64_t)value);
}

/* A thing that nobody was seen to make has a label that no line makes. */
static void write_thing(FILE *to, enum kind kind, uint64_t id) {
    const char *label = id ? label_of(kind, id) : NULL;
    if (id && !label)
        leave_out("lines that make what was made unseen");
    if (id)
        fprintf(to, "@%s", label ? label : "unseen");
    else
        fputc('0', to);
}

static void write_framebuffer(FILE *to, struct call *c, uint64_t value) {
    (void)c;
    write_thing(to, FRAMEBUFFER, value);
}

static void write_blob(FILE *to, struct call *c, uint64_t value) {
    (void)c;
    write_thing(to, BLOB, value);
}

static int crtc_index(uint64_t id) {
    const struct topology *card = card_topology();
    for (unsigned i = 0; i < card->crtc_count; i++)
        if (card->crtcs[i] == id)
            return i;
    return 255;
}

static void write_crtc(FILE *to, struct call *c, uint64_t value) {
    (void)c;
    if (value)
        fprintf(to, "crtc%d", crtc_index(value));
    else
        fputc('0', to);
}

/* A fence that no request made, as one of a GPU: the script makes it, and signals it. */
static const char *foreign_fence(struct call *c) {
    if (c->foreign_count == MOST_PLANES)
        return c->foreign[0];
    char *label = c->foreign[c->foreign_count++];
    make_label(c->client, label, 'n');
    say(c->client, "fence %s", label);
    return label;
}

static void write_in_fence(FILE *to, struct call *c, uint64_t value) {
    if ((int64_t)value < 0) {
        write_signed(to, c, value);
        return;
    }
    const char *label = label_of(FENCE, value);
    fprintf(to, "@%s", label ? label : foreign_fence(c));
}

static void write_out_fence(FILE *to, struct call *c, uint64_t value) {
    if (!value || c->out_count == MOST_CRTCS) {
        fputc('0', to);
        return;
    }
    c->out_files[c->out_count] = pointer(value);
    make_label(c->client, c->out[c->out_count], 'o');
    fprintf(to, "+%s", c->out[c->out_count++]);
}

/* Assignments */

static const struct {
    const char *name;
    void (*write)(FILE *, struct call *, uint64_t);
} known[] = {
    {"type", write_unsigned},         {"FB_ID", write_framebuffer},    {"CRTC_ID", write_crtc},       {"CRTC_X", write_signed},
    {"CRTC_Y", write_signed},         {"CRTC_W", write_unsigned},      {"CRTC_H", write_unsigned},    {"SRC_X", write_unsigned},
    {"SRC_Y", write_unsigned},        {"SRC_W", write_unsigned},       {"SRC_H", write_unsigned},     {"IN_FENCE_FD", write_in_fence},
    {"alpha", write_unsigned},        {"pixel_blend_mode", write_unsigned}, {"zpos", write_unsigned}, {"ACTIVE", write_unsigned},
    {"MODE_ID", write_blob},          {"OUT_FENCE_PTR", write_out_fence}, {"GAMMA_LUT", write_blob},
};
enum { KNOWN = sizeof known / sizeof *known };

/* Writes the word of an object; the word of its kind, or none where no script can say it. */
static const char *object_word(char *word, size_t size, uint32_t id) {
    const struct topology *card = card_topology();
    const char *kind = crtc_index(id) < MOST_CRTCS ? "crtc" : NULL;
    unsigned index = crtc_index(id);
    for (unsigned i = 0; i < card->plane_count; i++)
        if (card->planes[i].id == id) {
            kind = "plane";
            index = i;
        }
    for (unsigned i = 0; i < card->connector_count; i++)
        if (card->connectors[i].id == id) {
            kind = "conn";
            index = i;
        }
    snprintf(word, size, "%s%u", kind ? kind : "", index);
    return kind;
}

/* The name of a property as a script has it. The kernel is asked for each once. */
static const char *property_name(int file, uint32_t id) {
    static struct property all[MOST_NAMES];
    static unsigned count;
    for (unsigned i = 0; i < count; i++)
        if (all[i].id == id)
            return all[i].name;
    drmModePropertyRes *p = count < MOST_NAMES ? drmModeGetProperty(file, id) : NULL;
    if (!p)
        return "another";
    all[count].id = id;
    write_name(all[count].name, p->name);
    drmModeFreeProperty(p);
    return all[count++].name;
}

static void write_assignment(FILE *to, struct call *c, uint32_t object, uint32_t property, uint64_t value) {
    char word[16];
    const char *kind = object_word(word, sizeof word, object), *name = property_name(c->file, property);
    for (unsigned i = 0; i < KNOWN; i++)
        if (kind && !strcmp(known[i].name, name)) {
            fprintf(to, " %s.%s=", word, name);
            known[i].write(to, c, value);
            return;
        }
    leave_out("%s.%s", kind ? kind : "another object", name);
}

/* Requests */

/* The request as a line, or none where it has more assignments than a script's may have. */
static char *request_line(struct call *c, const struct drm_mode_atomic *a) {
    const uint32_t *objects = pointer(a->objs_ptr), *counts = pointer(a->count_props_ptr), *properties = pointer(a->props_ptr);
    const uint64_t *values = pointer(a->prop_values_ptr);
    char *line = NULL;
    size_t size;
    uint32_t at = 0;
    FILE *to = open_memstream(&line, &size);
    fprintf(to, "atomic 0x%x %" PRIu64, a->flags, (uint64_t)a->user_data);
    for (uint32_t i = 0; i < a->count_objs; i++)
        for (uint32_t n = 0; n < counts[i] && at < MOST_ASSIGNMENTS; n++, at++)
            write_assignment(to, c, objects[i], properties[at], values[at]);
    fclose(to);
    return line;
}

static void signal_foreign(const struct call *c) {
    for (unsigned i = 0; i < c->foreign_count; i++)
        say(c->client, "signal %s", c->foreign[i]);
}

/* Foreign fences are signalled behind a request that does not wait for them, else before it. */
static void begin_request(struct call *c, const struct drm_mode_atomic *a) {
    bool waits = !(a->flags & (DRM_MODE_ATOMIC_NONBLOCK | DRM_MODE_ATOMIC_TEST_ONLY));
    char *line = request_line(c, a);
    if (waits)
        signal_foreign(c);
    c->line = add_line(c->client, line);
    if (!waits)
        signal_foreign(c);
}

/* A request that was interrupted is made again by its caller. */
static void end_request(struct call *c, const struct drm_mode_atomic *a, int error) {
    if (error == EINTR || error == EAGAIN)
        take_back(c->client, c->line);
    if (error || a->flags & DRM_MODE_ATOMIC_TEST_ONLY)
        return;
    for (unsigned i = 0; i < c->out_count; i++)
        remember(FENCE, *c->out_files[i], c->out[i]);
}

/* Framebuffers and blobs */

static void note_framebuffer(struct client *c, uint32_t id, uint32_t width, uint32_t height, uint32_t format) {
    char buffer[LABEL_SIZE], label[LABEL_SIZE];
    if (!format_name(format)) {
        leave_out("framebuffers of the format %.4s", (const char *)&format);
        return;
    }
    make_label(c, buffer, 'b');
    make_label(c, label, 'f');
    say(c, "buffer %s %u %u %s ramp", buffer, width, height, format_name(format));
    say(c, "addfb %s %s", label, buffer);
    remember(FRAMEBUFFER, id, label);
}

/* The format that the older call tells by the depth of its pixels. */
static uint32_t format_of_depth(uint32_t depth) {
    return depth == 16 ? DRM_FORMAT_RGB565 : depth == 32 ? DRM_FORMAT_ARGB8888 : DRM_FORMAT_XRGB8888;
}

static void note_blob(struct client *c, const struct drm_mode_create_blob *blob) {
    char label[LABEL_SIZE], digits[2 * MOST_BLOB + 1];
    const uint8_t *bytes = pointer(blob->data);
    if (!blob->length || blob->length > MOST_BLOB) {
        leave_out("blobs of %u bytes", blob->length);
        return;
    }
    for (uint32_t i = 0; i < blob->length; i++)
        snprintf(digits + 2 * i, 3, "%02x", bytes[i]);
    make_label(c, label, 'p');
    say(c, "blob %s %s", label, digits);
    remember(BLOB, blob->blob_id, label);
}

static void note_end(struct client *c, const char *command, enum kind kind, uint32_t id) {
    const char *label = label_of(kind, id);
    if (label)
        say(c, "%s %s", command, label);
    else
        leave_out("%s of what was made unseen", command);
}

/* All calls */

static const struct {
    unsigned long request;
    const char *name;
} without_words[] = {
    {DRM_IOCTL_MODE_SETCRTC, "SETCRTC"},         {DRM_IOCTL_MODE_PAGE_FLIP, "PAGE_FLIP"},
    {DRM_IOCTL_MODE_SETPLANE, "SETPLANE"},       {DRM_IOCTL_MODE_CURSOR, "CURSOR"},
    {DRM_IOCTL_MODE_CURSOR2, "CURSOR2"},         {DRM_IOCTL_MODE_SETGAMMA, "SETGAMMA"},
    {DRM_IOCTL_MODE_SETPROPERTY, "SETPROPERTY"}, {DRM_IOCTL_MODE_OBJ_SETPROPERTY, "OBJ_SETPROPERTY"},
    {DRM_IOCTL_MODE_DIRTYFB, "DIRTYFB"},
};
enum { WITHOUT_WORDS = sizeof without_words / sizeof *without_words };

static const char *name_without_words(unsigned long request) {
    for (unsigned i = 0; i < WITHOUT_WORDS; i++)
        if (without_words[i].request == request)
            return without_words[i].name;
    return NULL;
}

bool is_recorded(unsigned long request) {
    switch (request) {
    case DRM_IOCTL_MODE_ATOMIC:
    case DRM_IOCTL_MODE_ADDFB:
    case DRM_IOCTL_MODE_ADDFB2:
    case DRM_IOCTL_MODE_RMFB:
    case DRM_IOCTL_MODE_CLOSEFB:
    case DRM_IOCTL_MODE_CREATEPROPBLOB:
    case DRM_IOCTL_MODE_DESTROYPROPBLOB:
        return true;
    default:
        return name_without_words(request) != NULL;
    }
}

void begin_call(struct call *c, int file, unsigned long request, const void *argument) {
    memset(c, 0, sizeof *c);
    c->file = file;
    c->client = client_of(file);
    if (c->client && !has_room(c->client))
        c->client = NULL;
    if (c->client && request == DRM_IOCTL_MODE_ATOMIC)
        begin_request(c, argument);
}

static void note_made(struct client *c, unsigned long request, const void *argument) {
    if (request == DRM_IOCTL_MODE_ADDFB2) {
        const struct drm_mode_fb_cmd2 *f = argument;
        note_framebuffer(c, f->fb_id, f->width, f->height, f->pixel_format);
    } else if (request == DRM_IOCTL_MODE_ADDFB) {
        const struct drm_mode_fb_cmd *f = argument;
        note_framebuffer(c, f->fb_id, f->width, f->height, format_of_depth(f->depth));
    } else if (request == DRM_IOCTL_MODE_CREATEPROPBLOB) {
        note_blob(c, argument);
    } else if (request == DRM_IOCTL_MODE_DESTROYPROPBLOB) {
        note_end(c, "destroy", BLOB, *(const uint32_t *)argument);
    } else if (request == DRM_IOCTL_MODE_RMFB || request == DRM_IOCTL_MODE_CLOSEFB) {
        note_end(c, "closefb", FRAMEBUFFER, *(const uint32_t *)argument);
    } else {
        leave_out("calls of %s", name_without_words(request));
    }
}

void end_call(struct call *c, unsigned long request, const void *argument, int error) {
    if (!c->client)
        return;
    if (request == DRM_IOCTL_MODE_ATOMIC)
        end_request(c, argument, error);
    else if (error)
        leave_out("calls that were refused with %s, but for requests", strerrorname_np(error));
    else
        note_made(c->client, request, argument);
}

void note_events(int file, const void *bytes, size_t size) {
    struct client *c = known_client(file);
    struct drm_event event;
    for (size_t at = 0; c && at + sizeof event <= size; at += event.length) {
        memcpy(&event, (const char *)bytes + at, sizeof event);
        if (event.type == DRM_EVENT_FLIP_COMPLETE && has_room(c))
            say(c, "wait");
        else if (event.type != DRM_EVENT_FLIP_COMPLETE)
            leave_out("events of the type %u", event.type);
        if (event.length < sizeof event)
            return;
    }
}
