/* Tells the recorder of tools/record what on_kernel does with the stand-in for a card, call by call, as the library tells it what a
 * compositor does. At its end the script is written to the file that KMS_RECORD names. */
#include <errno.h>
#include <pthread.h>
#include <stdlib.h>
#include <unistd.h>

#include "calls.h"

static pthread_mutex_t lock = PTHREAD_MUTEX_INITIALIZER;

int __real_drmIoctl(int file, unsigned long request, void *argument);
int __real_drmModeAddFB2(int file, uint32_t width, uint32_t height, uint32_t format, const uint32_t handles[4], const uint32_t pitches[4],
                         const uint32_t offsets[4], uint32_t *id, uint32_t flags);
int __real_drmModeCreatePropertyBlob(int file, const void *data, size_t size, uint32_t *id);
int __real_drmModeDestroyPropertyBlob(int file, uint32_t id);
ssize_t __real_read(int file, void *bytes, size_t size);

static void begin(struct call *c, int file, unsigned long request, const void *argument) {
    pthread_mutex_lock(&lock);
    begin_call(c, file, request, argument);
    pthread_mutex_unlock(&lock);
}

static int end(struct call *c, unsigned long request, const void *argument, int result) {
    int error = errno;
    pthread_mutex_lock(&lock);
    end_call(c, request, argument, result ? error : 0);
    pthread_mutex_unlock(&lock);
    errno = error;
    return result;
}

int __wrap_drmIoctl(int file, unsigned long request, void *argument) {
    if (!is_recorded(request))
        return __real_drmIoctl(file, request, argument);
    struct call c;
    begin(&c, file, request, argument);
    return end(&c, request, argument, __real_drmIoctl(file, request, argument));
}

int __wrap_drmModeAddFB2(int file, uint32_t width, uint32_t height, uint32_t format, const uint32_t handles[4], const uint32_t pitches[4],
                         const uint32_t offsets[4], uint32_t *id, uint32_t flags) {
    struct call c;
    struct drm_mode_fb_cmd2 made = {.width = width, .height = height, .pixel_format = format};
    begin(&c, file, DRM_IOCTL_MODE_ADDFB2, &made);
    int result = __real_drmModeAddFB2(file, width, height, format, handles, pitches, offsets, &made.fb_id, flags);
    *id = made.fb_id;
    return end(&c, DRM_IOCTL_MODE_ADDFB2, &made, result);
}

int __wrap_drmModeCreatePropertyBlob(int file, const void *data, size_t size, uint32_t *id) {
    struct call c;
    struct drm_mode_create_blob made = {.data = (uintptr_t)data, .length = size};
    begin(&c, file, DRM_IOCTL_MODE_CREATEPROPBLOB, &made);
    int result = __real_drmModeCreatePropertyBlob(file, data, size, &made.blob_id);
    *id = made.blob_id;
    return end(&c, DRM_IOCTL_MODE_CREATEPROPBLOB, &made, result);
}

int __wrap_drmModeDestroyPropertyBlob(int file, uint32_t id) {
    struct call c;
    begin(&c, file, DRM_IOCTL_MODE_DESTROYPROPBLOB, &id);
    return end(&c, DRM_IOCTL_MODE_DESTROYPROPBLOB, &id, __real_drmModeDestroyPropertyBlob(file, id));
}

ssize_t __wrap_read(int file, void *bytes, size_t size) {
    ssize_t length = __real_read(file, bytes, size);
    pthread_mutex_lock(&lock);
    note_events(file, bytes, length > 0 ? length : 0);
    pthread_mutex_unlock(&lock);
    return length;
}

__attribute__((destructor)) static void write_all(void) {
    FILE *to = fopen(getenv("KMS_RECORD"), "w");
    write_script(to, stderr);
    fclose(to);
}
