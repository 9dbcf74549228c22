/* A library for LD_PRELOAD that writes the mode-setting calls of a process as a script. README.md, beside this file, says how. */
#define _GNU_SOURCE
#include <dlfcn.h>
#include <errno.h>
#include <pthread.h>
#include <stdarg.h>
#include <stdlib.h>
#include <unistd.h>

#include "calls.h"

static pthread_mutex_t lock = PTHREAD_MUTEX_INITIALIZER;
static pid_t recorded; /* a process that was forked off has no script of its own */

/* Declares `real`, the function of this name behind this library's. */
#define FIND_REAL(name)                      \
    static __typeof__(&name) real;           \
    if (!real)                               \
        real = (__typeof__(&name))dlsym(RTLD_NEXT, #name)

static void begin(struct call *c, int file, unsigned long request, const void *argument) {
    pthread_mutex_lock(&lock);
    begin_call(c, file, request, argument);
    recorded = recorded ? recorded : getpid();
    pthread_mutex_unlock(&lock);
}

static void end(struct call *c, unsigned long request, const void *argument, int error) {
    pthread_mutex_lock(&lock);
    end_call(c, request, argument, error);
    pthread_mutex_unlock(&lock);
}

int ioctl(int file, unsigned long request, ...) {
    FIND_REAL(ioctl);
    va_list rest;
    va_start(rest, request);
    void *argument = va_arg(rest, void *);
    va_end(rest);
    if (!is_recorded(request))
        return real(file, request, argument);
    struct call c;
    begin(&c, file, request, argument);
    int result = real(file, request, argument), error = errno;
    end(&c, request, argument, result ? error : 0);
    errno = error;
    return result;
}

ssize_t read(int file, void *bytes, size_t size) {
    FIND_REAL(read);
    ssize_t length = real(file, bytes, size);
    if (length > 0 && known_client(file)) {
        pthread_mutex_lock(&lock);
        note_events(file, bytes, length);
        pthread_mutex_unlock(&lock);
    }
    return length;
}

int close(int file) {
    FIND_REAL(close);
    pthread_mutex_lock(&lock);
    forget_file(file);
    pthread_mutex_unlock(&lock);
    return real(file);
}

__attribute__((destructor)) static void write_all(void) {
    const char *path = getenv("KMS_RECORD");
    if (!is_begun() || recorded != getpid())
        return;
    FILE *to = path ? fopen(path, "w") : NULL;
    if (to)
        write_script(to, stderr);
    else
        perror("record: KMS_RECORD names no file that can be written");
    if (to && fclose(to))
        perror("record");
}
