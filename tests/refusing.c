/* A library that is loaded before the C library, and refuses one call that the program makes of it, as the system would. The environment
 * says which:
 *
 *   REFUSE_KIND  growth (of memory), thread, open, read or write
 *   REFUSE_AT    the number of the call of this kind, counted from 1 over all threads
 *   REFUSE_TOLD  the descriptor to which a byte is written where that call was refused
 */
#define _GNU_SOURCE
#include <dlfcn.h>
#include <errno.h>
#include <fcntl.h>
#include <pthread.h>
#include <stdarg.h>
#include <stdatomic.h>
#include <stdlib.h>
#include <string.h>
#include <sys/syscall.h>
#include <unistd.h>

extern void *__libc_malloc(size_t size);
extern void *__libc_realloc(void *old, size_t size);

typedef int (*thread_maker)(pthread_t *, const pthread_attr_t *, void *(*)(void *), void *);

static const char *kind = "";
static unsigned long at;
static int told = -1;
static thread_maker make_thread;
static atomic_ulong calls;

__attribute__((constructor)) static void begin(void) {
    make_thread = (thread_maker)dlsym(RTLD_NEXT, "pthread_create");
    const char *number = getenv("REFUSE_AT"), *descriptor = getenv("REFUSE_TOLD"), *word = getenv("REFUSE_KIND");
    if (number && descriptor && word) {
        at = strtoul(number, NULL, 10);
        told = atoi(descriptor);
        kind = word;
    }
}

/* Whether this call is the one to be refused. */
static int is_refused(const char *this_kind) {
    if (strcmp(kind, this_kind) || atomic_fetch_add(&calls, 1) + 1 != at)
        return 0;
    syscall(SYS_write, told, "x", 1);
    return 1;
}

void *malloc(size_t size) {
    if (is_refused("growth")) {
        errno = ENOMEM;
        return NULL;
    }
    return __libc_malloc(size);
}

void *realloc(void *old, size_t size) {
    if (is_refused("growth")) {
        errno = ENOMEM;
        return NULL;
    }
    return __libc_realloc(old, size);
}

int pthread_create(pthread_t *thread, const pthread_attr_t *attributes, void *(*start)(void *), void *argument) {
    return is_refused("thread") ? EAGAIN : make_thread(thread, attributes, start, argument);
}

int open(const char *path, int flags, ...) {
    va_list rest;
    va_start(rest, flags);
    mode_t mode = flags & O_CREAT ? va_arg(rest, mode_t) : 0;
    va_end(rest);
    if (is_refused("open")) {
        errno = EIO;
        return -1;
    }
    return syscall(SYS_openat, AT_FDCWD, path, flags, mode);
}

ssize_t read(int file, void *bytes, size_t count) {
    if (is_refused("read")) {
        errno = EIO;
        return -1;
    }
    return syscall(SYS_read, file, bytes, count);
}

ssize_t write(int file, const void *bytes, size_t count) {
    if (is_refused("write")) {
        errno = EIO;
        return -1;
    }
    return syscall(SYS_write, file, bytes, count);
}

ssize_t __write(int file, const void *bytes, size_t count) {
    return write(file, bytes, count);
}
