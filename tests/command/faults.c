/* Loaded before the C library: reads and writes that are interrupted, take one byte or fail. The environment says which: FAULTS=interrupt, or the number of the read
 * that fails, from 1 on. */
#define _GNU_SOURCE
#include <dlfcn.h>
#include <errno.h>
#include <stdlib.h>
#include <string.h>
#include <unistd.h>

static const char *asked(void) {
    const char *faults = getenv("FAULTS");
    return faults ? faults : "";
}

/* Every second call is interrupted. */
static int interrupted(void) {
    static int calls;
    return ++calls % 2;
}

ssize_t read(int fd, void *bytes, size_t size) {
    static int reads;
    ssize_t (*real)(int, void *, size_t) = (ssize_t (*)(int, void *, size_t))dlsym(RTLD_NEXT, "read");
    if (++reads == atoi(asked())) { errno = EIO; return -1; }
    if (strcmp(asked(), "interrupt") != 0) return real(fd, bytes, size);
    if (interrupted()) { errno = EINTR; return -1; }
    return real(fd, bytes, size ? 1 : 0);
}

ssize_t write(int fd, const void *bytes, size_t size) {
    ssize_t (*real)(int, const void *, size_t) = (ssize_t (*)(int, const void *, size_t))dlsym(RTLD_NEXT, "write");
    if (strcmp(asked(), "interrupt") != 0) return real(fd, bytes, size);
    if (interrupted()) { errno = EINTR; return -1; }
    return real(fd, bytes, size ? 1 : 0);
}
