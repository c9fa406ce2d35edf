/* Loaded before the C library: reads and writes of standard input, standard output and the sheet that are interrupted, take one byte, or fail. The
 * environment says which: FAULTS=interrupt, nothing, close or sheet. */
#define _GNU_SOURCE
#include <dlfcn.h>
#include <errno.h>
#include <stdlib.h>
#include <string.h>
#include <unistd.h>

static int fault(const char *name) {
    const char *asked = getenv("FAULTS");
    return asked && strcmp(asked, name) == 0;
}

/* Every second call is interrupted, the others move one byte. */
static int interrupted(void) {
    static int calls;
    return ++calls % 2;
}

ssize_t write(int fd, const void *bytes, size_t size) {
    ssize_t (*real)(int, const void *, size_t) = (ssize_t (*)(int, const void *, size_t))dlsym(RTLD_NEXT, "write");
    if (fd == STDOUT_FILENO && fault("nothing")) return 0;
    if (fd != STDOUT_FILENO || !fault("interrupt")) return real(fd, bytes, size);
    if (interrupted()) { errno = EINTR; return -1; }
    return real(fd, bytes, size ? 1 : 0);
}

/* The sheet is read by another descriptor than 0. */
ssize_t read(int fd, void *bytes, size_t size) {
    static int sheet_reads;
    ssize_t (*real)(int, void *, size_t) = (ssize_t (*)(int, void *, size_t))dlsym(RTLD_NEXT, "read");
    if (fd != STDIN_FILENO && fault("sheet")) {
        if (sheet_reads++) { errno = EIO; return -1; }
        return real(fd, bytes, 8);
    }
    if (!fault("interrupt")) return real(fd, bytes, size);
    if (interrupted()) { errno = EINTR; return -1; }
    return real(fd, bytes, size ? 1 : 0);
}

/* The program asks for the file on standard output to be kept before it ends, by a descriptor of its own. */
int fdatasync(int fd) {
    int (*real)(int) = (int (*)(int))dlsym(RTLD_NEXT, "fdatasync");
    if (!fault("close")) return real(fd);
    errno = EIO;
    return -1;
}
