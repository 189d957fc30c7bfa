// Loaded before the C library: standard input gives at most 7 bytes at a read, and standard output takes at most 5 at a write. The read
// number FAILED_READ of standard input fails, the write number FAILED_WRITE of standard output too, and EMPTY_WRITE takes nothing.
#define _GNU_SOURCE
#include <dlfcn.h>
#include <errno.h>
#include <stdlib.h>
#include <unistd.h>

static long asked(const char *name) {
    const char *text = getenv(name);
    return text ? atol(text) : 0;
}

ssize_t read(int file, void *to, size_t size) {
    static ssize_t (*next)(int, void *, size_t);
    static long count = 0;
    if (!next) next = (ssize_t (*)(int, void *, size_t))dlsym(RTLD_NEXT, "read");
    if (file != 0) return next(file, to, size);
    if (++count == asked("FAILED_READ")) {
        errno = EIO;
        return -1;
    }
    return next(file, to, size < 7 ? size : 7);
}

ssize_t write(int file, const void *from, size_t size) {
    static ssize_t (*next)(int, const void *, size_t);
    static long count = 0;
    if (!next) next = (ssize_t (*)(int, const void *, size_t))dlsym(RTLD_NEXT, "write");
    if (file != 1) return next(file, from, size);
    if (++count == asked("FAILED_WRITE")) {
        errno = EIO;
        return -1;
    }
    if (count == asked("EMPTY_WRITE")) return 0;
    return next(file, from, size < 5 ? size : 5);
}
