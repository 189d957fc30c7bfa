// Loaded before the C library: the growth number REFUSED_GROWTH of the process is refused, once, and a byte written to the file number
// REFUSAL_TO.
#define _GNU_SOURCE
#include <dlfcn.h>
#include <stdlib.h>
#include <unistd.h>

static long refused(void) {
    static long count = 0;
    static long wanted = -1;
    if (wanted < 0) {
        const char *text = getenv("REFUSED_GROWTH");
        wanted = text ? atol(text) : 0;
    }
    if (++count != wanted) return 0;
    const char *told = getenv("REFUSAL_TO");
    return !told || write(atoi(told), "", 1) == 1;
}

void *malloc(size_t size) {
    static void *(*next)(size_t);
    if (!next) next = (void *(*)(size_t))dlsym(RTLD_NEXT, "malloc");
    return refused() ? NULL : next(size);
}

void *realloc(void *old, size_t size) {
    static void *(*next)(void *, size_t);
    if (!next) next = (void *(*)(void *, size_t))dlsym(RTLD_NEXT, "realloc");
    return refused() ? NULL : next(old, size);
}
