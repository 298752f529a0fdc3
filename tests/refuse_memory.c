/* Loaded before the C library, it refuses the growth whose number is in REFUSE, from 1, and lets all others through. */
#define _GNU_SOURCE
#include <dlfcn.h>
#include <stdlib.h>

static long until = -1;

static int refused(void) {
    if (until < 0) {
        const char *text = getenv("REFUSE");
        until = text ? atol(text) : 0;
    }
    if (until == 0) return 0;
    until -= 1;
    return until == 0;
}

void *malloc(size_t size) {
    static void *(*real)(size_t);
    if (!real) real = (void *(*)(size_t))dlsym(RTLD_NEXT, "malloc");
    return refused() ? NULL : real(size);
}

void *realloc(void *old, size_t size) {
    static void *(*real)(void *, size_t);
    if (!real) real = (void *(*)(void *, size_t))dlsym(RTLD_NEXT, "realloc");
    return refused() ? NULL : real(old, size);
}

void *aligned_alloc(size_t align, size_t size) {
    static void *(*real)(size_t, size_t);
    if (!real) real = (void *(*)(size_t, size_t))dlsym(RTLD_NEXT, "aligned_alloc");
    return refused() ? NULL : real(align, size);
}

int posix_memalign(void **place, size_t align, size_t size) {
    static int (*real)(void **, size_t, size_t);
    if (!real) real = (int (*)(void **, size_t, size_t))dlsym(RTLD_NEXT, "posix_memalign");
    return refused() ? 12 : real(place, align, size);
}
