/* Loaded before the C library, it writes a line to the file that THREADS names for each thread that is to be started, and
   refuses those whose numbers are in REFUSE, from 1, with a blank between two. */
#define _GNU_SOURCE
#include <dlfcn.h>
#include <errno.h>
#include <pthread.h>
#include <stdio.h>
#include <stdlib.h>

typedef int starting(pthread_t *, const pthread_attr_t *, void *(*)(void *), void *);

/* Whether a number stands among those of a text. */
static int stands_in(const char *text, long number) {
    char *rest;
    for (long next = strtol(text, &rest, 10); rest != text; next = strtol(text, &rest, 10)) {
        if (next == number) return 1;
        text = rest;
    }
    return 0;
}

int pthread_create(pthread_t *thread, const pthread_attr_t *how, void *(*work)(void *), void *with) {
    static int number;
    const char *path = getenv("THREADS"), *refused = getenv("REFUSE");
    /* (a thread of the program may start another) */
    int own = __atomic_add_fetch(&number, 1, __ATOMIC_SEQ_CST);
    FILE *file = path ? fopen(path, "a") : NULL;
    if (file) {
        fprintf(file, "%d\n", own);
        fclose(file);
    }
    if (refused && stands_in(refused, own)) return EAGAIN;
    return ((starting *)dlsym(RTLD_NEXT, "pthread_create"))(thread, how, work, with);
}
