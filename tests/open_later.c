/* When a file is opened for the second time, opens the one whose name has ".later" behind it, if there is one: a file
 * that changes while a command reads it twice. It is loaded with LD_PRELOAD. */
#define _GNU_SOURCE
#include <dlfcn.h>
#include <fcntl.h>
#include <stdarg.h>
#include <stdio.h>
#include <string.h>
#include <unistd.h>

#define MOST 64

int open(const char *name, int flags, ...) {
    static int (*real)(const char *, int, ...);
    static char opened[MOST][256];
    static int count;
    char later[300];
    va_list more;
    va_start(more, flags);
    int mode = flags & O_CREAT ? va_arg(more, int) : 0;
    va_end(more);
    if (!real) real = (int (*)(const char *, int, ...))dlsym(RTLD_NEXT, "open");
    snprintf(later, sizeof later, "%s.later", name);
    for (int i = 0; i < count; i++)
        if (!strcmp(opened[i], name) && !access(later, R_OK)) return real(later, flags, mode);
    if (count < MOST) snprintf(opened[count++], sizeof opened[0], "%s", name);
    return real(name, flags, mode);
}
