/* Refuses a program one allocation.
 *
 * usage: REFUSED=N REFUSED_TOLD=FILE LD_PRELOAD=./refused.so PROGRAM ..
 *
 * Counted are malloc and realloc, by which alone proved programs take memory: from the start, or, with REFUSED_FROM_OPEN, from the first
 * file that is opened. The Nth is refused, none where N is 0. When the program ends, FILE has how many were asked for.
 */
#define _GNU_SOURCE
#include <dlfcn.h>
#include <fcntl.h>
#include <stdarg.h>
#include <stdio.h>
#include <stdlib.h>
#include <sys/stat.h>

static unsigned long asked, refused;
static int counts;

__attribute__((constructor)) static void begin(void) {
    const char *number = getenv("REFUSED");
    refused = number ? strtoul(number, NULL, 10) : 0;
    counts = !getenv("REFUSED_FROM_OPEN");
}

__attribute__((destructor)) static void end(void) {
    const char *path = getenv("REFUSED_TOLD");
    unsigned long told = asked;
    FILE *file = path ? fopen(path, "w") : NULL;
    if (file) {
        fprintf(file, "%lu", told);
        fclose(file);
    }
}

/* Whether this allocation is the one to be refused. */
static int is_refused(void) {
    return counts && ++asked == refused;
}

void *malloc(size_t size) {
    static void *(*next)(size_t);
    if (!next)
        next = dlsym(RTLD_NEXT, "malloc");
    return is_refused() ? NULL : next(size);
}

void *realloc(void *block, size_t size) {
    static void *(*next)(void *, size_t);
    if (!next)
        next = dlsym(RTLD_NEXT, "realloc");
    return is_refused() ? NULL : next(block, size);
}

/* A file is opened by any of these. */
#define OPENS(NAME)                                                 \
    int NAME(const char *path, int flags, ...) {                    \
        static int (*next)(const char *, int, mode_t);              \
        va_list rest;                                               \
        va_start(rest, flags);                                      \
        mode_t mode = flags & O_CREAT ? va_arg(rest, mode_t) : 0;   \
        va_end(rest);                                               \
        if (!next)                                                  \
            next = dlsym(RTLD_NEXT, #NAME);                         \
        counts = 1;                                                 \
        return next(path, flags, mode);                             \
    }
OPENS(open)
OPENS(open64)
