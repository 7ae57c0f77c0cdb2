/* Counts the bytes that a program holds between two marks, and refuses it one allocation there.
 *
 * usage: HELD_REFUSED=N LD_PRELOAD=./held.so PROGRAM ..
 *
 * Counted are malloc, realloc and free, by which alone proved programs take and give back memory. A mark is an allocation of MARK
 * bytes, which nothing else asks for. Between the first and the second mark the Nth allocation is refused, none where N is 0; at the
 * second mark a line on standard error says how many bytes were held at each mark, and how many allocations were asked for in between.
 */
#define _GNU_SOURCE
#include <dlfcn.h>
#include <malloc.h>
#include <stdint.h>
#include <stdio.h>
#include <stdlib.h>
#include <string.h>
#include <unistd.h>

enum { MARK = 1000003 };

static size_t held, held_before, asked;
static unsigned long refused;
static int marks;

static void mark(void) {
    if (++marks == 1) {
        const char *number = getenv("HELD_REFUSED");
        refused = number ? strtoul(number, NULL, 10) : 0;
        held_before = held;
        asked = 0;
    } else if (marks == 2) {
        char line[128];
        int size = snprintf(line, sizeof line, "held %zu bytes before, %zu after, %zu allocations\n", held_before, held, asked);
        if (write(2, line, size) != size)
            _exit(3);
    }
}

/* Whether this allocation is the one to be refused. */
static int is_refused(void) {
    if (marks != 1)
        return 0;
    asked++;
    return asked == refused;
}

static void *counted(void *block) {
    if (block)
        held += malloc_usable_size(block);
    return block;
}

void *malloc(size_t size) {
    static void *(*next)(size_t);
    if (!next)
        next = dlsym(RTLD_NEXT, "malloc");
    if (size == MARK)
        mark();
    else if (is_refused())
        return NULL;
    return counted(next(size));
}

void *realloc(void *block, size_t size) {
    static void *(*next)(void *, size_t);
    if (!next)
        next = dlsym(RTLD_NEXT, "realloc");
    if (is_refused())
        return NULL;
    size_t before = block ? malloc_usable_size(block) : 0;
    void *moved = next(block, size);
    if (moved)
        held = held - before + malloc_usable_size(moved);
    return moved;
}

void free(void *block) {
    static void (*next)(void *);
    if (!next)
        next = dlsym(RTLD_NEXT, "free");
    if (block)
        held -= malloc_usable_size(block);
    next(block);
}
