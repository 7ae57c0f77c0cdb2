/* Has a program read little at a time.
 *
 * usage: SHORT_READS=N [SHORT_READS_SEED=S] LD_PRELOAD=./short_reads.so PROGRAM ..
 *
 * Each read gives at most N bytes, or with a seed above 0 at most N to 100 N, by a sequence that it begins.
 */
#define _GNU_SOURCE
#include <dlfcn.h>
#include <stdint.h>
#include <stdlib.h>
#include <unistd.h>

static uint64_t number(const char *name, uint64_t otherwise) {
    const char *word = getenv(name);
    return word ? strtoull(word, NULL, 10) : otherwise;
}

static size_t most(void) {
    static uint64_t unit, state;
    if (!unit) {
        unit = number("SHORT_READS", 1);
        state = number("SHORT_READS_SEED", 0);
    }
    if (!state)
        return unit;
    state = state * 6364136223846793005u + 1442695040888963407u;
    return unit * (1 + (state >> 33) % 100);
}

ssize_t read(int from, void *into, size_t size) {
    static ssize_t (*next)(int, void *, size_t);
    if (!next)
        next = dlsym(RTLD_NEXT, "read");
    size_t limit = most();
    return next(from, into, size < limit ? size : limit);
}
