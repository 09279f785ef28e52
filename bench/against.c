/* Times the calls of two builds of the library in one run, for bench/against. Arguments: two shared objects, OLD and NEW, and the modes.
 *
 * The two are called by turns, a sample of each after the other, so that both meet the same machine; a time is the least of 60 samples of about a millisecond.
 * A line has the call, the modes, nanoseconds a call of each, and how many times as long OLD takes. Rows are Jordan-Wigner's, the list is that of all modes. */
#define _POSIX_C_SOURCE 200809L
#include <dlfcn.h>
#include <stdio.h>
#include <stdlib.h>
#include <time.h>
#include "rows.h"

enum { SAMPLES = 60 };

struct library {
    RopethistleAnswer (*from_name)(size_t, size_t, size_t, uint64_t *, size_t, uint64_t *, size_t, uint8_t *, size_t, uint64_t *, size_t, uint64_t *, size_t);
    RopethistlePhase (*try_encode)(size_t, size_t, const uint64_t *, size_t, const uint64_t *, size_t, const uint8_t *, size_t, const uint64_t *, size_t,
        const uint64_t *, size_t, uint64_t *, size_t);
    RopethistleAnswer (*decode)(size_t, size_t, const uint64_t *, size_t, const uint64_t *, size_t, const uint8_t *, size_t, const uint64_t *, size_t,
        const uint64_t *, size_t, uint64_t *, size_t);
    RopethistleAnswer (*check_rows)(size_t, size_t, const uint64_t *, size_t, const uint64_t *, size_t, const uint8_t *, size_t, const uint64_t *, size_t,
        uint64_t *, size_t);
    RopethistleAnswer (*new)(size_t, size_t, const uint64_t *, size_t, const uint64_t *, size_t, const uint8_t *, size_t, uint64_t *, size_t, uint64_t *, size_t);
};

static size_t encode(const struct library *l) { return l->try_encode(ROWS, vacuum, w, list, w, string, w).number; }
static size_t decode(const struct library *l) { return l->decode(ROWS, vacuum, w, string, w, out, w).number; }
static size_t check(const struct library *l) { return l->check_rows(ROWS, vacuum, w, room, 4 * n * w).number; }
static size_t make(const struct library *l) { return l->new(ROWS, out, w, room, 4 * n * w).number; }

static const struct { const char *name; size_t (*call)(const struct library *); } CALLS[] = {
    {"encode", encode}, {"decode", decode}, {"check", check}, {"new", make},
};

static void done(size_t number) {
    if (number == 0) return;
    fprintf(stderr, "against: refused by %zu\n", number);
    exit(1);
}

static void *find(void *object, const char *name) {
    void *found = dlsym(object, name);
    if (found != NULL) return found;
    fprintf(stderr, "against: %s\n", dlerror());
    exit(1);
}

static struct library load(const char *path) {
    void *object = dlopen(path, RTLD_NOW | RTLD_LOCAL);
    if (object == NULL) {
        fprintf(stderr, "against: %s\n", dlerror());
        exit(1);
    }
    struct library l;
    *(void **)&l.from_name = find(object, "ropethistle_from_name");
    *(void **)&l.try_encode = find(object, "ropethistle_try_encode");
    *(void **)&l.decode = find(object, "ropethistle_decode_zbasis_state");
    *(void **)&l.check_rows = find(object, "ropethistle_check_rows");
    *(void **)&l.new = find(object, "ropethistle_new");
    return l;
}

/* nanoseconds a call, over this many calls */
static double sample(size_t (*call)(const struct library *), const struct library *l, size_t calls) {
    struct timespec start, end;
    clock_gettime(CLOCK_MONOTONIC, &start);
    for (size_t i = 0; i < calls; i++) done(call(l));
    clock_gettime(CLOCK_MONOTONIC, &end);
    return ((double)(end.tv_sec - start.tv_sec) * 1e9 + (double)(end.tv_nsec - start.tv_nsec)) / (double)calls;
}

int main(int argc, char **argv) {
    if (argc != 4) {
        fprintf(stderr, "against: arguments: OLD NEW MODES\n");
        return 1;
    }
    const struct library both[2] = {load(argv[1]), load(argv[2])};
    size(strtoul(argv[3], NULL, 10));
    done(both[0].from_name(JORDAN_WIGNER, n, n, SET, vacuum, w, room, 4 * n * w).number);
    done(encode(&both[0]));
    for (size_t c = 0; c < sizeof CALLS / sizeof *CALLS; c++) {
        size_t calls = 1 + (size_t)(1e6 / sample(CALLS[c].call, &both[0], 2));
        double least[2] = {1e18, 1e18};
        for (int s = 0; s < 2 * SAMPLES; s++) {
            double took = sample(CALLS[c].call, &both[s % 2], calls);
            if (took < least[s % 2]) least[s % 2] = took;
        }
        printf("%s\t%zu\t%.0f\t%.0f\t%.2f\n", CALLS[c].name, n, least[0], least[1], least[0] / least[1]);
    }
    return 0;
}
