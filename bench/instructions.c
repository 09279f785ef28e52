/* Makes one call of the library many times, for bench/count to count its instructions. Arguments: CALL MODES TIMES.
 *
 * CALL is encode (the list of all modes), decode (the string of that list), check, new, solve, product (of rows 0, 1, n and 2n - 1) or multiply (rows 0 and
 * 2n - 1), on Jordan-Wigner's rows. What the calls are given is made first whatever TIMES is, so that a run with TIMES 0 has the instructions that are not the
 * calls'. */
#include <stdio.h>
#include <stdlib.h>
#include <string.h>
#include "rows.h"

static uint64_t out_z[MOST_WORDS];
static size_t numbers[4];

static size_t encode(void) { return ropethistle_try_encode(ROWS, vacuum, w, list, w, string, w).number; }
static size_t decode(void) { return ropethistle_decode_zbasis_state(ROWS, vacuum, w, string, w, out, w).number; }
static size_t check(void) { return ropethistle_check_rows(ROWS, vacuum, w, room, 4 * n * w).number; }
static size_t new(void) { return ropethistle_new(ROWS, out, w, room, 4 * n * w).number; }
static size_t solve(void) { return ropethistle_determine_vacuum_state(ROWS, out, w, room, n * (w + 1)).number; }
static size_t product(void) { return ropethistle_product(ROWS, numbers, 4, 0.5, 0.0, out, w, out_z, w).number; }

/* rows 0 and 2n - 1, whose parts are lent as slices of the set's */
static size_t multiply(void) {
    size_t last = 2 * n - 1;
    return ropethistle_multiply(n, phases[0], x, w, z, w, phases[last], x + last * w, w, z + last * w, w, out, w, out_z, w).number;
}

static const struct { const char *name; size_t (*make)(void); } CALLS[] = {
    {"encode", encode}, {"decode", decode}, {"check", check}, {"new", new}, {"solve", solve}, {"product", product},
    {"multiply", multiply},
};

static void stop(const char *what, const char *which) {
    fprintf(stderr, "instructions: %s: %s\n", what, which);
    exit(1);
}

static void done(size_t number, const char *call) {
    if (number == 0) return;
    fprintf(stderr, "instructions: %s with %zu modes is refused: %zu\n", call, n, number);
    exit(1);
}

static size_t read_number(const char *text) {
    char *end;
    size_t number = strtoul(text, &end, 10);
    if (end == text || *end != 0) stop("not a number", text);
    return number;
}

int main(int argc, char **argv) {
    if (argc != 4) stop("arguments", "CALL MODES TIMES");
    size_t call = 0, calls = sizeof CALLS / sizeof *CALLS;
    while (call < calls && strcmp(CALLS[call].name, argv[1]) != 0) call++;
    if (call == calls) stop("no such call", argv[1]);
    size(read_number(argv[2]));
    size_t times = read_number(argv[3]);

    done(ropethistle_from_name(JORDAN_WIGNER, n, n, SET, vacuum, w, room, 4 * n * w).number, "from_name");
    numbers[1] = 1, numbers[2] = n, numbers[3] = 2 * n - 1;
    done(encode(), "encode");

    for (size_t i = 0; i < times; i++) done(CALLS[call].make(), CALLS[call].name);
    return 0;
}
