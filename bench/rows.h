/* The rows that bench/instructions.c and bench/against.c make their calls on: buffers at their largest sizes, told as long as n modes on n qubits need, so that a
 * list takes w words as a string does. */
#include "ropethistle.h"

enum { MOST_MODES = 256, MOST_WORDS = MOST_MODES / 64, JORDAN_WIGNER = 0 };

static size_t n, w;
static uint64_t x[2 * MOST_MODES * MOST_WORDS], z[2 * MOST_MODES * MOST_WORDS], room[4 * MOST_MODES * MOST_WORDS];
static uint64_t vacuum[MOST_WORDS], list[MOST_WORDS], string[MOST_WORDS], out[MOST_WORDS];
static uint8_t phases[2 * MOST_MODES];

#define SET x, 2 * n * w, z, 2 * n * w, phases, 2 * n
#define ROWS n, n, SET

/* the sizes, and the list of all modes */
static void size(size_t modes) {
    n = modes;
    w = n / 64 + (n % 64 != 0);
    for (size_t i = 0; i < n; i++) list[i / 64] |= (uint64_t)1 << i % 64;
}
