/* Links the static library and makes its calls: good inputs, and short, empty and null slices. Prints a line for each failed test and a count at the end. */
#define _DEFAULT_SOURCE
#include <stdio.h>
#include <stdlib.h>
#include <string.h>
#include <sys/mman.h>
#include "ropethistle.h"

static int tests, failed;
#define TEST(c) do { tests++; if (!(c)) { failed++; printf("line %d: %s\n", __LINE__, #c); } } while (0)

/* `len` bytes that end where a page begins that may not be touched: a sanitizer does not see what the library does, and this page does */
static void *lent(size_t len) {
    size_t page = 65536, room = (len + page - 1) / page * page;
    char *p = mmap(NULL, room + page, PROT_READ | PROT_WRITE, MAP_PRIVATE | MAP_ANONYMOUS, -1, 0);
    if (p == MAP_FAILED || mprotect(p + room, page, PROT_NONE)) abort();
    return p + room - len;
}

static uint64_t *words(size_t len, uint64_t fill) {
    uint64_t *p = lent(len * sizeof *p);
    for (size_t i = 0; i < len; i++) p[i] = fill;
    return p;
}

/* a copy of a constant, ending at such a page */
static uint64_t *copied(const uint64_t *from, size_t len) { return memcpy(words(len, 0), from, len * sizeof *from); }

/* Jordan-Wigner on two modes: XI, YI, ZX, ZY, phases 0, 1, 0, 1 */
static const uint64_t XS[4] = {1, 1, 2, 2}, ZS[4] = {0, 1, 1, 3};
static const uint8_t PS[4] = {0, 1, 0, 1};
static uint64_t *X, *Z;
static uint8_t *P;
#define ROWS(k) 2, 2, X, 4 - (k), Z, 4, P, 4

static void good(void) {
    uint64_t v = 0, list = 3, out[2] = {7, 7}, room[9];
    memset(room, 0xff, sizeof room);
    RopethistleAnswer a = ropethistle_check_vacuum(ROWS(0), &v, 1);
    TEST(a.number == 0 && a.first == 0 && a.second == 0);
    a = ropethistle_check_rows(ROWS(0), &v, 1, room, 9);
    TEST(a.number == 0);
    for (int i = 0; i < 8; i++) TEST(room[i] == 0);
    TEST(room[8] == UINT64_MAX);
    RopethistlePhase f = ropethistle_try_encode(ROWS(0), &v, 1, &list, 1, out, 2);
    TEST(f.number == 0 && f.phase == 0 && out[0] == 3 && out[1] == 7);
    uint64_t back[2] = {9, 9};
    a = ropethistle_decode_zbasis_state(ROWS(0), &v, 1, out, 1, back, 2);
    TEST(a.number == 0 && back[0] == 3 && back[1] == 9);
    size_t k[2] = {0, 1}, flip[2] = {1, 0};
    uint64_t ox = 5, oz = 5;
    RopethistleProduct p = ropethistle_product(ROWS(0), k, 2, 2.0, 0.0, &ox, 1, &oz, 1);
    TEST(p.number == 0 && p.phase == 1 && p.re == 0.0 && p.im == 2.0 && ox == 0 && oz == 1);
    RopethistleRealProduct r = ropethistle_product_real(ROWS(0), k, 2, 2.0, &ox, 1, &oz, 1);
    TEST(r.number == 0 && r.phase == 1 && r.imaginary == 1 && r.value == 2.0);
    r = ropethistle_product_real(ROWS(0), flip, 2, 2.0, &ox, 1, &oz, 1);
    TEST(r.number == 0 && r.phase == 3 && r.imaginary == 1 && r.value == -2.0);
    uint64_t mx[4], mz[4];
    uint8_t mp[4];
    a = ropethistle_maxnto(2, mx, 4, mz, 4, mp, 4);
    TEST(a.number == 0 && mx[0] == 2 && mz[0] == 1 && mx[1] == 2 && mz[1] == 3 && mx[2] == 1 && mz[2] == 0 && mx[3] == 1 && mz[3] == 1);
    TEST(mp[0] == 0 && mp[1] == 1 && mp[2] == 0 && mp[3] == 1);
}

/* two rows multiplied on `columns` columns, each part read having as many words as needed, which end at such a page */
static RopethistleMultiplied multiplied(size_t columns, uint8_t left, const uint64_t *lx, const uint64_t *lz, uint8_t right, const uint64_t *rx, const uint64_t *rz,
    uint64_t *ox, uint64_t *oz) {
    size_t w = (columns + 63) / 64;
    return ropethistle_multiply(columns, left, copied(lx, w), w, copied(lz, w), w, right, copied(rx, w), w, copied(rz, w), w, ox, w, oz, w);
}

#define IS(m, a, b, c) ((m).number == (a) && (m).phase == (b) && (m).commute == (c))

static void pairs(void) {
    static const uint64_t none[4] = {0}, one[4] = {1}, two[4] = {2}, three[4] = {3}, last[4] = {0, 0, 0, 1ull << 63}, both[4] = {1, 0, 0, 1ull << 63};
    uint64_t *ox = words(1, 5), *oz = words(1, 5), *wide_x = words(4, 5), *wide_z = words(4, 5);
    /* refused: rows that commute, too, are said not to */
    RopethistleMultiplied m = multiplied(2, 4, one, none, 0, one, none, ox, oz);
    TEST(IS(m, 17, 0, 0) && *ox == 5 && *oz == 5);
    /* XI with YI in both orders, with IX; YI with itself; XX with ZZ, whose letters anticommute in two columns */
    m = multiplied(2, 0, one, none, 1, one, one, ox, oz);
    TEST(IS(m, 0, 1, 0) && *ox == 0 && *oz == 1);
    m = multiplied(2, 1, one, one, 0, one, none, ox, oz);
    TEST(IS(m, 0, 3, 0) && *ox == 0 && *oz == 1);
    m = multiplied(2, 0, one, none, 0, two, none, ox, oz);
    TEST(IS(m, 0, 0, 1) && *ox == 3 && *oz == 0);
    m = multiplied(2, 1, one, one, 1, one, one, ox, oz);
    TEST(IS(m, 0, 0, 1) && *ox == 0 && *oz == 0);
    m = multiplied(2, 0, three, none, 0, none, three, ox, oz);
    TEST(IS(m, 0, 0, 1) && *ox == 3 && *oz == 3);
    /* rows that differ in column 255 only, in both orders; a column too few for them, which leaves the parts; a row with itself; X with Z in columns 0 and 255 */
    m = multiplied(256, 0, both, none, 0, one, last, wide_x, wide_z);
    TEST(IS(m, 0, 0, 0) && !memcmp(wide_x, last, 32) && !memcmp(wide_z, last, 32));
    m = multiplied(255, 0, both, none, 0, both, none, wide_x, wide_z);
    TEST(IS(m, 17, 0, 0) && !memcmp(wide_x, last, 32) && !memcmp(wide_z, last, 32));
    m = multiplied(256, 0, both, none, 0, both, none, wide_x, wide_z);
    TEST(IS(m, 0, 0, 1) && !memcmp(wide_x, none, 32) && !memcmp(wide_z, none, 32));
    m = multiplied(256, 0, one, last, 0, both, none, wide_x, wide_z);
    TEST(IS(m, 0, 2, 0) && !memcmp(wide_x, last, 32) && !memcmp(wide_z, last, 32));
    m = multiplied(256, 0, both, none, 0, none, both, wide_x, wide_z);
    TEST(IS(m, 0, 0, 1) && !memcmp(wide_x, both, 32) && !memcmp(wide_z, both, 32));
    m = ropethistle_multiply(2, 0, NULL, 0, NULL, 0, 0, NULL, 0, NULL, 0, NULL, 0, NULL, 0);
    TEST(IS(m, 2, 0, 0));
    m = ropethistle_multiply(0, 0, NULL, 0, NULL, 0, 0, NULL, 0, NULL, 0, NULL, 0, NULL, 0);
    TEST(IS(m, 1, 0, 0));
}

/* trees: 01's example of two entries, the named trees, refusals that leave zeros and that leave all as it was */
static void trees(void) {
    static const size_t entries[8] = {0, 2, 3, 1, 1, 4, 5, 99};
    static const uint8_t filled[6] = {1, 1, 1, 1, 1, 0};
    uint64_t *x = words(4, 7), *z = words(4, 7), *v = words(1, 7), *room = words(8, 7);
    uint8_t *p = lent(4);
    RopethistleAnswer a = ropethistle_from_flatpack(2, 2, entries, 8, filled, 6, x, 4, z, 4, p, 4, v, 1, room, 8);
    TEST(a.number == 0 && !memcmp(x, XS, 32) && !memcmp(z, ZS, 32) && !memcmp(p, PS, 4) && v[0] == 0 && room[0] == 0 && room[7] == 0);
    memset(x, 1, 32);
    a = ropethistle_from_flatpack_naive(2, 2, entries, 8, filled, 6, x, 4, z, 4, p, 4, v, 1, room, 8);
    TEST(a.number == 0 && !memcmp(x, XS, 32));
    /* any byte but 0 says that a slot is filled */
    static const uint8_t others[6] = {2, 128, 255, 2, 128, 0};
    uint8_t *many = memset(lent(1000), 255, 1000);
    memcpy(many, others, 6);
    for (int k = 0; k < 4; k++) {
        memset(x, 1, 32), memset(z, 1, 32), memset(p, 9, 4);
        const uint8_t *bytes = k < 2 ? memcpy(lent(6), others, 6) : many;
        a = (k % 2 ? ropethistle_from_flatpack_naive : ropethistle_from_flatpack)(2, 2, entries, 8, bytes, k < 2 ? 6 : 1000, x, 4, z, 4, p, 4, v, 1, room, 8);
        TEST(a.number == 0 && !memcmp(x, XS, 32) && !memcmp(z, ZS, 32) && !memcmp(p, PS, 4) && v[0] == 0);
    }
    TEST(ropethistle_from_flatpack(2, 2, entries, 8, others, 5, x, 4, z, 4, p, 4, v, 1, room, 8).number == 2);
    for (size_t tree = 0; tree < 4; tree++) TEST(ropethistle_from_name(tree, 2, 2, x, 4, z, 4, p, 4, v, 1, room, 8).number == 0);
    memset(x, 1, 32);
    TEST(ropethistle_from_name(4, 2, 2, x, 4, z, 4, p, 4, v, 1, room, 8).number == 1 && x[0] == 0x0101010101010101);
    TEST(ropethistle_from_name(0, 2, 1, x, 4, z, 4, p, 4, v, 1, room, 8).number == 3 && x[0] == 0x0101010101010101);
    TEST(ropethistle_from_name(0, 2, 2, x, 3, z, 4, p, 4, v, 1, room, 8).number == 2);
    TEST(ropethistle_from_name(0, 2, 2, NULL, 0, NULL, 0, NULL, 0, NULL, 0, NULL, 0).number == 2);
    TEST(ropethistle_from_flatpack(2, 2, NULL, 0, NULL, 0, x, 4, z, 4, p, 4, v, 1, room, 8).number == 2);
    TEST(ropethistle_from_flatpack(0, 2, NULL, 0, NULL, 0, NULL, 0, NULL, 0, NULL, 0, NULL, 0, NULL, 0).number == 1);
    /* X and Y leaf exchanged: 13, and zeros are left */
    static const size_t turned[4] = {0, 2, 1, 0};
    static const uint8_t two[3] = {1, 1, 0};
    a = ropethistle_from_flatpack(1, 1, turned, 4, two, 3, x, 2, z, 2, p, 2, v, 1, room, 4);
    TEST(a.number == 13 && x[0] == 0 && x[1] == 0 && x[2] == 0x0101010101010101);
}

static void solving(void) {
    uint64_t *v = words(1, 7), *room = words(8, 7), *ox = words(4, 7), *oz = words(4, 7), *ov = words(1, 7);
    uint8_t *op = lent(4), turned[2] = {0, 3};
    TEST(ropethistle_determine_vacuum_state(1, 1, XS, 2, ZS, 2, turned, 2, v, 1, room, 2).number == 0 && v[0] == 1 && room[1] == 0 && room[2] == 7);
    TEST(ropethistle_determine_vacuum_state(1, 1, XS, 2, ZS, 2, turned, 2, v, 1, NULL, 0).number == 2);
    turned[1] = 2;
    v[0] = 9;
    TEST(ropethistle_determine_vacuum_state(1, 1, XS, 2, ZS, 2, turned, 2, v, 1, room, 2).number == 12 && v[0] == 9);
    TEST(ropethistle_new(ROWS(0), v, 1, room, 8).number == 0 && v[0] == 0 && room[7] == 0);
    TEST(ropethistle_new(ROWS(0), NULL, 0, room, 8).number == 2);
    static const size_t map[2] = {1, 0}, same[2] = {1, 1};
    RopethistleAnswer a = ropethistle_apply_mode_enumeration(ROWS(0), v, 1, map, 2, ox, 4, oz, 4, op, 4, ov, 1, room, 8);
    TEST(a.number == 0 && ox[0] == X[2] && oz[1] == Z[3] && ox[2] == X[0] && op[3] == P[1] && ov[0] == 0);
    ox[0] = 7;
    TEST(ropethistle_apply_mode_enumeration(ROWS(0), v, 1, same, 2, ox, 4, oz, 4, op, 4, ov, 1, room, 8).number == 17 && ox[0] == 7);
    TEST(ropethistle_apply_mode_enumeration(ROWS(0), v, 1, NULL, 0, ox, 4, oz, 4, op, 4, ov, 1, room, 8).number == 2);
}

static void refused(void) {
    uint64_t v = 0, out = 7;
    static const uint64_t same[4] = {1, 1, 1, 1}, none[4] = {0, 0, 0, 0};
    uint64_t room[8] = {1, 2, 3, 4, 5, 6, 7, 8};
    RopethistleAnswer a = ropethistle_check_rows(2, 2, same, 4, none, 4, P, 4, &v, 1, room, 8);
    TEST(a.number == 10 && a.first == 0 && a.second == 1);
    for (int i = 0; i < 8; i++) TEST(room[i] == 0);
    uint64_t list = 4;
    RopethistlePhase f = ropethistle_try_encode(ROWS(0), &v, 1, &list, 1, &out, 1);
    TEST(f.number == 17 && f.phase == 0 && out == 7);
    a = ropethistle_maxnto(255, NULL, 0, NULL, 0, NULL, 0);
    TEST(a.number == 18);
    a = ropethistle_maxnto(257, NULL, 0, NULL, 0, NULL, 0);
    TEST(a.number == 1);
}

/* each slice one word short, exactly as long as needed, empty, and null */
static void lengths(void) {
    uint64_t *v = words(1, 0), *list = words(1, 1), *out = words(1, 7), *room = words(8, 7), *shorter = words(7, 7);
    TEST(ropethistle_check_rows(ROWS(1), v, 1, room, 8).number == 2 && room[0] == 7);
    TEST(ropethistle_check_rows(ROWS(0), v, 1, shorter, 7).number == 2 && shorter[0] == 7);
    TEST(ropethistle_check_rows(ROWS(0), v, 1, room, 8).number == 0 && room[7] == 0);
    TEST(ropethistle_check_rows(ROWS(0), NULL, 0, room, 8).number == 2);
    TEST(ropethistle_check_rows(ROWS(0), v, 1, NULL, 0).number == 2);
    TEST(ropethistle_check_rows(2, 2, NULL, 0, NULL, 0, NULL, 0, NULL, 0, NULL, 0).number == 2);
    TEST(ropethistle_check_rows(0, 2, NULL, 0, NULL, 0, NULL, 0, NULL, 0, NULL, 0).number == 1);
    TEST(ropethistle_check_vacuum(ROWS(0), NULL, 0).number == 2);
    TEST(ropethistle_check_vacuum(257, 2, NULL, 0, NULL, 0, NULL, 0, NULL, 0).number == 1);
    TEST(ropethistle_try_encode(ROWS(0), v, 1, list, 1, NULL, 0).number == 2);
    TEST(ropethistle_try_encode(ROWS(0), v, 1, list, 0, out, 1).number == 2 && out[0] == 7);
    TEST(ropethistle_try_encode(ROWS(0), v, 1, list, 1, out, 1).number == 0 && out[0] == 1);
    TEST(ropethistle_decode_zbasis_state(ROWS(0), v, 1, NULL, 0, out, 1).number == 2);
    TEST(ropethistle_decode_zbasis_state(ROWS(0), v, 1, list, 1, out, 1).number == 0);
    /* no rows: the identity, from an empty or a null list of numbers */
    uint64_t ox = 5, oz = 5;
    RopethistleProduct p = ropethistle_product(ROWS(0), NULL, 0, 1.5, -2.5, &ox, 1, &oz, 1);
    TEST(p.number == 0 && p.phase == 0 && p.re == 1.5 && p.im == -2.5 && ox == 0 && oz == 0);
    TEST(ropethistle_product(ROWS(0), NULL, 0, 1.0, 0.0, NULL, 0, &oz, 1).number == 2);
    TEST(ropethistle_product_real(ROWS(0), NULL, 0, 1.0, &ox, 1, NULL, 0).number == 2);
    TEST(ropethistle_maxnto(2, NULL, 0, NULL, 0, NULL, 0).number == 2);
}

/* the largest sizes, each slice exactly as long as needed */
static void largest(void) {
    uint64_t *x = words(2048, 7), *z = words(2048, 7), *v = words(4, 0), *list = words(4, UINT64_MAX), *out = words(4, 7), *back = words(4, 7);
    uint8_t *p = lent(512);
    uint64_t *room = words(4096, 7);
    TEST(ropethistle_maxnto(256, x, 2048, z, 2048, p, 512).number == 0);
    RopethistleAnswer a = ropethistle_check_rows(256, 256, x, 2048, z, 2048, p, 512, v, 4, room, 4096);
    TEST(a.number == 0 || a.number == 13);
    for (int i = 0; i < 4096; i++) TEST(room[i] == 0);
    RopethistlePhase f = ropethistle_try_encode(256, 256, x, 2048, z, 2048, p, 512, v, 4, list, 4, out, 4);
    if (f.number == 0) {
        TEST(ropethistle_decode_zbasis_state(256, 256, x, 2048, z, 2048, p, 512, v, 4, out, 4, back, 4).number == 0);
        TEST(memcmp(back, list, 32) == 0);
    }
}

/* Jordan-Wigner on 256 nodes as a flatpack with leaves: all 768 slots, the last of them empty, as many bytes as needed and more; as the named tree */
static void whole_chain(void) {
    size_t n = 256, *entries = lent(4 * n * sizeof *entries);
    uint8_t *bytes = lent(3 * n), *more = lent(3 * n + 1), *p = lent(2 * n), *named = lent(2 * n);
    uint64_t *x = words(2048, 7), *z = words(2048, 7), *v = words(4, 7), *room = words(4096, 7), *nx = words(2048, 9), *nz = words(2048, 9);
    for (size_t i = 0; i < n; i++) {
        entries[4 * i] = i, entries[4 * i + 1] = n + 2 * i, entries[4 * i + 2] = n + 2 * i + 1, entries[4 * i + 3] = i + 1;
        bytes[3 * i] = 2, bytes[3 * i + 1] = 128, bytes[3 * i + 2] = i + 1 < n ? 255 : 0;
    }
    memcpy(more, bytes, 3 * n), more[3 * n] = 255;
    TEST(ropethistle_from_name(0, n, n, nx, 2048, nz, 2048, named, 512, v, 4, room, 4096).number == 0);
    TEST(ropethistle_from_flatpack(n, n, entries, 4 * n, bytes, 3 * n, x, 2048, z, 2048, p, 512, v, 4, room, 4096).number == 0);
    TEST(!memcmp(x, nx, 2048 * 8) && !memcmp(z, nz, 2048 * 8) && !memcmp(p, named, 512));
    memset(x, 7, 2048 * 8);
    TEST(ropethistle_from_flatpack(n, n, entries, 4 * n, more, 3 * n + 1, x, 2048, z, 2048, p, 512, v, 4, room, 4096).number == 0 && !memcmp(x, nx, 2048 * 8));
    TEST(ropethistle_from_flatpack(n, n, entries, 4 * n, bytes, 3 * n - 1, x, 2048, z, 2048, p, 512, v, 4, room, 4096).number == 2);
}

int main(void) {
    X = copied(XS, 4), Z = copied(ZS, 4), P = memcpy(lent(4), PS, 4);
    good();
    pairs();
    trees();
    solving();
    refused();
    lengths();
    largest();
    whole_chain();
    printf("link.c: %d tests, %d failed\n", tests, failed);
    return failed != 0;
}
