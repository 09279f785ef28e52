/* Ropethistle: fermion to qubit encodings, up to 256 modes on up to 256 qubits.
 *
 * Link target/staticlib/libexports.a (`rt staticlib exports`). It needs memcpy and memset and nothing else; it allocates nothing, keeps nothing between calls, and
 * may be called from several threads at once.
 *
 * Slices. A slice is a pointer and then the number of its elements. Only the lengths named below are looked at or written; what lies past them stays, and is not
 * read. A slice of length 0 may have any pointer, NULL too. A slice that is written may overlap no other slice of the call; slices that are only read may overlap.
 * Words must be aligned as uint64_t, numbers as size_t.
 *
 * n is `modes`, q is `qubits`, w is ceil(q / 64). A row set is
 *     x, z        2n * w words each, row k from word k * w on, column j being bit j % 64 of word j / 64; bits past column q - 1 in these words are 0
 *     phases      2n bytes, each 0 to 3: row k is i^phases[k] X^x Z^z
 * Rows 2i and 2i + 1 belong to mode i. A string or a vacuum is w words, an occupation list ceil(n / 64) words, mode i being column i.
 *
 * Answers. `number` is 0 if the call is done, else why it was refused:
 *      1  modes 0 or above 256, qubits (or columns) 0 or above 256, a flatpack qubit above 255, a product of more than 512 rows, a tree number above 3
 *      2  a slice is shorter than stated
 *      3  fewer qubits than nodes, or a flatpack qubit not below qubits
 *      4  with leaves: an unnamed child not above the largest qubit
 *      5  a node is its own child
 *      6  a node gets a second parent
 *      7  a qubit has two entries
 *      8  not all nodes hang from one root
 *      9  with leaves: leaf m at or above 2n, used twice, or missing
 *     10  two rows commute; `first` and `second` are the first such pair in row order
 *     11  rows dependent
 *     12  no vacuum solves the rule
 *     13  the vacuum breaks the rule
 *     14  the string decodes to no list
 *     15  the list cannot be encoded
 *     17  a phase above 3, a bit past the last column, a row number at or above 2n, a map that is no permutation, a coefficient part that is not finite
 *     18  MaxNTO: n odd
 * The first that holds is given, in the order 1, 2, 3, 17 and then that of the call (MaxNTO: 1, 18, 2). The other values of a refused answer are 0, but for 10's pair.
 *
 * A refused call changes no output, but that a tree refused by 13 leaves 0 over its rows, phases and vacuum. `room` is work room: 0 over its needed length after every call that got past 1 and 2, refused or not, and untouched otherwise.
 */
#ifndef ROPETHISTLE_H
#define ROPETHISTLE_H

#include <stddef.h>
#include <stdint.h>

#ifdef __cplusplus
extern "C" {
#endif

typedef struct { size_t number, first, second; } RopethistleAnswer;
/* phase: i to this power, 0 to 3 */
typedef struct { size_t number, phase; } RopethistlePhase;
/* commute: 1 if the two rows commute, 0 if they anticommute, and 0 in a refused answer */
typedef struct { size_t number, phase, commute; } RopethistleMultiplied;
typedef struct { size_t number, phase; double re, im; } RopethistleProduct;
/* value is real if imaginary is 0, else (1) it is multiplied by i */
typedef struct { size_t number, phase, imaginary; double value; } RopethistleRealProduct;

/* Whether the vacuum rule holds at vacuum (w words). 1, 2, 17, 13. */
RopethistleAnswer ropethistle_check_vacuum(size_t modes, size_t qubits,
    const uint64_t *x, size_t x_len, const uint64_t *z, size_t z_len, const uint8_t *phases, size_t phases_len,
    const uint64_t *vacuum, size_t vacuum_len);

/* Whether any two rows anticommute, the rows are independent and the vacuum rule holds. room: 4n * w words. 1, 2, 17, 10, 11, 13. */
RopethistleAnswer ropethistle_check_rows(size_t modes, size_t qubits,
    const uint64_t *x, size_t x_len, const uint64_t *z, size_t z_len, const uint8_t *phases, size_t phases_len,
    const uint64_t *vacuum, size_t vacuum_len, uint64_t *room, size_t room_len);

/* Solves the vacuum rule: writes to vacuum (w words) the solution that is 0 in each column that is a xor of columns before it. It looks at pairs of rows only.
 * room: n * (w + 1) words. 1, 2, 17, 12. */
RopethistleAnswer ropethistle_determine_vacuum_state(size_t modes, size_t qubits,
    const uint64_t *x, size_t x_len, const uint64_t *z, size_t z_len, const uint8_t *phases, size_t phases_len,
    uint64_t *vacuum, size_t vacuum_len, uint64_t *room, size_t room_len);

/* Solves the vacuum rule, then checks the rows, then the vacuum; writes the vacuum (w words). room: 4n * w words. 1, 2, 17, 12, 10, 11, 13. */
RopethistleAnswer ropethistle_new(size_t modes, size_t qubits,
    const uint64_t *x, size_t x_len, const uint64_t *z, size_t z_len, const uint8_t *phases, size_t phases_len,
    uint64_t *vacuum, size_t vacuum_len, uint64_t *room, size_t room_len);

/* New mode i has the old rows of mode map[i] (n numbers), and the same vacuum: written to ox, oz, ophases and ovacuum, which are as long as what they are written from.
 * Rows and vacuum are checked first. room: 4n * w words. 1, 2, 17, 10, 11, 13. */
RopethistleAnswer ropethistle_apply_mode_enumeration(size_t modes, size_t qubits,
    const uint64_t *x, size_t x_len, const uint64_t *z, size_t z_len, const uint8_t *phases, size_t phases_len,
    const uint64_t *vacuum, size_t vacuum_len, const size_t *map, size_t map_len,
    uint64_t *ox, size_t ox_len, uint64_t *oz, size_t oz_len, uint8_t *ophases, size_t ophases_len, uint64_t *ovacuum, size_t ovacuum_len,
    uint64_t *room, size_t room_len);

/* Encodes list (ceil(n / 64) words) from the vacuum; writes the string to out (w words). 1, 2, 17, 15. */
RopethistlePhase ropethistle_try_encode(size_t modes, size_t qubits,
    const uint64_t *x, size_t x_len, const uint64_t *z, size_t z_len, const uint8_t *phases, size_t phases_len,
    const uint64_t *vacuum, size_t vacuum_len, const uint64_t *list, size_t list_len, uint64_t *out, size_t out_len);

/* Decodes string (w words); writes the list to out (ceil(n / 64) words). 1, 2, 17, 14. */
RopethistleAnswer ropethistle_decode_zbasis_state(size_t modes, size_t qubits,
    const uint64_t *x, size_t x_len, const uint64_t *z, size_t z_len, const uint8_t *phases, size_t phases_len,
    const uint64_t *vacuum, size_t vacuum_len, const uint64_t *string, size_t string_len, uint64_t *out, size_t out_len);

/* The product of the rows of these numbers (all numbers_len of them, at most 512), in the order in which they stand; writes its parts to ox and oz (w words each).
 * The coefficient re + i im comes back multiplied by i to the product's letter power. 1, 2, 17. */
RopethistleProduct ropethistle_product(size_t modes, size_t qubits,
    const uint64_t *x, size_t x_len, const uint64_t *z, size_t z_len, const uint8_t *phases, size_t phases_len,
    const size_t *numbers, size_t numbers_len, double re, double im, uint64_t *ox, size_t ox_len, uint64_t *oz, size_t oz_len);

/* The same with a real coefficient, which comes back marked real or imaginary. */
RopethistleRealProduct ropethistle_product_real(size_t modes, size_t qubits,
    const uint64_t *x, size_t x_len, const uint64_t *z, size_t z_len, const uint8_t *phases, size_t phases_len,
    const size_t *numbers, size_t numbers_len, double c, uint64_t *ox, size_t ox_len, uint64_t *oz, size_t oz_len);

/* The product of the row i^left X^lx Z^lz and then the right one, on `columns` columns; each part takes ceil(columns / 64) words. When done, `commute` is 1
 * exactly if the common ones of lx and rz and those of lz and rx are together even in number; then the other order has the same phase, and else one that differs by 2.
 * 1, 2, 17. */
RopethistleMultiplied ropethistle_multiply(size_t columns,
    uint8_t left, const uint64_t *lx, size_t lx_len, const uint64_t *lz, size_t lz_len,
    uint8_t right, const uint64_t *rx, size_t rx_len, const uint64_t *rz, size_t rz_len,
    uint64_t *ox, size_t ox_len, uint64_t *oz, size_t oz_len);

/* Trees: n nodes, whose rows, phases and all-zero vacuum are written to x, z, phases and vacuum. room: 4n * w words. After 1, 2 and 3 the order is 7; then entry by entry,
 * X, Y, Z: 5, 6, 4, 9; then 8; then 9 for a missing leaf; then 13, which leaves zeros over rows, phases and vacuum.
 *
 * A flatpack: entries has 4n numbers, entry i being its qubit at 4i and its X, Y and Z slots at 4i + 1, 4i + 2 and 4i + 3; filled has 3n bytes, 0 if the slot 3i + 0, 1 or 2 is
 * empty (its number is then not looked at) and any other byte if it is not. A number that is some entry's qubit is a node. With leaves: m = number - (largest qubit + 1) is X leaf m / 2
 * if m is even and Y leaf (m - 1) / 2 if it is odd. Naive: it is ignored. */
RopethistleAnswer ropethistle_from_flatpack(size_t modes, size_t qubits,
    const size_t *entries, size_t entries_len, const uint8_t *filled, size_t filled_len,
    uint64_t *x, size_t x_len, uint64_t *z, size_t z_len, uint8_t *phases, size_t phases_len,
    uint64_t *vacuum, size_t vacuum_len, uint64_t *room, size_t room_len);
RopethistleAnswer ropethistle_from_flatpack_naive(size_t modes, size_t qubits,
    const size_t *entries, size_t entries_len, const uint8_t *filled, size_t filled_len,
    uint64_t *x, size_t x_len, uint64_t *z, size_t z_len, uint8_t *phases, size_t phases_len,
    uint64_t *vacuum, size_t vacuum_len, uint64_t *room, size_t room_len);

/* A named tree: 0 Jordan-Wigner, 1 parity, 2 Bravyi-Kitaev, 3 JKMN. It keeps n columns however many qubits are asked for: here w is ceil(n / 64). 1, 2, 3. */
RopethistleAnswer ropethistle_from_name(size_t tree, size_t modes, size_t qubits,
    uint64_t *x, size_t x_len, uint64_t *z, size_t z_len, uint8_t *phases, size_t phases_len,
    uint64_t *vacuum, size_t vacuum_len, uint64_t *room, size_t room_len);

/* The MaxNTO rows of n modes on n qubits: x and z 2n * ceil(n / 64) words each, phases 2n. 1, 18, 2. */
RopethistleAnswer ropethistle_maxnto(size_t modes,
    uint64_t *x, size_t x_len, uint64_t *z, size_t z_len, uint8_t *phases, size_t phases_len);

#ifdef __cplusplus
}
#endif
#endif
