/*
 * patch.h: the patch library for C.
 *
 * A patch is 3 to 10 levelled shots, each a place in whole millimetres. A surface over it is a list of triangles, triples of shot
 * numbers. The library tests whether a list is a triangulation of its shots, reads and writes both as records, makes shots of what a controller
 * gives, and lists every surface that flips reach from a first one. Each call is proved to answer as stated here, for every input
 * (docs/PROMISES.md).
 *
 * THE ANSWER. A call returns one number: 0 where it gives something, else the number that refuses it, 1 to 17. What it gives is never
 * in that number: it is written to places that the caller lends (area, count, list, ...). So 0 and a refusal cannot be
 * mistaken for a value. Where several rules are broken, the refusals are tested in the order written at the call.
 *
 * A REFUSED CALL changes nothing that it was lent: no list, table, record, buffer, flag or count. One exception: patch_run keeps the
 * steps that it made before the refused one.
 *
 * MEMORY. All memory is the caller's, before, during and after a call. The library never allocates, never blocks, keeps no state and
 * no pointer, and calls nothing of the C library but, at most, memcpy and memset. Calls from several threads need no lock as long as no one
 * writes what another lends. A call needs less than 64 KB of stack. No table is stored but that of the refusals' numbers: the archive has
 * at most 128 bytes of data beside its code, these and constants of its arithmetic.
 *
 * WHAT THE CALLER OWES. A pointer to as many elements as the length beside it says, or as the array has that is written here; aligned
 * for its type; not null, not even with a length of 0; and no two of the lent places overlap where one of them is written to. Every value in
 * that memory is allowed: whatever is wrong with it gets its number. For patch_take_runs the processor's doubles are also as a
 * C program finds them: rounded to the nearest, none flushed to zero, without traps.
 *
 * Link: libpatch.a, for x86-64 (README.md).
 */
#ifndef PATCH_H
#define PATCH_H

#include <stddef.h>
#include <stdint.h>

#ifdef __cplusplus
extern "C" {
#endif

/* ---- sizes */

#define PATCH_SHOTS_LEAST 3
#define PATCH_SHOTS_MOST 10
#define PATCH_COORDINATES_MOST 20  /* x and y of ten shots */
#define PATCH_HIGHEST 1000000      /* a coordinate lies between -PATCH_HIGHEST and PATCH_HIGHEST, both included */
#define PATCH_CIRCUITS_MOST 330    /* no patch has more circuits */
#define PATCH_WORDS 2              /* a list, and a row of a table, has so many 64-bit words */
#define PATCH_ROWS_MOST 65535      /* a walk uses at most so many rows of its table */
#define PATCH_PATCH_BYTES 84       /* no patch record is longer */
#define PATCH_SURFACE_BYTES 365    /* no surface record is longer */

/* ---- the refusals. The numbers are fixed; where several rules are broken, the order is the one written at each call, in which 10 stands before 8, and 17 before 1. */

enum patch_refusal {
    PATCH_GIVEN = 0,       /* no refusal */
    PATCH_COUNT = 1,       /* the run of coordinates is odd, or has not 3 to 10 shots, or a controller's shots have not two values each */
    PATCH_RANGE = 2,       /* a coordinate, in whole millimetres, is not from -1,000,000 to 1,000,000 */
    PATCH_EQUAL = 3,       /* two shots are equal */
    PATCH_LINE = 4,        /* all shots are on one line */
    PATCH_LENGTH = 5,      /* a record's bytes and its length disagree */
    PATCH_VERSION = 6,     /* the version byte is not 1 */
    PATCH_FORM = 7,        /* a number is not a shot, a triple or pair is out of form or order, a triple is flat, a bit is past the last rank, n is unlike the patch's */
    PATCH_EMPTY = 10,      /* the list is empty */
    PATCH_CROSSING = 8,    /* two triangles cross, overlap, or meet in part of an edge */
    PATCH_OPEN = 9,        /* an edge is open: one triangle alone has it, and it is not on the border */
    PATCH_ROOM = 11,       /* no room: in a table for a row, in a buffer for a record or a chain */
    PATCH_CIRCUIT = 12,    /* there is no circuit of this number */
    PATCH_NO_FLIP = 13,    /* there is no flip along this circuit */
    PATCH_WALK = 15,       /* no walk has this record: rows 0 or beyond the table, or a step number above rows times circuits */
    PATCH_NOT_FINITE = 16, /* a coordinate from a controller, or what its factors make of it, is not finite */
    PATCH_EDITION = 17     /* the edition is neither 1 nor 2 */
};

/* ---- what is lent
 *
 * shots, length: the run of coordinates, x then y of each shot; length counts the numbers, twice the shots.
 *
 * list: a set of triples as two words. The triples i < j < k of the patch's n shots are ranked in lexicographic order from 0; the triple
 * of rank r is bit r % 64, from the low end, of word r / 64. To get at the triples of a list, write its record: it has them one by one,
 * in order; to make a list of triples, read one.
 *
 * table, words: a run of 64-bit words, PATCH_WORDS to a row. Its capacity is the number of whole rows, at most PATCH_ROWS_MOST; words
 * behind the last whole row are never touched.
 */

/* Where a walk stands; patch_start sets it. The host keeps it between calls. */
typedef struct patch_walk {
    size_t rows; /* rows of the table in use */
    size_t step; /* number of the next step */
} patch_walk;

/* ---- shots */

/* Is the run a patch? Refused: 1 2 3 4. */
uint8_t patch_accept(const int32_t *shots, size_t length);

/* *signed_area: twice the area of the triangle a, b, c, in square millimetres: positive where they turn counterclockwise, negative where clockwise,
   0 on a line and for shots that are not all different. Refused: 1 2 3 4, 7 (one of them is not a shot). */
uint8_t patch_orientation(const int32_t *shots, size_t length, size_t a, size_t b, size_t c, int64_t *signed_area);

/* *area: the size of what patch_orientation gives, so twice the area of the triangle. Refused: 1 2 3 4, 7 (one of them is not a shot). */
uint8_t patch_double_area(const int32_t *shots, size_t length, size_t a, size_t b, size_t c, uint64_t *area);

/* signs[k]: for each shot k the sign of what patch_orientation gives for i, j, k: -1, 0 or 1; 0 past the shots. Refused: 1 2 3 4, 7 (not a pair
   i < j of shots). */
uint8_t patch_cocircuit(const int32_t *shots, size_t length, size_t i, size_t j, int8_t signs[PATCH_SHOTS_MOST]);

/* *count: the sides of the patch. A side is a pair of shots with no two others on opposite sides of their line, and every other shot on that
   line between the two: shots along a straight fence make one side. Refused: 1 2 3 4. */
uint8_t patch_border(const int32_t *shots, size_t length, size_t *count);

/* ---- shots from a controller: doubles, in metres or feet, made into whole millimetres. The edition says which foot is meant; nothing guesses it. */

#define PATCH_SURVEY_FOOT 1        /* the edition of jobs in US survey feet: 1200 / 3937 m */
#define PATCH_INTERNATIONAL_FOOT 2 /* the edition of jobs in international feet, in use after 2022: 0.3048 m */

/* shots: the coordinates, x east and y north of each shot, 0 past the last; *count: the number of shots, so the run has 2 * *count numbers. units: a
   byte for each shot, 0 metres, anything else feet. values: east then north of each shot, so two for each byte; every double is allowed. Metres are
   multiplied by 1000, in both editions. Feet are multiplied by 1,200,000 and then divided by 3937 in edition 1, multiplied by 3048 and then divided by
   10 in edition 2. Each operation is rounded once, as the processor's double does. Of that double the nearest whole number of millimetres is taken,
   exactly: a half goes to the even one, and negative zero is 0. Refused: 17 (the edition is neither 1 nor 2), 1 (not 3 to 10 units, or not two values
   for each), then shot by shot 16 (east, north or the answer of an operation is not finite) 2 (a whole number is out of range), then 3 4. */
uint8_t patch_take_runs(size_t edition, const uint8_t *units, size_t units_length, const double *values, size_t values_length,
                        int32_t shots[PATCH_COORDINATES_MOST], size_t *count);

/* ---- outline: the corners of the patch, the ends of its sides, as two chains of shot numbers */

/* south, north: the two chains, each at the front of its buffer; all behind it stays. Both run left to right, from the leftmost shot (the lowest
   of equals) to the rightmost (the highest of equals), and both have both ends. The south chain has every shot on its left or along it, the north
   chain on its right or along it: an upright right side is in the south chain, an upright left side in the north chain. *south_length,
   *north_length: the shots of each, at most PATCH_SHOTS_MOST. The filled part of a buffer is then south[0 .. *south_length - 1], so C needs no call
   for it (in Rattle outline::part hands it back). Refused: 1 2 3 4, 11 (either buffer is shorter than its chain). */
uint8_t patch_chains(const int32_t *shots, size_t length, uint8_t *south, size_t south_room, uint8_t *north, size_t north_room, size_t *south_length,
                     size_t *north_length);

/* ---- circuits: three shots on a line, or four of which no three are; split in two sides whose hulls meet */

/* *count: C, the number of circuits. They are numbered from 0, those of three first. Refused: 1 2 3 4. */
uint8_t patch_circuits(const int32_t *shots, size_t length, size_t *count);

/* *plus, *minus: the two sides of circuit z, shot i at bit i; the plus side has the smallest shot. Refused: 1 2 3 4, 12. */
uint8_t patch_circuit(const int32_t *shots, size_t length, size_t z, uint16_t *plus, uint16_t *minus);

/* ---- lists and surfaces */

/* Is the list a triangulation of the shots? It need not use every shot. Refused: 1 2 3 4, 7 10 8 9. */
uint8_t patch_test(const int32_t *shots, size_t length, const uint64_t list[PATCH_WORDS]);

/* list: the placing surface, a first one for every patch; it is always a triangulation. Refused: 1 2 3 4. */
uint8_t patch_placing(const int32_t *shots, size_t length, uint64_t list[PATCH_WORDS]);

/* list: the surface flipped along circuit z, in the place of the one that was lent; it is always a triangulation. Refused: 1 2 3 4, 7 10 8 9, 12 13. */
uint8_t patch_flip(const int32_t *shots, size_t length, uint64_t list[PATCH_WORDS], size_t z);

/* ---- the walk: all surfaces that flips reach from a first one
 *
 * Step s tries circuit s % C on row s / C and writes a surface that is new at the next row. The walk is done after rows * C steps, and
 * then the rows are exactly the surfaces that flips reach, each once. Where the table is full (11) the same step can be asked again over
 * a longer table with the same rows.
 */

/* Begins a walk: the list is row 0, *walk is one row and step 0, whatever it was before. Refused: 1 2 3 4, 7 10 8 9, 11 (less than one row). */
uint8_t patch_start(const int32_t *shots, size_t length, const uint64_t list[PATCH_WORDS], uint64_t *table, size_t words, patch_walk *walk);

/* Makes one step. *done: 1 where the walk was done already, so that nothing was left to do, else 0. Refused: 1 2 3 4, 15, the row's 7 10 8 9, 11. */
uint8_t patch_step(const int32_t *shots, size_t length, uint64_t *table, size_t words, patch_walk *walk, uint8_t *done);

/* Makes up to so many steps, and works the patch out once for all of them. *done: 1 where the walk was done before they were all made, else 0.
 * Refused: as a step; the steps made before it stand. */
uint8_t patch_run(const int32_t *shots, size_t length, uint64_t *table, size_t words, patch_walk *walk, size_t steps, uint8_t *done);

/* ---- records: big-endian, two bytes that count what follows them, a version byte, 1, and the number n of shots; then
 *      a patch: x and y of each shot, four bytes each, in two's complement;
 *      a surface: the number t of triples, then t triples of three bytes, increasing in a triple, the triples in lexicographic order
 */

/* shots: the coordinates, 0 past the last; *count: the number of shots, so the run has 2 * *count numbers. Refused: 5 6 1 5 2 3 4. */
uint8_t patch_read_patch(const uint8_t *bytes, size_t size, int32_t shots[PATCH_COORDINATES_MOST], size_t *count);

/* buffer: the record, in front; all behind it stays. *written: its bytes. Refused: 1 2 3 4, 11 (room for fewer bytes). */
uint8_t patch_write_patch(const int32_t *shots, size_t length, uint8_t *buffer, size_t room, size_t *written);

/* list: the record's triples, tested against the patch. Refused: 1 2 3 4, 5 6 7 5 7 10 8 9. */
uint8_t patch_read_surface(const int32_t *shots, size_t length, const uint8_t *bytes, size_t size, uint64_t list[PATCH_WORDS]);

/* buffer: the record, in front; all behind it stays. *written: its bytes. Refused: 1 2 3 4, 7 10 8 9, 11 (room for fewer bytes). */
uint8_t patch_write_surface(const int32_t *shots, size_t length, const uint64_t list[PATCH_WORDS], uint8_t *buffer, size_t room, size_t *written);

#ifdef __cplusplus
}
#endif

#endif
