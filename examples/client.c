/*
 * client: what an app does with a patch from its store.
 *
 *     client PATCH [SURFACE]
 *
 * reads a patch record and, where one is named, a surface record, and tests it. It prints the refusal in words, or the numbers of shots and
 * sides, the double area, the outline as a south and a north chain, and every surface that flips reach from the stored one (from the placing surface
 * where none is named). Exit status: 0, 1 where a record is refused, 2 where a file cannot be read.
 */
#include "patch.h"

#include <inttypes.h>
#include <stdio.h>
#include <stdlib.h>

/* what a record in the store can be wrong about, for the user of the app */
static const char *in_words(uint8_t refusal)
{
    switch (refusal) {
    case PATCH_COUNT: return "a patch has 3 to 10 shots";
    case PATCH_RANGE: return "a coordinate is out of range";
    case PATCH_EQUAL: return "two shots are at the same place";
    case PATCH_LINE: return "all shots are on one line";
    case PATCH_LENGTH: return "the record is cut off or too long";
    case PATCH_VERSION: return "the record has another version";
    case PATCH_FORM: return "a triangle names no shots of this patch, is flat or out of order";
    case PATCH_EMPTY: return "the surface has no triangle";
    case PATCH_CROSSING: return "two triangles cross, overlap, or meet in part of an edge";
    case PATCH_OPEN: return "the surface has a hole: an open edge";
    case PATCH_ROOM: return "there is no room";
    case PATCH_CIRCUIT: return "there is no such circuit";
    case PATCH_NO_FLIP: return "there is no such flip";
    case PATCH_WALK: return "the walk's record is impossible";
    case PATCH_NOT_FINITE: return "a coordinate is not finite";
    case PATCH_EDITION: return "there is no such edition";
    default: return "given";
    }
}

static int refused(const char *what, uint8_t refusal)
{
    printf("%s: refused %u: %s\n", what, (unsigned)refusal, in_words(refusal));
    return 1;
}

/* the bytes of a file; one more than a length field can frame is enough to be refused */
static size_t load(const char *name, uint8_t *bytes, size_t most)
{
    FILE *file = fopen(name, "rb");
    if (!file) {
        perror(name);
        exit(2);
    }
    size_t size = fread(bytes, 1, most, file);
    if (ferror(file)) {
        perror(name);
        exit(2);
    }
    fclose(file);
    return size;
}

/* where the triangles of a surface record begin, and the bytes of one */
enum { FIRST = 5, TRIANGLE = 3 };

/* the triangles of a list by their shots: its record has them one by one */
static uint8_t show(const int32_t *shots, size_t length, const uint64_t *list)
{
    uint8_t record[PATCH_SURFACE_BYTES];
    size_t size;
    uint8_t refusal = patch_write_surface(shots, length, list, record, sizeof record, &size);
    if (refusal == 0)
        for (size_t at = FIRST; at < size; at += TRIANGLE)
            printf(" %u%u%u", record[at], record[at + 1], record[at + 2]);
    return refusal;
}

/* the double area of an accepted list: the sizes of what the orientation call gives for its triangles */
static uint8_t measure(const int32_t *shots, size_t length, const uint64_t *list, uint64_t *twice)
{
    uint8_t record[PATCH_SURFACE_BYTES];
    size_t size;
    *twice = 0;
    uint8_t refusal = patch_write_surface(shots, length, list, record, sizeof record, &size);
    for (size_t at = FIRST; refusal == 0 && at < size; at += TRIANGLE) {
        int64_t area = 0;
        refusal = patch_orientation(shots, length, record[at], record[at + 1], record[at + 2], &area);
        *twice += area < 0 ? -area : area;
    }
    return refusal;
}

static void show_chain(const char *facing, const uint8_t *chain, size_t length)
{
    printf("%s", facing);
    for (size_t at = 0; at < length; at++)
        printf(" %u", chain[at]);
    putchar('\n');
}

/* the corners, left to right along the south and along the north */
static uint8_t show_outline(const int32_t *shots, size_t length)
{
    uint8_t south[PATCH_SHOTS_MOST], north[PATCH_SHOTS_MOST];
    size_t south_length, north_length;
    uint8_t refusal = patch_chains(shots, length, south, sizeof south, north, sizeof north, &south_length, &north_length);
    if (refusal == 0) {
        show_chain("south", south, south_length);
        show_chain("north", north, north_length);
    }
    return refusal;
}

/* All surfaces from the first one. The table grows when it is full: the same step is then asked again over the longer one. */
static uint8_t walk_from(const int32_t *shots, size_t length, const uint64_t *first)
{
    size_t rows = 16;
    uint64_t *table = malloc(rows * PATCH_WORDS * sizeof *table);
    patch_walk walk;
    uint8_t done = 0;
    if (!table)
        return PATCH_ROOM;
    uint8_t refusal = patch_start(shots, length, first, table, rows * PATCH_WORDS, &walk);
    while (refusal == 0 && !done) {
        refusal = patch_run(shots, length, table, rows * PATCH_WORDS, &walk, 10000, &done);
        if (refusal == PATCH_ROOM && rows < PATCH_ROWS_MOST) {
            rows *= 2;
            uint64_t *longer = realloc(table, rows * PATCH_WORDS * sizeof *table);
            if (!longer)
                break;
            table = longer;
            refusal = 0;
        }
    }
    for (size_t row = 0; refusal == 0 && row < walk.rows; row++) {
        printf("%zu", row);
        refusal = show(shots, length, table + row * PATCH_WORDS);
        putchar('\n');
    }
    if (refusal == 0)
        printf("%zu surfaces, %zu steps\n", walk.rows, walk.step);
    free(table);
    return refusal;
}

int main(int argc, char **argv)
{
    static uint8_t bytes[65538];
    int32_t shots[PATCH_COORDINATES_MOST];
    size_t count, sides;
    uint64_t list[PATCH_WORDS], twice;

    if (argc != 2 && argc != 3) {
        fprintf(stderr, "usage: %s PATCH [SURFACE]\n", argv[0]);
        return 2;
    }
    uint8_t refusal = patch_read_patch(bytes, load(argv[1], bytes, sizeof bytes), shots, &count);
    if (refusal != 0)
        return refused(argv[1], refusal);

    size_t length = 2 * count;
    if (argc == 3) {
        refusal = patch_read_surface(shots, length, bytes, load(argv[2], bytes, sizeof bytes), list);
        if (refusal != 0)
            return refused(argv[2], refusal);
    } else {
        refusal = patch_placing(shots, length, list);
        if (refusal != 0)
            return refused("placing surface", refusal);
    }
    refusal = patch_border(shots, length, &sides);
    if (refusal != 0)
        return refused(argv[1], refusal);
    refusal = measure(shots, length, list, &twice);
    if (refusal != 0)
        return refused(argv[argc - 1], refusal);
    printf("%s: accepted, %zu shots, %zu sides, double area %" PRIu64 "\n", argv[1], count, sides, twice);
    refusal = show_outline(shots, length);
    if (refusal != 0)
        return refused(argv[1], refusal);
    refusal = walk_from(shots, length, list);
    return refusal == 0 ? 0 : refused("walk", refusal);
}
