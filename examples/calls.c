/*
 * calls: every call of patch.h, with document 01's cases, the areas that E6 asks for, E1's patch, E5's chains, E2's shots of a controller and E13's two
 * feet. It prints each case that does not answer as it should, then how many did.
 * What a call lends it finds unchanged where it is refused.
 */
#include "patch.h"

#include <math.h>
#include <stdio.h>
#include <string.h>

static int passed, failed;

#define IS(claim) is((claim), #claim, __LINE__)

static void is(int holds, const char *claim, int line)
{
    if (holds) {
        passed++;
    } else {
        failed++;
        printf("line %d: not so: %s\n", line, claim);
    }
}

/* the square with its centre; C is 3: 0,2 against 4; 1,3 against 4; 0,2 against 1,3 */
static const int32_t square[] = {0, 0, 2, 0, 2, 2, 0, 2, 1, 1};
/* the square with a shot halfway along a straight fence: four sides (E1) */
static const int32_t fence[] = {0, 0, 2, 0, 2, 2, 0, 2, 1, 0};
enum { N = 10 };
/* refused: 2, 3 and 4 */
static const int32_t beyond[] = {0, 0, 1000001, 0, 0, -1000000};
static const int32_t equal[] = {0, 0, 1, 0, 0, 0, 5, 5};
static const int32_t line[] = {0, 0, 1, 1, 7, 7, -2, -2};
/* five shots have ten triples: 012 013 014 023 024 034 123 124 134 234 */
enum { T012 = 1 << 0, T013 = 1 << 1, T023 = 1 << 3, T024 = 1 << 4, T034 = 1 << 5, T123 = 1 << 6, T234 = 1 << 9 };

static uint8_t tested(uint64_t low, uint64_t high)
{
    uint64_t list[PATCH_WORDS] = {low, high};
    return patch_test(square, N, list);
}

static void patches(void)
{
    static const int32_t far[] = {0, 0, 1000000, 0, 0, -1000000};
    static const int32_t eleven[22];
    IS(patch_accept(square, N) == 0);
    IS(patch_accept(square, 9) == PATCH_COUNT);
    IS(patch_accept(square, 4) == PATCH_COUNT);
    IS(patch_accept(eleven, 22) == PATCH_COUNT);
    IS(patch_accept(far, 6) == 0);
    IS(patch_accept(beyond, 6) == PATCH_RANGE);
    IS(patch_accept(equal, 8) == PATCH_EQUAL);
    IS(patch_accept(line, 8) == PATCH_LINE);
}

static void places(void)
{
    int64_t signed_area = 9;
    uint64_t area = 99;
    size_t count = 99;
    int8_t signs[PATCH_SHOTS_MOST];
    static const int8_t row[PATCH_SHOTS_MOST] = {0, -1, 0, 1, 0};
    static const int32_t widest[] = {-1000000, -1000000, 1000000, -1000000, 1000000, 1000000};
    IS(patch_orientation(square, N, 0, 1, 5, &signed_area) == PATCH_FORM && signed_area == 9);
    IS(patch_orientation(square, 9, 0, 1, 2, &signed_area) == PATCH_COUNT && signed_area == 9);
    IS(patch_orientation(square, N, 0, 1, 2, &signed_area) == 0 && signed_area == 4);
    IS(patch_orientation(square, N, 0, 2, 1, &signed_area) == 0 && signed_area == -4);
    IS(patch_orientation(square, N, 0, 2, 4, &signed_area) == 0 && signed_area == 0);
    IS(patch_orientation(widest, 6, 0, 1, 2, &signed_area) == 0 && signed_area == 4000000000000);
    IS(patch_orientation(widest, 6, 1, 0, 2, &signed_area) == 0 && signed_area == -4000000000000);
    IS(patch_orientation(square, N, 1, 1, 2, &signed_area) == 0 && signed_area == 0);
    IS(patch_double_area(square, N, 0, 2, 1, &area) == 0 && area == 4);
    IS(patch_double_area(square, N, 0, 1, (size_t)-1, &area) == PATCH_FORM && area == 4);
    memset(signs, 9, sizeof signs);
    IS(patch_cocircuit(square, N, 0, 2, signs) == 0 && memcmp(signs, row, sizeof signs) == 0);
    IS(patch_cocircuit(square, N, 2, 0, signs) == PATCH_FORM && memcmp(signs, row, sizeof signs) == 0);
    IS(patch_border(square, N, &count) == 0 && count == 4);
    IS(patch_border(square, 3, &count) == PATCH_COUNT && count == 4);
    count = 99;
    IS(patch_border(fence, N, &count) == 0 && count == 4);
}

/* what patch_take_runs is lent, with a place more than it may write */
static int32_t taken[PATCH_COORDINATES_MOST + 1];
static size_t taken_count;

static uint8_t take(size_t edition, const uint8_t *units, size_t units_length, const double *values, size_t values_length)
{
    memset(taken, 0x11, sizeof taken);
    taken_count = 99;
    return patch_take_runs(edition, units, units_length, values, values_length, taken, &taken_count);
}

/* the call gave these coordinates, 0 past them, and nothing behind */
static int took(const int32_t *coordinates, size_t count)
{
    size_t same = 0;
    while (same < PATCH_COORDINATES_MOST && taken[same] == (same < 2 * count ? coordinates[same] : 0))
        same++;
    return taken_count == count && same == PATCH_COORDINATES_MOST && taken[same] == 0x11111111;
}

static int taken_stays(void)
{
    size_t same = 0;
    while (same <= PATCH_COORDINATES_MOST && taken[same] == 0x11111111)
        same++;
    return taken_count == 99 && same > PATCH_COORDINATES_MOST;
}

enum { METRES = 0, FEET = 1 };
enum { SURVEY = PATCH_SURVEY_FOOT, INTERNATIONAL = PATCH_INTERNATIONAL_FOOT };

/* one shot of this unit, in front of two others in metres */
static uint8_t take_first(size_t edition, uint8_t unit, double east, double north)
{
    const uint8_t units[] = {unit, METRES, METRES};
    const double values[] = {east, north, 500, 500, 500, -500};
    return take(edition, units, 3, values, 6);
}

/* it becomes this place */
static int becomes(size_t edition, uint8_t unit, double east, double north, int32_t x, int32_t y)
{
    const int32_t coordinates[] = {x, y, 500000, 500000, 500000, -500000};
    return take_first(edition, unit, east, north) == 0 && took(coordinates, 3);
}

/* it is refused so, and nothing is written */
static int first_refused(size_t edition, uint8_t unit, double east, double north, uint8_t refusal)
{
    return take_first(edition, unit, east, north) == refusal && taken_stays();
}

/* metres do not depend on the edition */
static int metres_become(double east, double north, int32_t x, int32_t y)
{
    return becomes(SURVEY, METRES, east, north, x, y) && becomes(INTERNATIONAL, METRES, east, north, x, y);
}

/* it is refused so in both editions */
static int always_refused(uint8_t unit, double east, double north, uint8_t refusal)
{
    return first_refused(SURVEY, unit, east, north, refusal) && first_refused(INTERNATIONAL, unit, east, north, refusal);
}

static void roundings(void)
{
    IS(metres_become(1.5, -2.25, 1500, -2250));
    IS(metres_become(0, -0.0, 0, 0));
    IS(metres_become(-0.0004, 5e-324, 0, 0));
    /* 0.0625 m is 62.5 mm */
    IS(metres_become(0.0625, 0.1875, 62, 188));
    IS(metres_become(-0.0625, -0.1875, -62, -188));
    /* the double of 0.0025 is more than it, but times 1000 the nearest double is 2.5 */
    IS(metres_become(0.0025, -0.0025, 2, -2));
    IS(metres_become(0.0005, 0.0015, 0, 2));
    /* divided by 0.001 these would be less than a half */
    IS(metres_become(0.0215, 0.0355, 22, 36));
    IS(metres_become(0.0624999, 0.0625001, 62, 63));
    IS(metres_become(1000, -1000, 1000000, -1000000));
    IS(metres_become(1000.0005, -1000.0005, 1000000, -1000000));
}

static void survey_feet(void)
{
    /* 3937 feet are 1,200 m, and 3937 / 256 feet 4,687.5 mm */
    IS(becomes(SURVEY, FEET, 984.25, -492.125, 300000, -150000));
    IS(becomes(SURVEY, FEET, 15.37890625, 46.13671875, 4688, 14062));
    IS(becomes(SURVEY, FEET, -15.37890625, -46.13671875, -4688, -14062));
    IS(becomes(SURVEY, FEET, 1, -0.0, 305, 0));
    IS(becomes(SURVEY, FEET, 3000, -3000, 914402, -914402));
    /* the operations round to 88.5; one factor, or none of the roundings, would make 89 of it */
    IS(becomes(SURVEY, FEET, 0.29035375, -0.29035375, 88, -88));
    IS(becomes(SURVEY, 2, 984.25, 1, 300000, 305));
    IS(becomes(SURVEY, 255, 984.25, 1, 300000, 305));
    IS(becomes(SURVEY, FEET, 3280.833333, -3280.833333, 1000000, -1000000));
    IS(first_refused(SURVEY, FEET, 3280.84, 0, PATCH_RANGE));
    IS(first_refused(SURVEY, FEET, 1e302, 0, PATCH_RANGE));
    IS(first_refused(SURVEY, FEET, 2e302, 0, PATCH_NOT_FINITE)); /* though divided by 3937 it would be finite */
    IS(first_refused(SURVEY, FEET, 0, -1e304, PATCH_NOT_FINITE));
}

static void international_feet(void)
{
    /* 0.625 feet are 190.5 mm */
    IS(becomes(INTERNATIONAL, FEET, 0.625, 1.875, 190, 572));
    IS(becomes(INTERNATIONAL, FEET, -0.625, -1.875, -190, -572));
    IS(becomes(INTERNATIONAL, FEET, 1, -0.0, 305, 0));
    IS(becomes(INTERNATIONAL, FEET, 3000, -3000, 914400, -914400));
    IS(becomes(INTERNATIONAL, FEET, 984.25, -492.125, 299999, -150000));
    IS(becomes(INTERNATIONAL, FEET, -0.0004, 5e-324, 0, 0));
    /* the operations round to 112.5; one factor, the division first, or none of the roundings would make 113 of it */
    IS(becomes(INTERNATIONAL, FEET, 0.3690944881889764, -0.3690944881889764, 112, -112));
    IS(becomes(INTERNATIONAL, 2, 3000, 0.625, 914400, 190));
    IS(becomes(INTERNATIONAL, 255, 3000, 0.625, 914400, 190));
    /* 3280.84 feet are 1,000,000.032 mm */
    IS(becomes(INTERNATIONAL, FEET, 3280.84, -3280.84, 1000000, -1000000));
    IS(first_refused(INTERNATIONAL, FEET, 3280.842, 0, PATCH_RANGE));
    IS(first_refused(INTERNATIONAL, FEET, 2e302, 0, PATCH_RANGE));
    IS(first_refused(INTERNATIONAL, FEET, 0, -1e304, PATCH_RANGE));
    IS(first_refused(INTERNATIONAL, FEET, 6e304, 0, PATCH_NOT_FINITE)); /* though divided by 10 it would be finite */
}

static void no_places(void)
{
    static const uint64_t signalling = 0x7ff0000000000001;
    double worst;
    memcpy(&worst, &signalling, sizeof worst);
    IS(always_refused(METRES, 1000.0006, 0, PATCH_RANGE));
    IS(always_refused(METRES, 0, -1000.001, PATCH_RANGE));
    IS(always_refused(METRES, 4294967.296, 0, PATCH_RANGE)); /* 2^32 mm */
    IS(always_refused(METRES, 0, 18446744073709551.616, PATCH_RANGE)); /* 2^64 mm */
    IS(always_refused(METRES, 1e303, 0, PATCH_RANGE));
    IS(always_refused(METRES, 0, -1e306, PATCH_NOT_FINITE));
    IS(always_refused(METRES, NAN, 0, PATCH_NOT_FINITE));
    IS(always_refused(FEET, 0, -NAN, PATCH_NOT_FINITE));
    IS(always_refused(METRES, worst, 0, PATCH_NOT_FINITE));
    IS(always_refused(FEET, worst, 0, PATCH_NOT_FINITE));
    IS(always_refused(METRES, INFINITY, 0, PATCH_NOT_FINITE));
    IS(always_refused(FEET, 0, -INFINITY, PATCH_NOT_FINITE));
    IS(always_refused(METRES, 2000, NAN, PATCH_NOT_FINITE));
    IS(always_refused(METRES, NAN, 2000, PATCH_NOT_FINITE));
    IS(always_refused(METRES, 500.0004, 500, PATCH_EQUAL));
    IS(always_refused(METRES, 500, 499.9995, PATCH_EQUAL));
    IS(always_refused(METRES, 500, 0, PATCH_LINE));
}

/* by the US survey foot and by the international one, 984.25 feet are 300 m and 299,999.4 mm, 1250 feet 381,000.762 mm and 381 m */
static const uint8_t turns[11] = {METRES, FEET, METRES, FEET}, metres[11];
static const double mixed[] = {1, 2, 984.25, 0, -1, 0.5, 0, -984.25};
static const double far_first[] = {2000, 0, NAN, 0, 0, 0}, far_last[] = {0, 0, NAN, 0, 2000, 0}, alike[] = {300, 0, 984.25, 0, 300, INFINITY};
static const double straight[] = {0, 0, 984.25, 984.25, -1, -1, 492.125, 492.125};
static const double same_then[] = {300, 0, 984.25, 0, 0, 1}, same_now[] = {381, 0, 1250, 0, 0, 1};
static const double steep[22] = {0, 0, 1, 1, 2, 4, 3, 9, 4, 16, 5, 25, 6, 36, 7, 49, 8, 64, 9, 81, 10, 100};

/* by either foot; these are the places of the mixed shots */
static void controllers(size_t edition, const int32_t *places)
{
    IS(take(edition, turns, 4, mixed, 8) == 0 && took(places, 4));
    IS(take(edition, turns, 3, mixed, 6) == 0 && took(places, 3));
    IS(take(edition, metres, 10, steep, 20) == 0 && taken_count == 10 && taken[18] == 9000 && taken[19] == 81000 && taken[20] == 0x11111111);
    IS(take(edition, metres, 11, steep, 22) == PATCH_COUNT && taken_stays());
    IS(take(edition, turns, 2, mixed, 4) == PATCH_COUNT && taken_stays());
    IS(take(edition, turns, 0, mixed, 0) == PATCH_COUNT && taken_stays());
    IS(take(edition, turns, 3, mixed, 5) == PATCH_COUNT && taken_stays());
    IS(take(edition, turns, 3, mixed, 8) == PATCH_COUNT && taken_stays());
    IS(take(edition, turns, 4, mixed, 6) == PATCH_COUNT && taken_stays());
    IS(take(edition, metres, 4, far_first, 6) == PATCH_COUNT && taken_stays());
    /* shot by shot */
    IS(take(edition, metres, 3, far_first, 6) == PATCH_RANGE && taken_stays());
    IS(take(edition, metres, 3, far_last, 6) == PATCH_NOT_FINITE && taken_stays());
    IS(take(edition, turns, 3, alike, 6) == PATCH_NOT_FINITE && taken_stays());
    IS(take(edition, turns, 4, straight, 8) == PATCH_LINE && taken_stays());
}

/* there is no such edition, whatever else is wrong */
static void no_edition(size_t edition)
{
    IS(take(edition, turns, 4, mixed, 8) == PATCH_EDITION && taken_stays());
    IS(take(edition, metres, 10, steep, 20) == PATCH_EDITION && taken_stays());
    IS(take(edition, metres, 11, steep, 22) == PATCH_EDITION && taken_stays());
    IS(take(edition, turns, 2, mixed, 4) == PATCH_EDITION && taken_stays());
    IS(take(edition, turns, 0, mixed, 0) == PATCH_EDITION && taken_stays());
    IS(take(edition, turns, 3, mixed, 5) == PATCH_EDITION && taken_stays());
    IS(take(edition, metres, 3, far_first, 6) == PATCH_EDITION && taken_stays());
    IS(take(edition, metres, 3, far_last, 6) == PATCH_EDITION && taken_stays());
    IS(take(edition, turns, 3, same_then, 6) == PATCH_EDITION && taken_stays());
    IS(take(edition, turns, 3, same_now, 6) == PATCH_EDITION && taken_stays());
    IS(take(edition, turns, 4, straight, 8) == PATCH_EDITION && taken_stays());
}

static void editions(void)
{
    static const int32_t survey[] = {1000, 2000, 300000, 0, -1000, 500, 0, -300000}, survey_apart[] = {381000, 0, 381001, 0, 0, 1000};
    static const int32_t international[] = {1000, 2000, 299999, 0, -1000, 500, 0, -299999}, international_apart[] = {300000, 0, 299999, 0, 0, 1000};
    /* the numbers that become a 1 or a 2 in fewer bits are among them */
    static const size_t none[] = {0, 3, 10, 255, 256, 257, 258, 65537, 4294967297, 4294967298, SIZE_MAX - 1, SIZE_MAX};
    controllers(SURVEY, survey);
    controllers(INTERNATIONAL, international);
    IS(take(SURVEY, turns, 3, same_then, 6) == PATCH_EQUAL && taken_stays());
    IS(take(INTERNATIONAL, turns, 3, same_then, 6) == 0 && took(international_apart, 3));
    IS(take(SURVEY, turns, 3, same_now, 6) == 0 && took(survey_apart, 3));
    IS(take(INTERNATIONAL, turns, 3, same_now, 6) == PATCH_EQUAL && taken_stays());
    for (size_t at = 0; at < sizeof none / sizeof none[0]; at++)
        no_edition(none[at]);
}

/* what patch_chains is lent */
enum { ROOM = PATCH_SHOTS_MOST };
static uint8_t south[ROOM + 1], north[ROOM + 1];
static size_t south_length, north_length;

/* the call, told of so much room in the buffers */
static uint8_t chained(const int32_t *shots, size_t length, size_t south_room, size_t north_room)
{
    memset(south, 0xee, sizeof south);
    memset(north, 0xee, sizeof north);
    south_length = north_length = 99;
    return patch_chains(shots, length, south, south_room, north, north_room, &south_length, &north_length);
}

/* a buffer has these shots in front, and behind them what it was lent with */
static int has(const uint8_t *buffer, const char *shots)
{
    size_t count = strlen(shots), same = 0;
    while (same <= ROOM && buffer[same] == (same < count ? shots[same] - '0' : 0xee))
        same++;
    return same > ROOM;
}

static int chains_are(const char *lower, const char *upper)
{
    return south_length == strlen(lower) && north_length == strlen(upper) && has(south, lower) && has(north, upper);
}

static int chains_stay(void)
{
    return south_length == 99 && north_length == 99 && has(south, "") && has(north, "");
}

static void outline(void)
{
    /* shots 0 and 5 halfway along upright sides */
    static const int32_t upright[] = {0, 1, 0, 0, 0, 2, 1, 0, 1, 2, 1, 1};
    static const int32_t upright_left[] = {0, 0, 0, 4, 3, 1};
    static const int32_t upright_right[] = {3, 0, 3, 4, 0, 1};
    static const int32_t bowl[] = {-4, 16, -3, 9, -2, 4, -1, 1, 0, 0, 1, 1, 2, 4, 3, 9, 4, 16, 5, 25};
    IS(chained(square, N, ROOM, ROOM) == 0 && chains_are("012", "032"));
    IS(chained(square, N, 3, 3) == 0 && chains_are("012", "032"));
    IS(chained(square, N, 2, 3) == PATCH_ROOM && chains_stay());
    IS(chained(square, N, 3, 2) == PATCH_ROOM && chains_stay());
    IS(chained(square, N, 0, 0) == PATCH_ROOM && chains_stay());
    IS(chained(fence, N, ROOM, ROOM) == 0 && chains_are("012", "032"));
    IS(chained(upright, 12, ROOM, ROOM) == 0 && chains_are("134", "124"));
    IS(chained(upright_left, 6, 2, 3) == 0 && chains_are("02", "012"));
    IS(chained(upright_right, 6, 3, 2) == 0 && chains_are("201", "21"));
    IS(chained(bowl, 20, ROOM, ROOM) == 0 && chains_are("0123456789", "09"));
    IS(chained(bowl, 20, ROOM - 1, ROOM) == PATCH_ROOM && chains_stay());
    IS(chained(square, 9, 0, 0) == PATCH_COUNT && chains_stay());
    IS(chained(beyond, 6, ROOM, ROOM) == PATCH_RANGE && chains_stay());
    IS(chained(equal, 8, ROOM, ROOM) == PATCH_EQUAL && chains_stay());
    IS(chained(line, 8, ROOM, ROOM) == PATCH_LINE && chains_stay());
}

static void circuits(void)
{
    size_t count = 99;
    uint16_t plus = 99, minus = 99;
    IS(patch_circuits(square, N, &count) == 0 && count == 3);
    IS(patch_circuits(square, 3, &count) == PATCH_COUNT && count == 3);
    IS(patch_circuit(square, N, 0, &plus, &minus) == 0 && plus == 5 && minus == 16);
    IS(patch_circuit(square, N, 1, &plus, &minus) == 0 && plus == 10 && minus == 16);
    IS(patch_circuit(square, N, 2, &plus, &minus) == 0 && plus == 5 && minus == 10);
    IS(patch_circuit(square, N, 3, &plus, &minus) == PATCH_CIRCUIT && plus == 5 && minus == 10);
}

static void lists(void)
{
    IS(tested(T012 | T023, 0) == 0);
    IS(tested(T012, 0) == PATCH_OPEN);
    IS(tested(T012 | T023 | T013, 0) == PATCH_CROSSING);
    IS(tested(T012 | T034 | T234, 0) == PATCH_CROSSING); /* though its areas add up to 8 */
    IS(tested(0, 0) == PATCH_EMPTY);
    IS(tested(T024, 0) == PATCH_FORM);
    IS(tested(1 << 10, 0) == PATCH_FORM);
    IS(tested(T012 | T023, 1) == PATCH_FORM);
}

static void surfaces(void)
{
    uint64_t list[PATCH_WORDS] = {77, 77};
    IS(patch_placing(square, 3, list) == PATCH_COUNT && list[0] == 77 && list[1] == 77);
    IS(patch_placing(square, N, list) == 0 && list[0] == (T012 | T023) && list[1] == 0);
    IS(patch_flip(square, N, list, 1) == PATCH_NO_FLIP && list[0] == (T012 | T023) && list[1] == 0);
    IS(patch_flip(square, N, list, 3) == PATCH_CIRCUIT && list[0] == (T012 | T023) && list[1] == 0);
    IS(patch_flip(square, N, list, 2) == 0 && list[0] == (T013 | T123) && list[1] == 0);
    IS(patch_flip(square, N, list, 2) == 0 && list[0] == (T012 | T023) && list[1] == 0);
    list[0] = T012;
    IS(patch_flip(square, N, list, 2) == PATCH_OPEN && list[0] == T012);
}

static void walks(void)
{
    static const uint64_t halves[PATCH_WORDS] = {T012 | T023, 0};
    static const uint64_t half[PATCH_WORDS] = {T012, 0};
    uint64_t table[7] = {7, 7, 7, 7, 7, 7, 7};
    patch_walk walk = {5, 99};
    uint8_t done = 77; /* whatever stood there stays where a call is refused */
    IS(patch_step(square, N, table, 6, &walk, &done) == PATCH_WALK && walk.rows == 5 && walk.step == 99 && done == 77);
    IS(patch_start(square, N, half, table, 6, &walk) == PATCH_OPEN && walk.rows == 5 && table[0] == 7);
    IS(patch_start(square, N, halves, table, 1, &walk) == PATCH_ROOM && walk.rows == 5 && table[0] == 7);
    IS(patch_start(square, N, halves, table, 6, &walk) == 0 && walk.rows == 1 && walk.step == 0);
    IS(table[0] == halves[0] && table[1] == halves[1] && table[2] == 7);

    /* a table of 5 words has two rows: the third surface finds no room at step 2, and the same step goes on in three */
    IS(patch_run(square, N, table, 5, &walk, 100, &done) == PATCH_ROOM && walk.rows == 2 && walk.step == 2 && done == 77);
    IS(patch_step(square, N, table, 5, &walk, &done) == PATCH_ROOM && walk.rows == 2 && walk.step == 2 && done == 77);
    IS(patch_step(square, N, table, 6, &walk, &done) == 0 && walk.rows == 3 && walk.step == 3 && done == 0);
    IS(table[4] == (T013 | T123) && table[5] == 0 && table[6] == 7);
    IS(patch_run(square, N, table, 6, &walk, 6, &done) == 0 && walk.step == 9 && done == 0);
    IS(patch_run(square, N, table, 6, &walk, 0, &done) == 0 && walk.step == 9 && done == 0);
    IS(patch_step(square, N, table, 6, &walk, &done) == 0 && walk.rows == 3 && walk.step == 9 && done == 1);
}

static void records(void)
{
    static const uint8_t half[] = {0, 6, 1, 5, 1, 0, 1, 2};
    static const uint8_t halves[] = {0, 9, 1, 5, 2, 0, 1, 2, 0, 2, 3};
    uint8_t bytes[PATCH_PATCH_BYTES + 1], again[PATCH_PATCH_BYTES + 1];
    int32_t shots[PATCH_COORDINATES_MOST];
    uint64_t list[PATCH_WORDS] = {77, 77};
    size_t size = 99, count = 99;

    memset(bytes, 0xee, sizeof bytes);
    IS(patch_write_patch(square, N, bytes, 43, &size) == PATCH_ROOM && size == 99 && bytes[0] == 0xee);
    IS(patch_write_patch(square, N, bytes, sizeof bytes, &size) == 0 && size == 44 && bytes[44] == 0xee);
    IS(bytes[0] == 0 && bytes[1] == 42 && bytes[2] == 1 && bytes[3] == 5 && bytes[15] == 2 && bytes[43] == 1);
    memset(shots, 0x11, sizeof shots);
    IS(patch_read_patch(bytes, 43, shots, &count) == PATCH_LENGTH && count == 99 && shots[0] == 0x11111111);
    IS(patch_read_patch(bytes, 44, shots, &count) == 0 && count == 5);
    IS(memcmp(shots, square, sizeof square) == 0 && shots[10] == 0 && shots[19] == 0);
    IS(patch_write_patch(shots, 2 * count, again, sizeof again, &size) == 0 && memcmp(bytes, again, 44) == 0);
    bytes[2] = 2;
    IS(patch_read_patch(bytes, 44, shots, &count) == PATCH_VERSION && count == 5);

    IS(patch_read_surface(square, N, half, sizeof half, list) == PATCH_OPEN && list[0] == 77 && list[1] == 77);
    IS(patch_read_surface(square, N, halves, 10, list) == PATCH_LENGTH && list[0] == 77);
    IS(patch_read_surface(square, N, halves, sizeof halves, list) == 0 && list[0] == (T012 | T023) && list[1] == 0);
    memset(bytes, 0xee, sizeof bytes);
    IS(patch_write_surface(square, N, list, bytes, 10, &size) == PATCH_ROOM && bytes[0] == 0xee && size == 44);
    IS(patch_write_surface(square, N, list, bytes, 11, &size) == 0 && size == 11 && memcmp(bytes, halves, 11) == 0 && bytes[11] == 0xee);
    list[0] = 0;
    IS(patch_write_surface(square, N, list, bytes, 11, &size) == PATCH_EMPTY && size == 11 && memcmp(bytes, halves, 11) == 0);
}

int main(void)
{
    patches();
    places();
    roundings();
    survey_feet();
    international_feet();
    no_places();
    editions();
    outline();
    circuits();
    lists();
    surfaces();
    walks();
    records();
    printf("%d passed, %d failed\n", passed, failed);
    return failed != 0;
}
