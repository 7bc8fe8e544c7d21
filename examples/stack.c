/*
 * stack: how much stack each call of patch.h needs. It makes every call on a painted stack, with ten shots and a run over thousands of rows, and looks for the
 * deepest byte that is no longer painted. It prints the bytes of each call, which must be less than the header's 64 KB, then how many passed.
 * They are counted from the upper end of the stack, so the small frame of the function that makes the call is among them.
 */
#define _XOPEN_SOURCE 700
#include "patch.h"

#include <stdio.h>
#include <string.h>
#include <ucontext.h>

enum { PROMISED = 65536, ROOM = 4 * PROMISED, PAINT = 0xa5 };

static int passed, failed;

/* a triangle with seven shots inside it: flips reach more surfaces than the table has rows, and it has more rows than a run keeps an index of */
static const int32_t shots[] = {0, 0, 12000, 0, 6000, 9000, 3000, 1000, 9000, 1100, 5800, 7000, 5000, 2500, 7200, 2700, 6100, 4700, 6000, 1200};
enum { N = sizeof shots / sizeof shots[0], ROWS = 5000 };
/* ten shots as a controller gives them, by turns in metres and in feet */
static const uint8_t units[N / 2] = {0, 1, 0, 1, 0, 1, 0, 1, 0, 1};
static const double values[N] = {0.0001, 0.0002, 12.0625, 0.01, 6.0005, 9.3, 3.3, 1.1, -9.7, 1.1, 5.81, -7.7, 5.1, -2.5, 7.21, 2.71, -6.1, 4.7, 6.6, 1.23};

static int8_t signs[PATCH_SHOTS_MOST];
static int64_t signed_area;
static uint64_t area, list[PATCH_WORDS], table[ROWS * PATCH_WORDS];
static size_t count, size, south_length, north_length;
static uint16_t plus, minus;
static patch_walk walk;
static uint8_t answer, done, bytes[PATCH_SURFACE_BYTES], south[PATCH_SHOTS_MOST], north[PATCH_SHOTS_MOST];
static int32_t back[PATCH_COORDINATES_MOST];

static void accept(void) { answer = patch_accept(shots, N); }
static void orientation(void) { answer = patch_orientation(shots, N, 0, 1, 9, &signed_area); }
static void double_area(void) { answer = patch_double_area(shots, N, 0, 1, 9, &area); }
static void cocircuit(void) { answer = patch_cocircuit(shots, N, 0, 9, signs); }
static void border(void) { answer = patch_border(shots, N, &count); }
static void take_runs(void) { answer = patch_take_runs(PATCH_INTERNATIONAL_FOOT, units, N / 2, values, N, back, &count); }
static void chains(void) { answer = patch_chains(shots, N, south, sizeof south, north, sizeof north, &south_length, &north_length); }
static void circuits(void) { answer = patch_circuits(shots, N, &count); }
static void circuit(void) { answer = patch_circuit(shots, N, count - 1, &plus, &minus); }
static void placing(void) { answer = patch_placing(shots, N, list); }
static void test(void) { answer = patch_test(shots, N, list); }
static void start(void) { answer = patch_start(shots, N, list, table, ROWS * PATCH_WORDS, &walk); }
static void step(void) { answer = patch_step(shots, N, table, ROWS * PATCH_WORDS, &walk, &done); }
static void run(void) { answer = patch_run(shots, N, table, ROWS * PATCH_WORDS, &walk, (size_t)-1, &done); }
static void write_patch(void) { answer = patch_write_patch(shots, N, bytes, sizeof bytes, &size); }
static void read_patch(void) { answer = patch_read_patch(bytes, size, back, &count); }
static void write_surface(void) { answer = patch_write_surface(shots, N, list, bytes, sizeof bytes, &size); }
static void read_surface(void) { answer = patch_read_surface(shots, N, bytes, size, list); }

/* along the first circuit that allows it */
static void flip(void)
{
    size_t z = 0;
    do {
        answer = patch_flip(shots, N, list, z++);
    } while (answer == PATCH_NO_FLIP);
}

/* two calls whose depth is known, to see that it is found */
static void shallow(void)
{
    volatile uint8_t frame[PROMISED / 64];
    frame[0] = 0;
    answer = frame[0];
}

static void deep(void)
{
    volatile uint8_t frame[PROMISED];
    frame[0] = 0;
    answer = frame[0];
}

static _Alignas(16) uint8_t room[ROOM];
static ucontext_t here, there;

/* the bytes of stack that a call touched */
static size_t depth(void (*call)(void))
{
    size_t left = 0;
    memset(room, PAINT, ROOM);
    getcontext(&there);
    there.uc_stack.ss_sp = room;
    there.uc_stack.ss_size = ROOM;
    there.uc_link = &here;
    makecontext(&there, call, 0);
    swapcontext(&here, &there);
    while (left < ROOM && room[left] == PAINT)
        left++;
    return ROOM - left;
}

static void is(int holds, const char *name, size_t bytes)
{
    if (holds)
        passed++;
    else
        failed++;
    printf("%s %zu bytes of stack%s\n", name, bytes, holds ? "" : ": not so");
}

/* a call gives this answer, on less stack than is promised */
static void needs(void (*call)(void), const char *name, uint8_t expected)
{
    answer = 99;
    size_t bytes = depth(call);
    is(answer == expected && bytes < PROMISED, name, bytes);
}

int main(void)
{
    size_t bytes = depth(shallow);
    is(PROMISED / 64 <= bytes && bytes < PROMISED / 32, "shallow", bytes);
    bytes = depth(deep);
    is(PROMISED <= bytes, "deep", bytes);

    needs(accept, "patch_accept", 0);
    needs(orientation, "patch_orientation", 0);
    needs(double_area, "patch_double_area", 0);
    needs(cocircuit, "patch_cocircuit", 0);
    needs(border, "patch_border", 0);
    needs(take_runs, "patch_take_runs", 0);
    needs(chains, "patch_chains", 0);
    needs(circuits, "patch_circuits", 0);
    needs(circuit, "patch_circuit", 0);
    needs(placing, "patch_placing", 0);
    needs(test, "patch_test", 0);
    needs(flip, "patch_flip", 0);
    needs(start, "patch_start", 0);
    needs(step, "patch_step", 0);
    needs(run, "patch_run", PATCH_ROOM);
    needs(write_patch, "patch_write_patch", 0);
    needs(read_patch, "patch_read_patch", 0);
    needs(write_surface, "patch_write_surface", 0);
    needs(read_surface, "patch_read_surface", 0);
    printf("%d passed, %d failed\n", passed, failed);
    return failed != 0;
}
