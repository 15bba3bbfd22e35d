/*
 * Times the calls of two archives by turns, in one run: a slice of the one, a slice of the other.
 * What slows the machine for a while slows both. bench/against builds and runs this.
 */
#include "calls.h"

#include <stdint.h>
#include <stdio.h>
#include <stdlib.h>
#include <string.h>
#include <time.h>

#define SLICES 1001
#define SLICE_NS 100000.0
#define ROOM 1048576
#define PAGE 4096

enum who { BEFORE, NOW, BOTH };

/* Both archives' calls work here, each on its own content: a copy of it comes here before each
   slice. So neither has an address that suits the processor better. */
static _Alignas(PAGE) uint8_t room[ROOM];
static uint8_t content[BOTH][ROOM];

static double now_ns(void)
{
    struct timespec t;
    clock_gettime(CLOCK_MONOTONIC, &t);
    return (double)t.tv_sec * 1e9 + (double)t.tv_nsec;
}

/* Nanoseconds a call, after one that is not timed. */
static double slice(const struct call *call, unsigned count)
{
    call->make();
    const double start = now_ns();
    for (unsigned i = 0; i < count; i++)
        call->make();
    return (now_ns() - start) / count;
}

static int by_size(const void *a, const void *b)
{
    const double x = *(const double *)a, y = *(const double *)b;
    return (x > y) - (x < y);
}

static double nth(double times[SLICES], size_t n)
{
    qsort(times, SLICES, sizeof *times, by_size);
    return times[n];
}

/* The best slice of each, and the median of what one's slice is by the other's beside it. */
static void measure(size_t n, const struct calls calls[BOTH], const struct call *const call[BOTH])
{
    static double times[BOTH][SLICES], ratios[SLICES];
    memcpy(room, content[BEFORE], calls[BEFORE].size);
    const double once = slice(call[BEFORE], 1);
    const unsigned count = once < SLICE_NS ? (unsigned)(SLICE_NS / once) : 1;
    for (size_t i = 0; i < SLICES; i++) {
        for (size_t turn = 0; turn < BOTH; turn++) {
            const enum who who = (enum who)((i + turn) % BOTH);
            memcpy(room, content[who], calls[who].size);
            times[who][i] = slice(call[who], count);
        }
        ratios[i] = times[NOW][i] / times[BEFORE][i];
    }
    const double before = nth(times[BEFORE], 0), now = nth(times[NOW], 0);
    printf("%-15s %5zu %10.1f %10.1f %8.3f %8.3f\n", call[NOW]->name, n, before, now, now / before,
        nth(ratios, SLICES / 2));
}

/* NULL where there is none. */
static const struct call *named(const struct call *list, const char *name)
{
    while (list->name != NULL && strcmp(list->name, name) != 0)
        list++;
    return list->name == NULL ? NULL : list;
}

static void measure_all(size_t n)
{
    struct calls calls[BOTH];
    calls[BEFORE] = calls_before(n, room, sizeof room);
    memcpy(content[BEFORE], room, calls[BEFORE].size);
    calls[NOW] = calls_now(n, room, sizeof room);
    memcpy(content[NOW], room, calls[NOW].size);
    for (const struct call *now = calls[NOW].list; now->name != NULL; now++) {
        const struct call *const call[BOTH] = {named(calls[BEFORE].list, now->name), now};
        if (call[BEFORE] != NULL)
            measure(n, calls, call);
    }
}

int main(int count, char **arguments)
{
    static const size_t lengths[] = {1, 128, 512};
    calls_now(lengths[0], room, sizeof room);
    printf("%s\n\n%-15s %5s %10s %10s %8s %8s\n", count > 1 ? arguments[1] : "", "call", "L",
        "before, ns", "now, ns", "of best", "median");
    for (size_t i = 0; i < sizeof lengths / sizeof *lengths; i++)
        measure_all(lengths[i]);
    putchar('\n');
}
