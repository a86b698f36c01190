/* Times runs in turn: medians of processor time. */
#include "turns.h"

#include <stdio.h>
#include <stdlib.h>
#include <time.h>

size_t read_frames(struct frame **frames)
{
    size_t cases = 0, room = 0, size = 0;
    ssize_t got;
    char *line = NULL;
    *frames = NULL;
    while ((got = getline(&line, &size, stdin)) == LINE + 1 || got == LONG_LINE + 1) {
        if (cases == room)
            *frames = realloc(*frames, (room = 2 * room + 1000) * sizeof **frames);
        (*frames)[cases].length = (size_t)got / 2;
        cases += (size_t)spell((const uint8_t *)line, (size_t)got - 1, (*frames)[cases].bytes);
    }
    free(line);
    return cases;
}

static double now(void)
{
    struct timespec t;
    clock_gettime(CLOCK_PROCESS_CPUTIME_ID, &t);
    return (double)t.tv_sec + 1e-9 * (double)t.tv_nsec;
}

static int ascending(const void *a, const void *b)
{
    double x = *(const double *)a, y = *(const double *)b;
    return (x > y) - (x < y);
}

void time_in_turn(void (*const runs[])(void), int count, int rounds, double medians[])
{
    double *times = malloc((size_t)(count * rounds) * sizeof *times);
    for (int turn = -1; turn < rounds; turn++) /* the first turn warms the caches */
        for (int i = 0; i < count; i++) {
            double start = now();
            runs[i]();
            if (turn >= 0)
                times[i * rounds + turn] = now() - start;
        }
    for (int i = 0; i < count; i++) {
        qsort(times + i * rounds, (size_t)rounds, sizeof *times, ascending);
        medians[i] = times[i * rounds + rounds / 2];
    }
    free(times);
}
