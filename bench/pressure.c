/* Times one case at a time, in memory, without text: the overpressure alone and the whole answer, proved and in plain doubles. `pressure ROUNDS` reads the lines from standard input.
   Where these have air pressures of their own, the same cases in standard air are timed in the same turns. */
#include "plain_double.h"
#include "turns.h"
#include "yakepuhi.h"

#include <math.h>
#include <stdio.h>
#include <stdlib.h>

enum { TASKS = 4 };

/* The cases as given, and in standard air. */
static struct frame *frames, *standard;
static size_t cases;
static uint64_t sum; /* what the calls gave, so that none is left out */

static void proved_pressure(const struct frame *f)
{
    uint64_t lower = 0, upper = 0;
    for (size_t i = 0; i < cases; i++) {
        sum += yakepuhi_overpressure(f[i].bytes, f[i].length, &lower, &upper);
        sum += lower + upper;
    }
}

static void double_pressure(const struct frame *f)
{
    struct cloud c;
    for (size_t i = 0; i < cases; i++)
        if (decide_frame(f[i].bytes, f[i].length, &c) == 0)
            sum += (uint64_t)overpressure(&c);
}

static void proved_answer(const struct frame *f)
{
    uint8_t area[ANSWER] = { 0 };
    for (size_t i = 0; i < cases; i++) {
        sum += yakepuhi_from_frame(f[i].bytes, f[i].length, area, ANSWER);
        sum += area[4] + area[76];
    }
}

static void double_answer(const struct frame *f)
{
    struct cloud c;
    struct figures g;
    for (size_t i = 0; i < cases; i++)
        if (decide_frame(f[i].bytes, f[i].length, &c) == 0) {
            work(&c, &g);
            for (int n = 0; n < PROBITS; n++)
                sum += (uint64_t)damage(g.probit[n][0]) + (uint64_t)damage(g.probit[n][1]);
        }
}

/* A run of each task over the cases as given and in standard air. */
#define RUNS(task) \
    static void task##_given(void) { task(frames); } \
    static void task##_standard(void) { task(standard); }
RUNS(proved_pressure)
RUNS(double_pressure)
RUNS(proved_answer)
RUNS(double_answer)

/* The overpressures of every case, before anything is timed. */
static void compare(const struct frame *f)
{
    for (size_t i = 0; i < cases; i++) {
        struct cloud c;
        uint64_t lower = 0, upper = 0;
        double p = decide_frame(f[i].bytes, f[i].length, &c) == 0 ? overpressure(&c) : 0;
        if (yakepuhi_overpressure(f[i].bytes, f[i].length, &lower, &upper) != 0 || ceil(p) < lower || upper < floor(p)) {
            printf("case %zu: the overpressure %f is not in [%llu, %llu]\n", i + 1, p, (unsigned long long)lower, (unsigned long long)upper);
            exit(1);
        }
    }
}

/* Whether any case has an air pressure of its own. */
static int make_standard(void)
{
    int own = 0;
    standard = malloc(cases * sizeof *standard);
    for (size_t i = 0; i < cases; i++) {
        standard[i] = frames[i];
        standard[i].length = FRAME;
        own |= frames[i].length != FRAME;
    }
    return own;
}

int main(int count, char **words)
{
    static void (*const runs[2 * TASKS])(void) = { proved_pressure_given,    double_pressure_given,    proved_answer_given,    double_answer_given,
                                                   proved_pressure_standard, double_pressure_standard, proved_answer_standard, double_answer_standard };
    static const char *const names[TASKS] = { "pressure alone, proved", "pressure alone, plain doubles", "whole answer, proved", "whole answer, plain doubles" };
    int rounds = count > 1 ? atoi(words[1]) : 9;
    double medians[2 * TASKS];
    cases = read_frames(&frames);
    if (cases == 0 || rounds < 1)
        return 2;
    int own = make_standard();
    prepare(53);
    compare(frames);
    if (own)
        compare(standard);
    time_in_turn(runs, own ? 2 * TASKS : TASKS, rounds, medians);
    printf("without text, one call a case (check sum %llu)%s\n", (unsigned long long)sum, own ? "; last, the ratio to standard air" : "");
    for (int i = 0; i < (own ? 2 * TASKS : TASKS); i++) {
        printf("%-30s %10.0f ns/case %8.2f", names[i % TASKS], 1e9 * medians[i] / (double)cases, medians[i] / medians[i | 1]);
        if (i < TASKS && own)
            printf(" %8.2f", medians[i] / medians[i + TASKS]);
        printf(i < TASKS ? "\n" : ", in standard air\n");
    }
    free(frames), free(standard);
    return 0;
}
