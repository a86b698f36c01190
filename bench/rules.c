/* Times the rules of a case, one call a case, proved and by plain doubles. `rules ROUNDS` reads the lines from standard input. */
#include "turns.h"
#include "yakepuhi.h"

#include <math.h>
#include <stdio.h>
#include <stdlib.h>

/* The relative gap of two figures below which the proved answer may be undecided, and that which plain doubles may mistake. */
#define UNDECIDED_GAP 1e-5
#define DOUBLE_GAP 1e-12

struct rules {
    uint64_t refusal, pressure, impulse;
};

/* Px and Ix. */
struct wave {
    double pressure, impulse;
};

static struct frame *frames;
static size_t cases;
static uint64_t sum; /* what the calls gave, so that none is left out */
static double near_gas_impulse;

/* ---- rules in plain doubles */

static double gas_impulse(double log) { return exp(-3.4217 - 0.898 * log - 0.0096 * log * log); }

static struct wave detonation(const struct cloud *c, double rx)
{
    if (c->near)
        return (struct wave){ 18, c->state == 0 ? near_gas_impulse : 0.16 };
    if (c->state == 0) {
        double l = log(rx);
        return (struct wave){ exp(-1.124 - 1.66 * l + 0.26 * l * l), gas_impulse(l) };
    }
    return (struct wave){ 0.125 / rx + 0.137 / (rx * rx) + 0.023 / (rx * rx * rx), 0.022 / rx };
}

static struct wave deflagration(const struct cloud *c, double rx)
{
    static const double speed[] = { 0, 0, 500, 300, 200, 43, 26 };
    double v = speed[c->range], g = c->state == 0 ? 6.0 / 7 : 0.75, x = c->under ? 0.34 : rx;
    if (c->range > 4)
        v *= pow(c->mass / 1000.0, 1.0 / 6);
    double w = (c->range > 4 && v > speed[4] ? speed[4] : v) / SOUND;
    return (struct wave){ w * w * g * (0.83 / x - 0.14 / (x * x)),
                          w * g * (1 - 0.4 * g * w) * (0.06 / x + 0.01 / (x * x) - 0.0025 / (x * x * x)) };
}

/* The two waves of a cloud in ranges 2 to 6. */
static void both_waves(const struct cloud *c, struct wave *burning, struct wave *detonating)
{
    double energy = (c->aerosol ? 0.75 : 1) * (double)c->joules / c->parts, rx = c->distance / 100.0 / cbrt(energy / c->air);
    *burning = deflagration(c, rx);
    *detonating = detonation(c, rx);
}

static struct rules double_rules(const struct frame *frame)
{
    struct cloud c;
    struct wave burning, detonating;
    struct rules r = { (uint64_t)decide_frame(frame->bytes, frame->length, &c), 0, 0 };
    if (r.refusal != 0)
        return r;
    r.pressure = r.impulse = c.near ? YAKEPUHI_NEAR_FIELD : YAKEPUHI_DETONATION;
    if (c.range > 1) {
        uint64_t burns = c.under ? YAKEPUHI_DEFLAGRATION_034 : YAKEPUHI_DEFLAGRATION;
        both_waves(&c, &burning, &detonating);
        if (burning.pressure < detonating.pressure)
            r.pressure = burns;
        if (burning.impulse < detonating.impulse)
            r.impulse = burns;
    }
    return r;
}

static struct rules proved_rules(const struct frame *frame)
{
    struct rules r = { 0, 0, 0 };
    r.refusal = yakepuhi_rules(frame->bytes, frame->length, &r.pressure, &r.impulse);
    return r;
}

/* ---- answers before times */

static size_t equal, undecided;

/* Whether a rule is that of plain doubles, or the two figures lie so close that it may be another. */
static int permitted(uint64_t ours, uint64_t theirs, int range, double burning, double detonating)
{
    double gap = range == 1 ? 1 : fabs(burning - detonating) / fmin(burning, detonating);
    equal += ours == theirs;
    undecided += ours == YAKEPUHI_UNDECIDED;
    return ours == theirs || gap < (ours == YAKEPUHI_UNDECIDED ? UNDECIDED_GAP : DOUBLE_GAP);
}

static void compare(void)
{
    for (size_t i = 0; i < cases; i++) {
        struct cloud c;
        struct wave burning = { 0, 0 }, detonating = { 0, 0 };
        struct rules ours = proved_rules(&frames[i]), theirs = double_rules(&frames[i]);
        int same = ours.refusal == theirs.refusal;
        if (same && ours.refusal == 0) {
            decide_frame(frames[i].bytes, frames[i].length, &c);
            if (c.range > 1)
                both_waves(&c, &burning, &detonating);
            same = permitted(ours.pressure, theirs.pressure, c.range, burning.pressure, detonating.pressure)
                && permitted(ours.impulse, theirs.impulse, c.range, burning.impulse, detonating.impulse);
        }
        if (!same) {
            printf("case %zu: refusal %llu, rules %llu and %llu stand\n", i + 1, (unsigned long long)ours.refusal,
                   (unsigned long long)ours.pressure, (unsigned long long)ours.impulse);
            exit(1);
        }
    }
    printf("%zu cases: %zu rules equal, %zu undecided\n", cases, equal, undecided);
}

/* ---- times */

static void proved_all(void)
{
    for (size_t i = 0; i < cases; i++) {
        struct rules r = proved_rules(&frames[i]);
        sum += r.refusal + r.pressure + r.impulse;
    }
}

static void double_all(void)
{
    for (size_t i = 0; i < cases; i++) {
        struct rules r = double_rules(&frames[i]);
        sum += r.refusal + r.pressure + r.impulse;
    }
}

int main(int count, char **words)
{
    static void (*const runs[2])(void) = { proved_all, double_all };
    static const char *const names[2] = { "rules, proved", "rules, plain doubles" };
    int rounds = count > 1 ? atoi(words[1]) : 9;
    double medians[2];
    cases = read_frames(&frames);
    if (cases == 0 || rounds < 1)
        return 2;
    near_gas_impulse = gas_impulse(log(0.142));
    compare();
    time_in_turn(runs, 2, rounds, medians);
    printf("one call a case (check sum %llu)\n", (unsigned long long)sum);
    for (int i = 0; i < 2; i++)
        printf("%-30s %10.0f ns/case %8.2f\n", names[i], 1e9 * medians[i] / (double)cases, medians[i] / medians[1]);
    return 0;
}
