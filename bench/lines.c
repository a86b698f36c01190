/* Makes input lines: `lines COUNT SEED` accepted cases only, `lines COUNT SEED damaged` with one line in six damaged or refused. The same words give the same lines.
   `air` behind them gives the cases other air than the standard one, in lines of 48 characters, accepted without the last four too. With damaged
   lines among them, half have 44 characters, some have the standard air written out, and all but the damaged are accepted as they are. */
#include "shared.h"

#include <math.h>
#include <stdio.h>
#include <stdlib.h>
#include <string.h>

static uint64_t state;
static int damaged, in_air; /* the words given */

/* splitmix64 */
static uint64_t next(void)
{
    uint64_t z = state += 0x9E3779B97F4A7C15u;
    z = (z ^ z >> 30) * 0xBF58476D1CE4E5B9u;
    z = (z ^ z >> 27) * 0x94D049BB133111EBu;
    return z ^ z >> 31;
}

static uint32_t below(uint32_t n) { return (uint32_t)(next() >> 32) % n; }
static double unit(void) { return (double)(next() >> 11) / 9007199254740992.0; }

static uint32_t within(double x, uint32_t least, uint32_t most)
{
    return x < least ? least : x > most ? most : (uint32_t)x;
}

/* From least (1 or more) to most: an end, a number near an end, or spread evenly over the logarithm. */
static uint32_t spread(uint32_t least, uint32_t most)
{
    uint32_t kind = below(25), end = below(2) ? least : most;
    if (kind < 2)
        return end;
    if (kind < 4)
        return within((double)end + below(7) - 3, least, most);
    return within(exp(log(least) + unit() * (log(most) - log(least))), least, most);
}

struct fields {
    uint32_t substance, state, placement, surroundings, mass, mean, stoichiometric, heat, distance, body, air;
};

static void put(uint8_t *at, uint32_t value, int size)
{
    for (int i = 0; i < size; i++)
        at[i] = (uint8_t)(value >> 8 * (size - 1 - i));
}

static void frame_of(const struct fields *f, struct frame *of)
{
    uint8_t *frame = of->bytes;
    put(frame, f->substance, 1), put(frame + 1, f->state, 1), put(frame + 2, f->placement, 1), put(frame + 3, f->surroundings, 1);
    put(frame + 4, f->mass, 4), put(frame + 8, f->mean, 2), put(frame + 10, f->stoichiometric, 2);
    put(frame + 12, f->heat, 4), put(frame + 16, f->distance, 4), put(frame + 20, f->body, 2), put(frame + 22, f->air, 2);
}

/* The distance in cm at which Rx is so much. */
static double distance_at(const struct cloud *c, double rx)
{
    return 100 * rx * cbrt((double)c->joules / c->parts * (c->aerosol ? 0.75 : 1) / c->air);
}

/* Any air but the standard one. */
static uint32_t other_air(void)
{
    uint32_t air;
    do
        air = spread(LEAST_AIR, GREATEST_AIR);
    while (air == STANDARD_AIR);
    return air;
}

/* In the standard air, or where a frame has its own, in another. */
static void draw(struct fields *f, int own_air)
{
    f->substance = below(76), f->state = below(2), f->placement = below(2), f->surroundings = 1 + below(4);
    f->mass = spread(1, 1000000000);
    f->mean = spread(1, 50000), f->stoichiometric = spread(1, 50000);
    f->heat = below(2) && beta_of(f->substance) ? 0 : spread(1, 150000);
    f->distance = 1;
    f->body = spread(1, 500);
    f->air = own_air && !(damaged && below(8) == 0) ? other_air() : STANDARD_AIR;
}

/* A cloud whose E is P0 times a cube, at a distance where Rx is a limit of a rule or one centimetre beside it. */
static void draw_limit(struct fields *f, int own_air)
{
    static const uint32_t limit[] = { 20, 25, 34, 2400 };
    draw(f, own_air);
    f->air -= f->air % 10;
    f->placement = 0, f->mean = f->stoichiometric, f->heat = f->air / 10;
    int aerosol = f->state == 1 && class_of(f->substance) + f->surroundings > 3;
    uint32_t k = 1 + below(60);
    f->mass = aerosol ? 3600 * k * k * k : 100 * k * k * k;
    f->distance = within((double)limit[below(4)] * k * (aerosol ? 3 : 1) + below(3) - 1, 1, 1000000);
}

/* Whether a case is accepted in its air, and in the standard one too where times are to be compared. */
static int is_accepted(const struct frame *f, struct cloud *c)
{
    return (damaged || decide_frame(f->bytes, FRAME, c) == 0) && decide_frame(f->bytes, f->length, c) == 0;
}

/* An accepted case's frame, its distance spread over all rules and heaped at their limits. */
static void accepted(struct frame *frame)
{
    static const double limit[] = { 0.2, 0.25, 0.34, 24 };
    struct fields f;
    struct cloud c;
    int own_air = in_air && !(damaged && below(2));
    frame->length = own_air ? LONG_FRAME : FRAME;
    do {
        if (below(50) == 0)
            draw_limit(&f, own_air);
        else {
            draw(&f, own_air);
            frame_of(&f, frame);
            if (decide_frame(frame->bytes, frame->length, &c) != 0)
                continue;
            uint32_t kind = below(10);
            double rx = kind == 0 ? limit[below(4)] : exp(log(0.02) + unit() * (log(24) - log(0.02)));
            f.distance = kind == 1 ? spread(1, 1000000) : within(distance_at(&c, rx) + (kind == 0 ? below(3) - 1.0 : 0), 1, 1000000);
        }
        frame_of(&f, frame);
    } while (!is_accepted(frame, &c));
}

static size_t spell_out(const struct frame *frame, int lower, char *line)
{
    for (size_t i = 0; i < frame->length; i++)
        sprintf(line + 2 * i, lower ? "%02x" : "%02X", frame->bytes[i]);
    return 2 * frame->length;
}

/* One of four ways to damage the line itself, `at` the place. */
static size_t harm_line(uint32_t way, size_t at, char *line, size_t length)
{
    static const char strange[] = "gG @/:`{\r\xff\x80\xe1\x01";
    switch (way) {
    case 0: /* a character lost, or the line cut */
        if (in_air && below(3) == 0) /* 46 where there are 48 */
            return length - 2;
        if (below(2))
            return at;
        memmove(line + at, line + at + 1, length - at - 1);
        return length - 1;
    case 1: /* a character too many, or hundreds */
        if (below(2)) {
            memmove(line + at + 1, line + at, length - at);
            return length + 1;
        }
        memset(line + length, '0', 300);
        return length + 1 + below(299);
    case 2: /* no digit */
        line[at] = strange[below(sizeof strange - 1)];
        return length;
    default: /* any bytes but LF */
        for (size_t i = 0; i < length; i++)
            while ((line[i] = (char)below(256)) == '\n')
                ;
        return length;
    }
}

/* A quantity at or past its end, or one below its least; a heat of 0. */
static void harm_quantity(struct frame *frame)
{
    static const struct { int at, size; uint32_t least, most; } field[] = {
        { 4, 4, 1, 1000000000 }, { 8, 2, 1, 50000 }, { 10, 2, 1, 50000 }, { 12, 4, 1, 150000 }, { 16, 4, 1, 1000000 }, { 20, 2, 1, 500 },
        { 22, 2, LEAST_AIR, GREATEST_AIR } };
    int n = (int)below(frame->length == FRAME ? 6 : 7);
    put(frame->bytes + field[n].at, below(3) ? field[n].most + below(3) : field[n].least - 1, field[n].size);
}

/* One of six ways to make the case one that is refused, or just not. */
static void harm_case(uint32_t way, struct frame *of)
{
    uint8_t *frame = of->bytes;
    struct cloud c;
    switch (way) {
    case 0:
        frame[0] = (uint8_t)(74 + below(182));
        break;
    case 1:
        frame[1 + below(3)] = (uint8_t)below(7);
        break;
    case 2:
        harm_quantity(of);
        break;
    case 3: /* heat missing */
        put(frame + 12, 0, 4);
        frame[0] = (uint8_t[]){ 0, 25, 47, 46 }[below(4)];
        break;
    case 4: /* beyond, or just not */
        decide_frame(frame, of->length, &c);
        put(frame + 16, within(distance_at(&c, below(2) ? 24 : 24 + 40 * unit()) + below(4), 1, 1000000), 4);
        break;
    default: /* bytes anew, so that several tests apply at once */
        for (int i = 0; i < 3; i++)
            frame[below((uint32_t)of->length)] = (uint8_t)below(256);
    }
}

/* One way to damage a line, or to make its case one that is refused. */
static size_t harm(struct frame *frame, char *line)
{
    size_t at = below(2 * (uint32_t)frame->length);
    uint32_t way = below(10);
    if (way < 4)
        return harm_line(way, at, line, spell_out(frame, 0, line));
    harm_case(way - 4, frame);
    return spell_out(frame, 0, line);
}

int main(int count, char **words)
{
    if (count < 3)
        return fprintf(stderr, "lines COUNT SEED [damaged] [air]\n"), 2;
    uint64_t lines = strtoull(words[1], NULL, 10);
    state = strtoull(words[2], NULL, 10);
    for (int i = 3; i < count; i++) {
        damaged |= strcmp(words[i], "damaged") == 0;
        in_air |= strcmp(words[i], "air") == 0;
    }
    for (uint64_t i = 0; i < lines; i++) {
        struct frame frame;
        char line[LONG_LINE + 400];
        accepted(&frame);
        size_t length = damaged && below(6) == 0 ? harm(&frame, line) : spell_out(&frame, damaged && below(8) == 0, line);
        line[length] = '\n';
        fwrite(line, 1, length + 1, stdout);
    }
    return fflush(stdout) != 0;
}
