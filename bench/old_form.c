/* Times the old stored form, one call a line, proved and in plain doubles, both ways. `old_form ROUNDS` reads the lines of its cases from
   standard input and moves most of their doubles off the nearest ones. The way back is compared in 24 bytes too, in standard air and in another. */
#include "turns.h"
#include "yakepuhi.h"

#include <math.h>
#include <stdio.h>
#include <stdlib.h>
#include <string.h>

enum { OLD = YAKEPUHI_OLD, BYTES = OLD / 2, FIELDS = 6 };

/* An old field's place, its scale and limits, and its place and size in a frame. */
static const struct field {
    int old, at, size;
    double scale, least, most;
} fields[FIELDS] = {
    { 4, 4, 4, 1000, 1, 1000000000 }, { 13, 8, 2, 10, 1, 50000 },     { 22, 10, 2, 10, 1, 50000 },
    { 31, 12, 4, 1000, 0, 150000 },   { 40, 16, 4, 100, 1, 1000000 }, { 49, 20, 2, 1, 1, 500 },
};
enum { HEAT = 3 };

static const char upper[] = "0123456789ABCDEF";
static uint8_t digits[256]; /* a digit's value, 16 for any other character */

static struct frame *frames;
static uint8_t (*lines)[OLD];
static size_t count;
static uint64_t sum; /* what the calls gave, so that none is left out */

static void set_digits(void)
{
    memset(digits, 16, sizeof digits);
    for (int i = 0; i < 16; i++)
        digits[(uint8_t)upper[i]] = digits[(uint8_t)"0123456789abcdef"[i]] = (uint8_t)i;
}

/* ---- the old form in plain doubles */

static double double_at(const uint8_t *from)
{
    uint64_t bits = 0;
    double x;
    for (int i = 0; i < 8; i++)
        bits = bits << 8 | from[i];
    memcpy(&x, &bits, 8);
    return x;
}

static void put_double(uint8_t *to, double x)
{
    uint64_t bits;
    memcpy(&bits, &x, 8);
    for (int i = 0; i < 8; i++)
        to[i] = (uint8_t)(bits >> (56 - 8 * i));
}

/* Tests 3 to 6. */
static uint64_t refusal_of(const uint8_t settings[4], const double n[FIELDS], int lost)
{
    if (settings[0] > 75)
        return 3;
    if (settings[1] > 1)
        return 12;
    if (settings[2] > 1)
        return 13;
    if (settings[3] < 1 || settings[3] > 4)
        return 14;
    for (int i = 0; i < FIELDS; i++)
        lost |= n[i] < fields[i].least || n[i] > fields[i].most;
    if (lost)
        return 5;
    return n[HEAT] == 0 && beta_of(settings[0]) == 0 ? 6 : 0;
}

/* The bytes of an old line; 0 where a character is no digit. */
static int spell_old(const uint8_t *line, uint8_t raw[BYTES])
{
    unsigned seen = 0;
    for (int i = 0; i < BYTES; i++) {
        unsigned high = digits[line[2 * i]], low = digits[line[2 * i + 1]];
        seen |= high | low;
        raw[i] = (uint8_t)(high << 4 | (low & 15));
    }
    return seen < 16;
}

/* Tests 15 and 16, and the whole numbers. */
static uint64_t read_doubles(const uint8_t raw[BYTES], double n[FIELDS])
{
    for (int i = 0; i < FIELDS; i++)
        if (raw[fields[i].old] != i + 1)
            return 15;
    for (int i = 0; i < FIELDS; i++) {
        double x = double_at(raw + fields[i].old + 1);
        if (!(x >= 0 && x <= 1e9))
            return 16;
        n[i] = floor(x * fields[i].scale + 0.5);
    }
    return 0;
}

static uint64_t double_in(const uint8_t *line, size_t length, uint8_t *area, size_t room)
{
    uint8_t raw[BYTES];
    double n[FIELDS];
    if (length != OLD)
        return 1;
    if (!spell_old(line, raw))
        return 2;
    uint64_t refusal = read_doubles(raw, n);
    if (refusal == 0)
        refusal = refusal_of(raw, n, n[HEAT] == 0 && double_at(raw + fields[HEAT].old + 1) > 0);
    if (refusal != 0 || room < FRAME)
        return refusal != 0 ? refusal : 8;
    memcpy(area, raw, 4);
    for (int i = 0; i < FIELDS; i++)
        for (int j = 0; j < fields[i].size; j++)
            area[fields[i].at + j] = (uint8_t)((uint64_t)n[i] >> 8 * (fields[i].size - 1 - j));
    return 0;
}

static uint64_t double_back(const uint8_t *frame, size_t length, uint8_t *area, size_t room)
{
    uint8_t raw[BYTES];
    double n[FIELDS];
    if (length != FRAME && length != LONG_FRAME)
        return 1;
    uint32_t air = length == FRAME ? STANDARD_AIR : (uint32_t)frame[22] << 8 | frame[23];
    for (int i = 0; i < FIELDS; i++) {
        uint32_t value = 0;
        for (int j = 0; j < fields[i].size; j++)
            value = value << 8 | frame[fields[i].at + j];
        n[i] = value;
    }
    uint64_t refusal = refusal_of(frame, n, air < LEAST_AIR || air > GREATEST_AIR);
    if (refusal == 0 && air != STANDARD_AIR)
        refusal = 19;
    if (refusal != 0 || room < OLD)
        return refusal != 0 ? refusal : 8;
    memcpy(raw, frame, 4);
    for (int i = 0; i < FIELDS; i++) {
        raw[fields[i].old] = (uint8_t)(i + 1);
        put_double(raw + fields[i].old + 1, n[i] / fields[i].scale);
    }
    for (int i = 0; i < BYTES; i++) {
        area[2 * i] = (uint8_t)upper[raw[i] >> 4];
        area[2 * i + 1] = (uint8_t)upper[raw[i] & 15];
    }
    return 0;
}

/* ---- old lines to try */

static uint64_t next_random(void) /* splitmix64 */
{
    static uint64_t state = 1;
    uint64_t z = state += 0x9E3779B97F4A7C15u;
    z = (z ^ z >> 30) * 0xBF58476D1CE4E5B9u;
    z = (z ^ z >> 27) * 0x94D049BB133111EBu;
    return z ^ z >> 31;
}

/* An old line that its frame belongs to: one double in four the nearest, the others anywhere up to the halves, a heat of 0 as it is. */
static void make_line(const uint8_t frame[FRAME], uint8_t line[OLD])
{
    uint8_t raw[BYTES];
    double_back(frame, FRAME, line, OLD);
    spell_old(line, raw);
    for (int i = 0; i < FIELDS; i++) {
        double x = double_at(raw + fields[i].old + 1), unit = (double)(next_random() >> 11) / 9007199254740992.0;
        if (next_random() % 4 != 0 && x > 0)
            put_double(raw + fields[i].old + 1, x + (unit - 0.5) * 0.999 / fields[i].scale);
    }
    for (int i = 0; i < OLD; i++)
        line[i] = (uint8_t)upper[i % 2 == 0 ? raw[i / 2] >> 4 : raw[i / 2] & 15];
}

/* ---- answers before times */

typedef uint64_t turner(const uint8_t *from, size_t length, uint8_t *area, size_t room);

/* Whether two ways answer an input otherwise; an area holds the longer form. Where it is not refused, both accept it. */
static int differs(const uint8_t *input, size_t length, turner *ours, turner *theirs, uint64_t refusal)
{
    uint8_t a[OLD] = { 0 }, b[OLD] = { 0 };
    uint64_t one = ours(input, length, a, OLD), other = theirs(input, length, b, OLD);
    return one != refusal || other != refusal || memcmp(a, b, OLD) != 0;
}

static size_t differing_in(void)
{
    size_t differ = 0;
    for (size_t i = 0; i < count; i++)
        differ += (size_t)differs(lines[i], OLD, yakepuhi_frame_from_old, double_in, 0);
    return differ;
}

/* The frame in 22 bytes, in 24 with the standard air, and in 24 with one unit of it less, which is refused by 19. */
static size_t differing_back(void)
{
    size_t differ = 0;
    for (size_t i = 0; i < count; i++)
        for (int less = 0; less < 2; less++) {
            struct frame f = frames[i];
            f.bytes[22] = (STANDARD_AIR - less) >> 8, f.bytes[23] = (uint8_t)(STANDARD_AIR - less);
            if (less == 0)
                differ += (size_t)differs(f.bytes, FRAME, yakepuhi_old_from_frame, double_back, 0);
            differ += (size_t)differs(f.bytes, LONG_FRAME, yakepuhi_old_from_frame, double_back, less == 0 ? 0 : 19);
        }
    return differ;
}

/* ---- times */

static void all_in(turner *turn)
{
    uint8_t area[FRAME] = { 0 };
    for (size_t i = 0; i < count; i++)
        sum += turn(lines[i], OLD, area, FRAME) + area[7] + area[21];
}

static void all_back(turner *turn)
{
    uint8_t area[OLD] = { 0 };
    for (size_t i = 0; i < count; i++)
        sum += turn(frames[i].bytes, FRAME, area, OLD) + area[20] + area[115];
}

static void proved_ins(void) { all_in(yakepuhi_frame_from_old); }
static void double_ins(void) { all_in(double_in); }
static void proved_backs(void) { all_back(yakepuhi_old_from_frame); }
static void double_backs(void) { all_back(double_back); }

int main(int words, char **word)
{
    static void (*const runs[4])(void) = { proved_ins, double_ins, proved_backs, double_backs };
    static const char *const names[4] = { "way in, proved", "way in, plain doubles", "way back, proved", "way back, plain doubles" };
    int rounds = words > 1 ? atoi(word[1]) : 9;
    double medians[4];
    count = read_frames(&frames);
    if (count == 0 || rounds < 1)
        return 2;
    set_digits();
    lines = malloc(count * sizeof *lines);
    for (size_t i = 0; i < count; i++)
        make_line(frames[i].bytes, lines[i]);
    size_t in = differing_in(), back = differing_back();
    printf("%zu old lines, %zu answered otherwise by plain doubles; %zu frames, %zu answered otherwise\n", count, in, 3 * count, back);
    time_in_turn(runs, 4, rounds, medians);
    printf("the old form, one call a line (check sum %llu)\n", (unsigned long long)sum);
    for (int i = 0; i < 4; i++) {
        double spent = medians[i] / (double)count;
        printf("%-30s %10.0f ns/line %8.2f %10.0f lines/second\n", names[i], 1e9 * spent, medians[i] / medians[i | 1], 1 / spent);
    }
    free(lines);
    free(frames);
    return in + back != 0;
}
