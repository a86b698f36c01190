/* Times writing frames, one call a case, proved and in plain C: a frame from its eleven fields, and the spelling of a case from its frame and from
   its line. `writing ROUNDS` reads the lines of its cases from standard input, gives one in four the table's heat, where there is one, and writes
   every second line in small letters. */
#include "turns.h"
#include "yakepuhi.h"

#include <stdio.h>
#include <stdlib.h>
#include <string.h>

enum { FIELDS = 11, HEAT = 7, AIR_FIELD = 10, RUNS = 7 };

typedef uint64_t writer(const uint8_t *given, size_t length, uint8_t *area, size_t room);

static const char upper[] = "0123456789ABCDEF", lower[] = "0123456789abcdef";
static uint8_t digits[256]; /* a digit's value, 16 for any other character */

/* What a writer is given of a case: fields, the bytes of a frame or the characters of a line. */
struct given {
    uint64_t bytes[FIELDS];
    size_t length;
};

static struct frame *frames;
static struct given *numbers, *given_frames, *lines;
static size_t cases, refused;
static uint64_t sum; /* what the calls gave, so that none is left out */

/* ---- writing in plain C */

static uint32_t two(const uint8_t *b) { return (uint32_t)b[0] << 8 | b[1]; }
static uint32_t four(const uint8_t *b) { return two(b) << 16 | two(b + 2); }
static void put2(uint8_t *at, uint64_t x) { at[0] = (uint8_t)(x >> 8), at[1] = (uint8_t)x; }
static void put4(uint8_t *at, uint64_t x) { put2(at, x >> 16), put2(at + 2, x); }
static int outside(uint64_t x, uint64_t least, uint64_t most) { return x < least || x > most; }

static inline void read_fields(const uint8_t *f, size_t length, uint64_t n[FIELDS])
{
    n[0] = f[0], n[1] = f[1], n[2] = f[2], n[3] = f[3], n[4] = four(f + 4);
    n[5] = two(f + 8), n[6] = two(f + 10), n[HEAT] = four(f + 12), n[8] = four(f + 16), n[9] = two(f + 20);
    n[AIR_FIELD] = length == FRAME ? STANDARD_AIR : two(f + 22);
}

/* The bytes that a case is written in. */
static inline size_t length_of(const uint64_t n[FIELDS]) { return n[AIR_FIELD] == STANDARD_AIR ? FRAME : LONG_FRAME; }

/* Tests 3 to 6, and 8. */
static inline uint64_t refusal_of(const uint64_t n[FIELDS], size_t room, size_t needed)
{
    return n[0] > 75 ? 3 : n[1] > 1 ? 12 : n[2] > 1 ? 13 : outside(n[3], 1, 4) ? 14
        : outside(n[4], 1, 1000000000) || outside(n[5], 1, 50000) || outside(n[6], 1, 50000) || n[HEAT] > 150000
            || outside(n[8], 1, 1000000) || outside(n[9], 1, 500) || outside(n[AIR_FIELD], LEAST_AIR, GREATEST_AIR) ? 5
        : n[HEAT] == 0 && beta_of((unsigned)n[0]) == 0 ? 6 : room < needed ? 8 : 0;
}

/* Not inlined, so that its numbers are handed over as the library's are. */
static __attribute__((noinline)) uint64_t plain_frame(uint64_t substance, uint64_t state, uint64_t placement, uint64_t surroundings, uint64_t mass,
                                                      uint64_t mean, uint64_t stoichiometric, uint64_t heat, uint64_t distance, uint64_t body,
                                                      uint64_t air, uint8_t *area, size_t room)
{
    const uint64_t n[FIELDS] = { substance, state, placement, surroundings, mass, mean, stoichiometric, heat, distance, body, air };
    uint64_t refusal = refusal_of(n, room, length_of(n));
    if (refusal != 0)
        return refusal;
    area[0] = (uint8_t)substance, area[1] = (uint8_t)state, area[2] = (uint8_t)placement, area[3] = (uint8_t)surroundings;
    put4(area + 4, mass), put2(area + 8, mean), put2(area + 10, stoichiometric);
    put4(area + 12, heat), put4(area + 16, distance), put2(area + 20, body);
    if (air != STANDARD_AIR)
        put2(area + 22, air);
    return 0;
}

static inline void put_digits(const uint8_t *f, size_t length, const char *set, uint8_t *area)
{
    for (size_t i = 0; i < length; i++)
        area[2 * i] = (uint8_t)set[f[i] >> 4], area[2 * i + 1] = (uint8_t)set[f[i] & 15];
}

/* A refusal, or the bytes whose digits are the spelling, and how many. */
static inline uint64_t bytes_of(const uint8_t *frame, size_t length, size_t room, uint8_t bytes[LONG_FRAME], size_t *count)
{
    uint64_t n[FIELDS];
    if (length != FRAME && length != LONG_FRAME)
        return 1;
    read_fields(frame, length, n);
    *count = length_of(n);
    memcpy(bytes, frame, length);
    if (n[HEAT] == 440u * beta_of(frame[0]))
        put4(bytes + 12, 0);
    return refusal_of(n, room, 2 * *count);
}

static uint64_t plain_of_frame(const uint8_t *frame, size_t length, uint8_t *area, size_t room)
{
    uint8_t bytes[LONG_FRAME];
    size_t count;
    uint64_t refusal = bytes_of(frame, length, room, bytes, &count);
    if (refusal == 0)
        put_digits(bytes, count, upper, area);
    return refusal;
}

static uint64_t printed_of_frame(const uint8_t *frame, size_t length, uint8_t *area, size_t room)
{
    uint8_t f[LONG_FRAME];
    char text[LONG_LINE + 1];
    size_t count;
    uint64_t refusal = bytes_of(frame, length, room, f, &count);
    if (refusal != 0)
        return refusal;
    snprintf(text, sizeof text, "%02X%02X%02X%02X%08X%04X%04X%08X%08X%04X", f[0], f[1], f[2], f[3], four(f + 4), two(f + 8), two(f + 10),
             four(f + 12), four(f + 16), two(f + 20));
    if (count == LONG_FRAME)
        snprintf(text + LINE, 5, "%04X", two(f + 22));
    memcpy(area, text, 2 * count);
    return 0;
}

static uint64_t plain_of_line(const uint8_t *line, size_t length, uint8_t *area, size_t room)
{
    uint8_t frame[LONG_FRAME];
    unsigned seen = 0;
    if (length != LINE && length != LONG_LINE)
        return 1;
    for (size_t i = 0; i < length / 2; i++) {
        unsigned high = digits[line[2 * i]], low = digits[line[2 * i + 1]];
        seen |= high | low;
        frame[i] = (uint8_t)(high << 4 | (low & 15));
    }
    return seen < 16 ? plain_of_frame(frame, length / 2, area, room) : 2;
}

/* ---- answers before times; eleven numbers are given as the bytes of an array, so that one kind of call will do for all */

static uint64_t proved_fields(const uint8_t *given, size_t length, uint8_t *area, size_t room)
{
    const uint64_t *n = (const uint64_t *)given;
    (void)length;
    return yakepuhi_frame_from_fields(n[0], n[1], n[2], n[3], n[4], n[5], n[6], n[7], n[8], n[9], n[10], area, room);
}

static uint64_t plain_fields(const uint8_t *given, size_t length, uint8_t *area, size_t room)
{
    const uint64_t *n = (const uint64_t *)given;
    (void)length;
    return plain_frame(n[0], n[1], n[2], n[3], n[4], n[5], n[6], n[7], n[8], n[9], n[10], area, room);
}

static void make_cases(void)
{
    numbers = malloc(cases * sizeof *numbers), given_frames = malloc(cases * sizeof *given_frames), lines = malloc(cases * sizeof *lines);
    memset(digits, 16, sizeof digits);
    for (int i = 0; i < 16; i++)
        digits[(uint8_t)upper[i]] = digits[(uint8_t)lower[i]] = (uint8_t)i;
    for (size_t i = 0; i < cases; i++) {
        struct frame *f = &frames[i];
        unsigned table = 440u * beta_of(f->bytes[0]);
        if (i % 4 == 3 && table != 0)
            put4(f->bytes + 12, table);
        read_fields(f->bytes, f->length, numbers[i].bytes);
        numbers[i].length = sizeof numbers[i].bytes;
        memcpy(given_frames[i].bytes, f->bytes, given_frames[i].length = f->length);
        put_digits(f->bytes, f->length, i % 2 == 0 ? upper : lower, (uint8_t *)lines[i].bytes);
        lines[i].length = 2 * f->length;
    }
}

/* How many cases two calls answer otherwise: each as it is, then with one byte of chance, and at times a length or a room too small by one; `each`
   byte of what is written takes so many of the area. */
static size_t differing(writer *ours, writer *theirs, const struct given *given, size_t each)
{
    size_t differ = 0;
    for (size_t i = 0; i < 2 * cases; i++) {
        struct given held = given[i / 2];
        uint64_t chance = (i + 1) * 0x9E3779B97F4A7C15u;
        uint8_t *one = (uint8_t *)held.bytes, a[LONG_LINE] = { 0 }, b[LONG_LINE] = { 0 };
        size_t cut = i % 2 == 1 && (chance >> 48) % 8 == 0, less = i % 2 == 1 && (chance >> 51) % 8 == 0;
        size_t room = each * length_of(numbers[i / 2].bytes);
        if (i % 2 == 1)
            one[(chance >> 32) % held.length] = (uint8_t)(chance >> 56);
        uint64_t refusal = ours(one, held.length - cut, a, room - less);
        differ += theirs(one, held.length - cut, b, room - less) != refusal || memcmp(a, b, LONG_LINE) != 0;
        refused += refusal != 0;
    }
    return differ;
}

/* ---- times */

static void all(writer *write, const struct given *given)
{
    uint8_t area[LONG_LINE] = { 0 };
    for (size_t i = 0; i < cases; i++)
        sum += write((const uint8_t *)given[i].bytes, given[i].length, area, sizeof area) + area[7] + area[21];
}

static void proved_frames(void) { all(proved_fields, numbers); }
static void plain_frames(void) { all(plain_fields, numbers); }
static void proved_of_frames(void) { all(yakepuhi_spell_frame, given_frames); }
static void plain_of_frames(void) { all(plain_of_frame, given_frames); }
static void printed_of_frames(void) { all(printed_of_frame, given_frames); }
static void proved_of_lines(void) { all(yakepuhi_spell_line, lines); }
static void plain_of_lines(void) { all(plain_of_line, lines); }

int main(int count, char **words)
{
    static void (*const runs[RUNS])(void) = { proved_frames, plain_frames, proved_of_frames, plain_of_frames, printed_of_frames,
                                              proved_of_lines, plain_of_lines };
    static const char *const names[RUNS] = { "frame of fields, proved", "frame of fields, plain C", "spelling of frame, proved",
                                             "spelling of frame, plain C", "spelling of frame, snprintf", "spelling of line, proved",
                                             "spelling of line, plain C" };
    static const int peers[RUNS] = { 1, 1, 3, 3, 3, 6, 6 };
    int rounds = count > 1 ? atoi(words[1]) : 9;
    double medians[RUNS];
    cases = read_frames(&frames);
    if (cases == 0 || rounds < 1)
        return 2;
    make_cases();
    size_t differ = differing(proved_fields, plain_fields, numbers, 1) + differing(yakepuhi_spell_frame, plain_of_frame, given_frames, 2)
        + differing(yakepuhi_spell_frame, printed_of_frame, given_frames, 2) + differing(yakepuhi_spell_line, plain_of_line, lines, 2);
    printf("%zu cases, each also spoiled: of %zu answers %zu refused, %zu otherwise in plain C\n", cases, 8 * cases, refused, differ);
    time_in_turn(runs, RUNS, rounds, medians);
    printf("writing frames, one call a case (check sum %llu)\n", (unsigned long long)sum);
    for (int i = 0; i < RUNS; i++)
        printf("%-30s %10.1f ns/case %8.2f\n", names[i], 1e9 * medians[i] / (double)cases, medians[i] / medians[peers[i]]);
    free(frames), free(numbers), free(given_frames), free(lines);
    return differ != 0;
}
