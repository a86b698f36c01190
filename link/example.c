/* Calls Yakepuhi from C: a case as a line and as a frame's bytes, its overpressure and its impulse alone, its rules,
   its rings, its line in the old form, its frame from eleven numbers, its spelling, the same in mountain air, what every refusal but a sheet's is
   called, each printed in readable form. */
#include "yakepuhi.h"

#include <inttypes.h>
#include <stdio.h>
#include <string.h>

/* by number; none is numbered 4, and 17 and 18 are a sheet's */
static const char *const words[20] = { "accepted", "length", "digit", "substance", "", "quantity", "heat", "beyond", "space", "threshold", "weak", "strong",
                                       "state", "placement", "surroundings", "tag", "double", "", "", "air" };

static uint32_t four(const uint8_t *b) { return (uint32_t)b[0] << 24 | (uint32_t)b[1] << 16 | (uint32_t)b[2] << 8 | b[3]; }
static int32_t four_signed(const uint8_t *b) { return (int32_t)four(b); }
static unsigned two(const uint8_t *b) { return (unsigned)b[0] << 8 | b[1]; }

static void print_thousandths(int32_t n) { printf("%s%d.%03d", n < 0 ? "-" : "", (n < 0 ? -n : n) / 1000, (n < 0 ? -n : n) % 1000); }

static void print_answer(const uint8_t a[YAKEPUHI_ANSWER])
{
    printf("  speed range   %u\n", a[0]);
    printf("  overpressure  %" PRIu32 " to %" PRIu32 " Pa\n", four(a + 1), four(a + 5));
    printf("  impulse       %" PRIu32 " to %" PRIu32 " Pa s\n", four(a + 9), four(a + 13));
    for (int i = 0; i < 5; i++) {
        unsigned low = two(a + 57 + 4 * i), high = two(a + 59 + 4 * i);
        printf("  probit %d      ", i + 1);
        print_thousandths(four_signed(a + 17 + 8 * i));
        printf(" to ");
        print_thousandths(four_signed(a + 21 + 8 * i));
        printf(", damage %u.%u to %u.%u %%\n", low / 10, low % 10, high / 10, high % 10);
    }
}

enum { AREA = YAKEPUHI_ANSWER + 3, MARK = 0xEE };

/* How many bytes from one on kept their mark. */
static void print_kept(const uint8_t *area, size_t from, size_t size)
{
    size_t kept = 0;
    for (size_t i = from; i < size; i++)
        kept += area[i] == MARK;
    printf("  %zu bytes of the area kept\n", kept);
}

/* How many bytes from one on are still zero. */
static void print_zeros(const uint8_t *area, size_t from, size_t size)
{
    size_t zeros = 0;
    for (size_t i = from; i < size; i++)
        zeros += area[i] == 0;
    printf("  %zu bytes of the area zero\n", zeros);
}

/* The verdict, the answer, and how many bytes past it kept their mark. */
static void show(const char *title, uint64_t refusal, const uint8_t area[AREA])
{
    printf("%s: %s\n", title, words[refusal]);
    if (refusal == 0)
        print_answer(area);
    print_kept(area, refusal == 0 ? YAKEPUHI_ANSWER : 0, AREA);
}

static void ask(const char *title, const char *line, size_t room)
{
    uint8_t area[AREA];
    memset(area, MARK, sizeof area);
    uint64_t refusal = yakepuhi_from_line((const uint8_t *)line, strlen(line), area, room);
    show(title, refusal, area);
}

static void ask_frame(const char *title, const uint8_t *frame, size_t length)
{
    uint8_t area[AREA];
    memset(area, MARK, sizeof area);
    uint64_t refusal = yakepuhi_from_frame(frame, length, area, sizeof area);
    show(title, refusal, area);
}

/* Which air a frame has, for a title. */
static const char *air_of(size_t length) { return length == YAKEPUHI_FRAME ? "" : " in mountain air"; }

static const char *const rules[5] = {
    [YAKEPUHI_UNDECIDED] = "undecided", [YAKEPUHI_NEAR_FIELD] = "near-field value", [YAKEPUHI_DETONATION] = "detonation formula",
    [YAKEPUHI_DEFLAGRATION] = "deflagration formula", [YAKEPUHI_DEFLAGRATION_034] = "deflagration formula at 0.34",
};

/* The rules of a case in other surroundings and at another distance; a refusal leaves both numbers as they were. */
static void ask_rules(const uint8_t *frame, size_t length, uint8_t surroundings, uint32_t metres)
{
    uint8_t moved[YAKEPUHI_LONG_FRAME];
    uint64_t pressure = MARK, impulse = MARK;
    memcpy(moved, frame, length);
    moved[3] = surroundings;
    for (int i = 0; i < 4; i++)
        moved[16 + i] = (uint8_t)(100 * metres >> (24 - 8 * i));
    uint64_t refusal = yakepuhi_rules(moved, length, &pressure, &impulse);
    printf("its rules in surroundings %u, %" PRIu32 " m away%s: %s\n", surroundings, metres, air_of(length), words[refusal]);
    if (refusal == 0)
        printf("  overpressure  %s\n  impulse       %s\n", rules[pressure], rules[impulse]);
    else
        printf("  %d numbers kept\n", (pressure == MARK) + (impulse == MARK));
}

/* The ring of a threshold, from the line and from the bytes; a refusal leaves both distances as they were. */
static void ask_ring(const char *line, const uint8_t *frame, size_t length, uint64_t threshold)
{
    uint64_t inner = MARK, outer = MARK, near = MARK, far = MARK;
    uint64_t refusal = yakepuhi_ring_from_line((const uint8_t *)line, strlen(line), threshold, &inner, &outer);
    int same = refusal == yakepuhi_ring_from_frame(frame, length, threshold, &near, &far) && inner == near && outer == far;
    printf("its ring of %" PRIu64 " Pa%s: %s, from its bytes %s\n", threshold, air_of(length), words[refusal], same ? "the same" : "another");
    if (refusal == 0)
        printf("  %" PRIu64 " to %" PRIu64 " cm\n", inner, outer);
    else
        printf("  %d numbers kept\n", (inner == MARK) + (outer == MARK));
}

enum { OLD_AREA = YAKEPUHI_OLD + 4 };

/* A frame's line in the old form, and the frame that is taken in from it, which has 22 bytes. */
static void ask_old(const char *title, const uint8_t *frame, size_t length, size_t room)
{
    uint8_t area[OLD_AREA], again[OLD_AREA];
    memset(area, MARK, sizeof area);
    memset(again, MARK, sizeof again);
    uint64_t refusal = yakepuhi_old_from_frame(frame, length, area, room);
    printf("%s: %s\n", title, words[refusal]);
    if (refusal == 0)
        printf("  %.*s\n", YAKEPUHI_OLD, (const char *)area);
    print_kept(area, refusal == 0 ? YAKEPUHI_OLD : 0, sizeof area);
    if (refusal != 0)
        return;
    refusal = yakepuhi_frame_from_old(area, YAKEPUHI_OLD, again, sizeof again);
    printf("taken in again: %s, %s\n", words[refusal], memcmp(frame, again, YAKEPUHI_FRAME) == 0 ? "the same frame" : "another frame");
    print_kept(again, YAKEPUHI_FRAME, sizeof again);
}

/* An old line that has something wrong. */
static void ask_old_line(const char *title, const char *line)
{
    uint8_t area[OLD_AREA];
    memset(area, MARK, sizeof area);
    uint64_t refusal = yakepuhi_frame_from_old((const uint8_t *)line, strlen(line), area, sizeof area);
    printf("%s: %s\n", title, words[refusal]);
    print_kept(area, 0, sizeof area);
}

enum { LINE_AREA = YAKEPUHI_LINE + 4 };

typedef uint64_t speller(const uint8_t *given, size_t length, uint8_t *area, size_t room);

/* The spelling of a line or of a frame's bytes, and the spelling of that text. */
static void ask_spelling(const char *title, speller *spell, const void *given, size_t length, size_t room)
{
    uint8_t area[LINE_AREA], again[LINE_AREA];
    memset(area, MARK, sizeof area);
    memset(again, MARK, sizeof again);
    uint64_t refusal = spell(given, length, area, room);
    printf("%s: %s\n", title, words[refusal]);
    if (refusal == 0)
        printf("  %.*s\n", YAKEPUHI_LINE, (const char *)area);
    print_kept(area, refusal == 0 ? YAKEPUHI_LINE : 0, sizeof area);
    if (refusal != 0)
        return;
    refusal = yakepuhi_spell_line(area, YAKEPUHI_LINE, again, YAKEPUHI_LINE);
    printf("spelled again: %s, %s\n", words[refusal], memcmp(area, again, YAKEPUHI_LINE) == 0 ? "the same" : "another");
    print_kept(again, YAKEPUHI_LINE, sizeof again);
}

/* The frame of the case's eleven numbers, three of them to choose, and its spelling. */
static void ask_fields(const char *title, const uint8_t *frame, uint64_t substance, uint64_t mass, uint64_t heat, size_t room)
{
    uint8_t area[LINE_AREA];
    memset(area, MARK, sizeof area);
    uint64_t refusal = yakepuhi_frame_from_fields(substance, 0, 1, 4, mass, 1400, 770, heat, 10000, 70, YAKEPUHI_STANDARD_AIR, area, room);
    printf("%s: %s\n", title, words[refusal]);
    if (refusal == 0) {
        printf("  ");
        for (int i = 0; i < YAKEPUHI_FRAME; i++)
            printf("%02X", area[i]);
        printf(", %s\n", memcmp(frame, area, YAKEPUHI_FRAME) == 0 ? "the same frame" : "another frame");
    }
    print_kept(area, refusal == 0 ? YAKEPUHI_FRAME : 0, sizeof area);
    if (refusal == 0)
        ask_spelling("its spelling", yakepuhi_spell_frame, area, YAKEPUHI_FRAME, LINE_AREA);
}

/* Frames from numbers, and spellings from bytes and from lines. */
static void ask_writing(const char *line, const uint8_t *frame)
{
    ask_fields("its frame from eleven numbers", frame, 17, 8000000, 46400, LINE_AREA);
    ask_fields("its frame with the table's heat", frame, 17, 8000000, 46200, LINE_AREA);
    ask_fields("its frame with heat 0, an area of 22 bytes", frame, 17, 8000000, 0, YAKEPUHI_FRAME);
    ask_fields("its frame with 2^32 g more", frame, 17, 8000000 + (UINT64_C(1) << 32), 46400, LINE_AREA);
    ask_fields("its frame, unlisted, without a heat", frame, 0, 8000000, 0, LINE_AREA);
    ask_fields("its frame, an area of 21 bytes", frame, 17, 8000000, 46400, YAKEPUHI_FRAME - 1);
    ask_spelling("its spelling, an area of 43 bytes", yakepuhi_spell_frame, frame, YAKEPUHI_FRAME, YAKEPUHI_LINE - 1);
    ask_spelling("its line in small letters, spelled", yakepuhi_spell_line, "11000104007a1200057803020000b540000027100046", YAKEPUHI_LINE, LINE_AREA);
    ask_spelling("its line with the table's heat, spelled", yakepuhi_spell_line, "11000104007A1200057803020000B478000027100046", YAKEPUHI_LINE, LINE_AREA);
    ask_spelling("its line with a G, spelled", yakepuhi_spell_line, "11000104007A1200057803020000B54000002710004G", YAKEPUHI_LINE, LINE_AREA);
    ask_spelling("its line, spelled, an area of 43 bytes", yakepuhi_spell_line, line, YAKEPUHI_LINE, YAKEPUHI_LINE - 1);
}

/* A frame, from the case's eleven numbers in air of a pressure, lent 24 zeros and a few more: byte 22 tells its length. */
static void ask_air_fields(const char *title, uint64_t air, size_t room)
{
    uint8_t area[YAKEPUHI_LONG_FRAME + 4] = { 0 };
    uint64_t refusal = yakepuhi_frame_from_fields(17, 0, 1, 4, 8000000, 1400, 770, 46400, 10000, 70, air, area, room);
    size_t written = refusal != 0 ? 0 : area[YAKEPUHI_FRAME] == 0 ? YAKEPUHI_FRAME : YAKEPUHI_LONG_FRAME;
    printf("%s: %s\n", title, words[refusal]);
    if (refusal == 0) {
        printf("  ");
        for (size_t i = 0; i < written; i++)
            printf("%02X", area[i]);
        printf(", %zu bytes\n", written);
    }
    print_zeros(area, written, sizeof area);
}

/* A spelling, lent 48 zeros and a few more: character 44 tells its length. It is spelled again. */
static void ask_air_spelling(const char *title, speller *spell, const void *given, size_t length, size_t room)
{
    uint8_t area[YAKEPUHI_LONG_LINE + 4] = { 0 }, again[YAKEPUHI_LONG_LINE + 4] = { 0 };
    uint64_t refusal = spell(given, length, area, room);
    size_t written = refusal != 0 ? 0 : area[YAKEPUHI_LINE] == 0 ? YAKEPUHI_LINE : YAKEPUHI_LONG_LINE;
    printf("%s: %s\n", title, words[refusal]);
    if (refusal == 0)
        printf("  %.*s, %zu characters\n", (int)written, (const char *)area, written);
    print_zeros(area, written, sizeof area);
    if (refusal != 0)
        return;
    refusal = yakepuhi_spell_line(area, written, again, written);
    printf("spelled again: %s, %s\n", words[refusal], memcmp(area, again, sizeof area) == 0 ? "the same" : "another");
}

/* Frames and spellings of both lengths. */
static void ask_air_writing(const uint8_t *frame, const uint8_t *full)
{
    ask_air_fields("its frame from eleven numbers, air of 80000 Pa", 8000, YAKEPUHI_LONG_FRAME);
    ask_air_fields("the same, air of 101300 Pa", YAKEPUHI_STANDARD_AIR, YAKEPUHI_LONG_FRAME);
    ask_air_fields("the same, air of 80000 Pa, an area of 23 bytes", 8000, YAKEPUHI_LONG_FRAME - 1);
    ask_air_fields("the same, air of 101300 Pa, an area of 22 bytes", YAKEPUHI_STANDARD_AIR, YAKEPUHI_FRAME);
    ask_air_fields("the same, air of 49990 Pa", YAKEPUHI_LEAST_AIR - 1, YAKEPUHI_LONG_FRAME);
    ask_air_fields("the same, air of 110010 Pa", YAKEPUHI_GREATEST_AIR + 1, YAKEPUHI_LONG_FRAME);
    ask_air_fields("the same, air of 80000 Pa and 2^16 units more", 8000 + (UINT64_C(1) << 16), YAKEPUHI_LONG_FRAME);
    ask_air_spelling("its spelling in mountain air", yakepuhi_spell_frame, frame, YAKEPUHI_LONG_FRAME, YAKEPUHI_LONG_LINE);
    ask_air_spelling("its spelling with 101300 Pa written out", yakepuhi_spell_frame, full, YAKEPUHI_LONG_FRAME, YAKEPUHI_LONG_LINE);
    ask_air_spelling("its line in mountain air, small letters, the table's heat, spelled", yakepuhi_spell_line,
                     "11000104007a1200057803020000b4780000271000461f40", YAKEPUHI_LONG_LINE, YAKEPUHI_LONG_LINE);
    ask_air_spelling("its line with 101300 Pa written out, spelled, an area of 44 bytes", yakepuhi_spell_line,
                     "11000104007a1200057803020000b5400000271000462792", YAKEPUHI_LONG_LINE, YAKEPUHI_LINE);
    ask_air_spelling("its spelling in mountain air, an area of 47 bytes", yakepuhi_spell_frame, frame, YAKEPUHI_LONG_FRAME, YAKEPUHI_LONG_LINE - 1);
}

/* The case in mountain air, from all that takes a frame or a line, and with its standard air written out. */
static void ask_mountains(const uint8_t *standard)
{
    static const char line[] = "11000104007A1200057803020000B5400000271000461F40";
    static const char full_line[] = "11000104007A1200057803020000B5400000271000462792";
    uint8_t frame[YAKEPUHI_LONG_FRAME], full[YAKEPUHI_LONG_FRAME];
    uint64_t lower = 0, upper = 0, refusal;
    memcpy(frame, standard, YAKEPUHI_FRAME);
    memcpy(full, standard, YAKEPUHI_FRAME);
    frame[22] = 8000 >> 8, frame[23] = 8000 & 255;
    full[22] = YAKEPUHI_STANDARD_AIR >> 8, full[23] = YAKEPUHI_STANDARD_AIR & 255;
    ask("the case in air of 80000 Pa", line, AREA);
    ask_frame("the same from its 24 bytes", frame, sizeof frame);
    ask("the case with 101300 Pa written out", full_line, AREA);
    refusal = yakepuhi_overpressure(frame, sizeof frame, &lower, &upper);
    printf("its overpressure alone in mountain air: %s\n  %" PRIu64 " to %" PRIu64 " Pa\n", words[refusal], lower, upper);
    refusal = yakepuhi_impulse(frame, sizeof frame, &lower, &upper);
    printf("its impulse alone in mountain air: %s\n  %" PRIu64 " to %" PRIu64 " Pa s\n", words[refusal], lower, upper);
    /* thinner air takes the near field farther */
    ask_rules(standard, YAKEPUHI_FRAME, 1, 33);
    ask_rules(frame, sizeof frame, 1, 33);
    ask_ring(line, frame, sizeof frame, 28000);
    ask_ring(line, frame, sizeof frame, 1000);
    ask_ring(line, frame, sizeof frame, YAKEPUHI_THRESHOLD_IN(8000));
    ask_ring(line, frame, sizeof frame, YAKEPUHI_THRESHOLD_IN(8000) + 1);
    ask("46 characters", "11000104007A1200057803020000B54000002710004627", AREA);
    ask_frame("23 bytes", frame, sizeof frame - 1);
    ask("air of 49990 Pa", "11000104007A1200057803020000B5400000271000461387", AREA);
    ask("air of 110010 Pa", "11000104007A1200057803020000B5400000271000462AF9", AREA);
    ask_old("its old line in mountain air", frame, sizeof frame, OLD_AREA);
    ask_old("the same, an area of 115 bytes", frame, sizeof frame, YAKEPUHI_OLD - 1);
    ask_old("its old line with 101300 Pa written out", full, sizeof full, OLD_AREA);
    ask_air_writing(frame, full);
}

/* The case near and far, in surroundings where each of the four rules counts. */
static void ask_all_rules(const uint8_t *frame)
{
    ask_rules(frame, YAKEPUHI_FRAME, 1, 30);
    ask_rules(frame, YAKEPUHI_FRAME, 1, 100);
    ask_rules(frame, YAKEPUHI_FRAME, 2, 50);
    ask_rules(frame, YAKEPUHI_FRAME, 4, 50);
    ask_rules(frame, YAKEPUHI_FRAME, 4, 100);
    ask_rules(frame, YAKEPUHI_FRAME, 4, 500);
    ask_rules(frame, YAKEPUHI_FRAME, 4, 10000);
}

int main(void)
{
    /* 8 t of propane on the ground, 100 m away */
    static const char line[] = "11000104007A1200057803020000B540000027100046";
    static const uint8_t frame[YAKEPUHI_FRAME] = { 0x11, 0, 1, 4, 0, 0x7A, 0x12, 0, 5, 0x78, 3, 2, 0, 0, 0xB5, 0x40, 0, 0, 0x27, 0x10, 0, 0x46 };
    /* the same case, each time with one thing wrong */
    static const struct { const char *title, *line; } wrong[] = {
        { "one character less", "11000104007A1200057803020000B54000002710004" },
        { "a G", "11000104007A1200057803020000B54000002710004G" },
        { "substance 76", "4C000104007A1200057803020000B540000027100046" },
        { "state 2", "11020104007A1200057803020000B540000027100046" },
        { "placement 2", "11000204007A1200057803020000B540000027100046" },
        { "surroundings 5", "11000105007A1200057803020000B540000027100046" },
        { "body mass 0", "11000104007A1200057803020000B540000027100000" },
        { "unlisted, without a heat", "00000104007A12000578030200000000000027100046" },
        { "at 10 km", "11000104007A1200057803020000B540000F42400046" },
    };
    uint64_t lower = 0, upper = 0;
    ask("a case", line, AREA);
    ask_frame("the same from its bytes", frame, sizeof frame);
    uint64_t refusal = yakepuhi_overpressure(frame, sizeof frame, &lower, &upper);
    printf("its overpressure alone: %s\n  %" PRIu64 " to %" PRIu64 " Pa\n", words[refusal], lower, upper);
    refusal = yakepuhi_impulse(frame, sizeof frame, &lower, &upper);
    printf("its impulse alone: %s\n  %" PRIu64 " to %" PRIu64 " Pa s\n", words[refusal], lower, upper);
    ask_all_rules(frame);
    ask_ring(line, frame, sizeof frame, 28000);
    ask_ring(line, frame, sizeof frame, 5000);
    ask_ring(line, frame, sizeof frame, 1000);
    ask_ring(line, frame, sizeof frame, YAKEPUHI_THRESHOLD);
    ask_ring(line, frame, sizeof frame, YAKEPUHI_THRESHOLD + 1);
    for (size_t i = 0; i < sizeof wrong / sizeof *wrong; i++)
        ask(wrong[i].title, wrong[i].line, AREA);
    ask("an area of 76 bytes", line, YAKEPUHI_ANSWER - 1);
    ask_old("its old line", frame, sizeof frame, OLD_AREA);
    ask_old("its old line, an area of 115 bytes", frame, sizeof frame, YAKEPUHI_OLD - 1);
    ask_old_line("an old line with the tag 7 for 6",
                 "11000104" "0140BF400000000000" "024061800000000000" "034053400000000000" "044047333333333333" "054059000000000000" "074051800000000000");
    ask_old_line("an old line with a distance of -100 m",
                 "11000104" "0140BF400000000000" "024061800000000000" "034053400000000000" "044047333333333333" "05C059000000000000" "064051800000000000");
    ask_writing(line, frame);
    ask_mountains(frame);
    return 0;
}
