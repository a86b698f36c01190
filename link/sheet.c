/* A study sheet from C: the receptors of one yard are added, withdrawn and read and the gaps closed, with what is refused; then a sheet is filled,
   a third one has its totals followed, and a fourth holds cases in mountain air. Each step prints its verdict and what the sheet holds then, with
   its totals, or what a refusal left as it was. */
#include "yakepuhi.h"

#include <inttypes.h>
#include <stdio.h>
#include <string.h>

enum { SHEET = YAKEPUHI_SHEET + 3, AREA = YAKEPUHI_FRAME + 3, MARK = 0xEE, SHOWN = 4 };

/* the sheet, and marks behind it */
static uint8_t sheet[SHEET];

static void empty_sheet(void)
{
    memset(sheet, 0, YAKEPUHI_SHEET);
    memset(sheet + YAKEPUHI_SHEET, MARK, SHEET - YAKEPUHI_SHEET);
}

/* The refusals that come here. */
static const char *word_of(uint64_t refusal)
{
    switch (refusal) {
    case 0: return "accepted";
    case 5: return "quantity";
    case 7: return "beyond";
    case 8: return "space";
    case 17: return "full";
    case 18: return "vacant";
    default: return "another refusal";
    }
}

/* 8 t of propane on the ground, and a receptor so many metres away, in standard air. */
static void put_case(uint8_t frame[YAKEPUHI_FRAME], uint32_t metres)
{
    static const uint8_t propane[YAKEPUHI_FRAME] = { 0x11, 0, 1, 4, 0, 0x7A, 0x12, 0, 5, 0x78, 3, 2, 0, 0, 0xB5, 0x40, 0, 0, 0x27, 0x10, 0, 0x46 };
    memcpy(frame, propane, sizeof propane);
    for (int i = 0; i < 4; i++)
        frame[16 + i] = (uint8_t)(100 * metres >> (24 - 8 * i));
}

static uint32_t metres_of(const uint8_t *frame)
{
    return ((uint32_t)frame[16] << 24 | (uint32_t)frame[17] << 16 | (uint32_t)frame[18] << 8 | frame[19]) / 100;
}

/* How long a frame is that was written over one byte throughout: 0 or the mark, of which neither begins a permitted air pressure. */
static size_t length_of(const uint8_t *area, uint8_t lent) { return area[YAKEPUHI_FRAME] == lent ? YAKEPUHI_FRAME : YAKEPUHI_LONG_FRAME; }

/* The air pressure in units of 10 Pa. */
static unsigned air_of(const uint8_t *frame, size_t length)
{
    return length == YAKEPUHI_FRAME ? YAKEPUHI_STANDARD_AIR : (unsigned)frame[22] << 8 | frame[23];
}

static uint64_t upper_of(const uint8_t *frame, size_t length)
{
    uint64_t lower = 0, upper = 0;
    yakepuhi_overpressure(frame, length, &lower, &upper);
    return upper;
}

/* The totals, as a title block has them; a line more where the greatest is not that of the frames read back. */
static void print_totals(uint64_t of_frames)
{
    uint64_t count = MARK, greatest = MARK, place = MARK;
    uint64_t refusal = yakepuhi_sheet_totals(sheet, sizeof sheet, &count, &greatest, &place);
    printf("  totals        %" PRIu64 " %s, greatest %" PRIu64 " Pa at ", count, count == 1 ? "case" : "cases", greatest);
    if (place == 0)
        printf("no place\n");
    else
        printf("place %" PRIu64 "\n", place);
    if (refusal != 0 || greatest != of_frames)
        printf("  not the       %" PRIu64 " Pa of the frames\n", of_frames);
}

/* How many cases the sheet holds, the first ones and the last with their places, and the totals. */
static void print_sheet(void)
{
    uint32_t metres[YAKEPUHI_PLACES];
    unsigned airs[YAKEPUHI_PLACES];
    uint64_t places[YAKEPUHI_PLACES], greatest = 0;
    int held = 0;
    for (uint64_t place = 1; place <= YAKEPUHI_PLACES; place++) {
        uint8_t frame[YAKEPUHI_LONG_FRAME] = { 0 };
        if (yakepuhi_sheet_case(sheet, sizeof sheet, place, frame, sizeof frame) == 0) {
            size_t length = length_of(frame, 0);
            places[held] = place;
            airs[held] = air_of(frame, length);
            metres[held++] = metres_of(frame);
            uint64_t upper = upper_of(frame, length);
            greatest = upper > greatest ? upper : greatest;
        }
    }
    printf("  held          %d of %d", held, YAKEPUHI_PLACES);
    for (int i = 0; i < held; i++)
        if (i < SHOWN || i == held - 1) {
            printf("%s%" PRIu32 " m", i == 0 ? ": " : ", ", metres[i]);
            if (airs[i] != YAKEPUHI_STANDARD_AIR)
                printf(" in %u Pa", 10 * airs[i]);
            printf(" at %" PRIu64, places[i]);
        }
    printf("\n");
    print_totals(greatest);
}

static int kept_marks(const uint8_t *bytes, size_t from, size_t size)
{
    int kept = 0;
    for (size_t i = from; i < size; i++)
        kept += bytes[i] == MARK;
    return kept;
}

/* The verdict on a step; where fewer bytes are told than a sheet has, their number too. */
static void print_verdict(size_t told, uint64_t refusal)
{
    if (told < YAKEPUHI_SHEET)
        printf(", a sheet of %zu bytes", told);
    printf(": %s\n", word_of(refusal));
}

/* How many of the sheet's bytes and of the marks behind it are as they were. */
static void print_kept(const uint8_t before[SHEET])
{
    int kept = 0;
    for (size_t i = 0; i < SHEET; i++)
        kept += sheet[i] == before[i];
    printf("  %d bytes of the sheet kept\n", kept);
}

/* What the sheet holds, or what a refusal left of it. */
static void print_after(uint64_t refusal, const uint8_t before[SHEET])
{
    if (refusal == 0)
        print_sheet();
    else
        print_kept(before);
}

/* Adds a case given as a frame. */
static void add_frame(const char *name, const uint8_t *frame, size_t length, size_t told)
{
    uint8_t before[SHEET];
    uint64_t place = MARK;
    memcpy(before, sheet, sizeof sheet);
    uint64_t refusal = yakepuhi_sheet_add(sheet, told, frame, length, &place);
    printf("add %s, %" PRIu32 " m away", name, metres_of(frame));
    print_verdict(told, refusal);
    if (refusal == 0)
        printf("  place         %" PRIu64 "\n", place);
    else
        printf("  the number %s\n", place == MARK ? "kept" : "lost");
    print_after(refusal, before);
}

/* Adds the case of a receptor in standard air. */
static void add(const char *name, uint32_t metres, size_t told)
{
    uint8_t frame[YAKEPUHI_FRAME];
    put_case(frame, metres);
    add_frame(name, frame, sizeof frame, told);
}

/* Adds the case of a receptor with its air pressure, in units of 10 Pa, written out. */
static void add_in_air(const char *name, uint32_t metres, unsigned air)
{
    uint8_t frame[YAKEPUHI_LONG_FRAME];
    put_case(frame, metres);
    frame[22] = (uint8_t)(air >> 8);
    frame[23] = (uint8_t)air;
    add_frame(name, frame, sizeof frame, SHEET);
}

static void withdraw(uint64_t place, size_t told)
{
    uint8_t before[SHEET];
    memcpy(before, sheet, sizeof sheet);
    uint64_t refusal = yakepuhi_sheet_withdraw(sheet, told, place);
    printf("withdraw place %" PRIu64, place);
    print_verdict(told, refusal);
    print_after(refusal, before);
}

static void close_gaps(size_t told)
{
    uint8_t before[SHEET];
    memcpy(before, sheet, sizeof sheet);
    uint64_t refusal = yakepuhi_sheet_close(sheet, told);
    printf("close the gaps");
    print_verdict(told, refusal);
    print_after(refusal, before);
}

/* Reads the case at a place, and asks for the overpressure of its frame. */
static void read_case(uint64_t place, size_t told, size_t room)
{
    uint8_t area[AREA];
    uint64_t lower = 0, upper = 0;
    memset(area, MARK, sizeof area);
    uint64_t refusal = yakepuhi_sheet_case(sheet, told, place, area, room);
    printf("read place %" PRIu64 " into %zu bytes", place, room);
    print_verdict(told, refusal);
    size_t length = refusal == 0 ? length_of(area, MARK) : 0;
    if (refusal == 0 && yakepuhi_overpressure(area, length, &lower, &upper) == 0)
        printf("  overpressure  %" PRIu64 " to %" PRIu64 " Pa, %" PRIu32 " m away\n", lower, upper, metres_of(area));
    printf("  %d bytes of the area kept\n", kept_marks(area, length, sizeof area));
}

/* Asks for the totals, by which the sheet is not written either way. */
static void totals(size_t told)
{
    uint8_t before[SHEET];
    uint64_t count = MARK, greatest = MARK, place = MARK;
    memcpy(before, sheet, sizeof sheet);
    uint64_t refusal = yakepuhi_sheet_totals(sheet, told, &count, &greatest, &place);
    printf("totals");
    print_verdict(told, refusal);
    if (refusal == 0)
        print_sheet();
    else
        printf("  the three numbers %s\n", count == MARK && greatest == MARK && place == MARK ? "kept" : "lost");
    print_kept(before);
}

/* The receptors of a yard, as in docs/sheets.md. */
static void show_yard(void)
{
    add("the pump house", 100, SHEET);
    add("the control room", 150, SHEET);
    add("the gate", 300, SHEET);
    withdraw(2, SHEET);
    add("the workshop", 220, SHEET);
    read_case(2, SHEET, AREA);
    withdraw(2, SHEET);
    withdraw(4, SHEET);
    add("the workshop again", 250, SHEET);
    close_gaps(SHEET);
    read_case(2, SHEET, AREA);
    add("the town", 10000, SHEET);
}

/* The same sheet asked for what it refuses: 7 comes before 8, and 18 between the sheet's 8 and the area's. */
static void show_refusals(void)
{
    add("the gate", 300, YAKEPUHI_SHEET - 1);
    add("the town", 10000, YAKEPUHI_SHEET - 1);
    withdraw(0, SHEET);
    withdraw(YAKEPUHI_PLACES + 1, SHEET);
    withdraw(1, YAKEPUHI_SHEET - 1);
    close_gaps(YAKEPUHI_SHEET - 1);
    read_case(1, YAKEPUHI_SHEET - 1, AREA);
    read_case(4, SHEET, YAKEPUHI_FRAME - 1);
    read_case(1, SHEET, YAKEPUHI_FRAME - 1);
    read_case(1, YAKEPUHI_SHEET, YAKEPUHI_FRAME);
}

/* A sheet that is filled with a receptor every 10 m; a gap makes no room until it is closed. */
static void show_full(void)
{
    int right = 0;
    for (uint32_t n = 1; n <= YAKEPUHI_PLACES; n++) {
        uint8_t frame[YAKEPUHI_FRAME];
        uint64_t place = MARK;
        put_case(frame, 10 * n);
        right += yakepuhi_sheet_add(sheet, SHEET, frame, sizeof frame, &place) == 0 && place == n;
    }
    printf("add %d receptors, 10 m apart: %d at the next place\n", YAKEPUHI_PLACES, right);
    print_sheet();
    add("one more", 650, SHEET);
    add("the town", 10000, SHEET);
    withdraw(1, SHEET);
    add("one more", 650, SHEET);
    close_gaps(SHEET);
    add("one more", 650, SHEET);
    add("another", 660, SHEET);
}

/* A sheet for a title block: of two equal figures the first place is shown, closing moves it, and when both are gone the next one is the greatest. */
static void show_totals(void)
{
    totals(YAKEPUHI_SHEET);
    add("the gate", 300, SHEET);
    add("the pump house", 100, SHEET);
    add("the boiler house", 100, SHEET);
    add("the control room", 150, SHEET);
    withdraw(1, SHEET);
    close_gaps(SHEET);
    withdraw(1, SHEET);
    withdraw(2, SHEET);
    totals(YAKEPUHI_SHEET - 1);
    totals(YAKEPUHI_SHEET);
    withdraw(3, SHEET);
}

/* A sheet of both lengths; a case in standard air is read in 22 bytes, however it was added. */
static void show_mountains(void)
{
    add("the pump house", 100, SHEET);
    add_in_air("the pump house in air of 80000 Pa", 100, 8000);
    add_in_air("the pump house with 101300 Pa written out", 100, YAKEPUHI_STANDARD_AIR);
    add_in_air("the pump house in air of 110000 Pa", 100, YAKEPUHI_GREATEST_AIR);
    read_case(1, SHEET, AREA);
    read_case(2, SHEET, AREA);
    read_case(3, SHEET, AREA);
    read_case(2, SHEET, YAKEPUHI_LONG_FRAME);
    read_case(2, SHEET, YAKEPUHI_LONG_FRAME - 1);
    read_case(3, SHEET, YAKEPUHI_FRAME);
    withdraw(1, SHEET);
    withdraw(4, SHEET);
    close_gaps(SHEET);
    add_in_air("the pump house in air of 49990 Pa", 100, YAKEPUHI_LEAST_AIR - 1);
}

int main(void)
{
    empty_sheet();
    show_yard();
    show_refusals();
    printf("%d bytes behind the sheet kept\n", kept_marks(sheet, YAKEPUHI_SHEET, SHEET));
    empty_sheet();
    show_full();
    printf("%d bytes behind the sheet kept\n", kept_marks(sheet, YAKEPUHI_SHEET, SHEET));
    empty_sheet();
    show_totals();
    printf("%d bytes behind the sheet kept\n", kept_marks(sheet, YAKEPUHI_SHEET, SHEET));
    empty_sheet();
    show_mountains();
    printf("%d bytes behind the sheet kept\n", kept_marks(sheet, YAKEPUHI_SHEET, SHEET));
    return 0;
}
