/* The study sheet through the five entries for C. Reads lines; numbers are decimal, bytes are hexadecimal digits:
     S bytes                          the memory in which the calls after it have their sheet
     A sheet length bytes             add: the lengths told of the sheet and of the frame, and the bytes at the frame
     W sheet place                    withdraw
     C sheet                          close
     H sheet place area               the case at a place: the last number is the length told of the area
   Prints for each line but S the call's number, the number returned, the place told, and what changed in the sheet's memory, in the area and in
   the frame: the number of the first byte that did, a colon and the bytes from it to the last that did; - for none. Behind them what the call of
   the totals after it, of the same sheet, returns and tells, and last the upper end of the overpressure of a frame that is added; - for what keeps
   its mark. The sheet starts 32 bytes after its memory does; the area has 64 bytes, each 5F before a call. A call that has not returned after 20
   seconds ends the program. */
#define _POSIX_C_SOURCE 200809L
#include "yakepuhi.h"

#include <inttypes.h>
#include <stdio.h>
#include <stdlib.h>
#include <string.h>
#include <unistd.h>

enum { BEFORE = 32, PAST = 256, MEMORY = BEFORE + YAKEPUHI_SHEET + PAST, AREA = 64, MARK = 0x5F, SECONDS = 20 };

/* What a lent number holds before a call. */
#define MARK_NUMBER UINT64_C(0xEEEEEEEEEEEEEEEE)

/* All that is lent. */
struct lent {
    uint8_t memory[MEMORY], area[AREA], frame[AREA];
    uint64_t place;
};

/* What the totals are told as, and an upper end. */
struct totals {
    uint64_t returned, cases, greatest, place, lower, upper;
};

static struct lent now, before;

/* The number that a text begins with, and the text behind it and a space. */
static uint64_t number_at(const char **text)
{
    char *after;
    uint64_t n = strtoull(*text, &after, 10);
    *text = *after == ' ' ? after + 1 : after;
    return n;
}

/* The bytes that digits spell; 0 for a text of another kind. */
static int spell(const char *text, uint8_t *bytes, size_t room)
{
    static const char digits[] = "0123456789abcdef";
    size_t length = strcspn(text, "\n");
    if (length % 2 != 0 || length / 2 > room)
        return 0;
    for (size_t i = 0; i < length; i++) {
        const char *at = memchr(digits, text[i], sizeof digits - 1);
        if (at == NULL)
            return 0;
        bytes[i / 2] = (uint8_t)((i % 2 == 0 ? 0 : bytes[i / 2] << 4) | (at - digits));
    }
    return 1;
}

/* The number that a call returns; UINT64_MAX for a line that asks for none. */
static uint64_t called(char kind, const char *rest)
{
    uint8_t *sheet = now.memory + BEFORE;
    size_t told = number_at(&rest);
    uint64_t second = kind == 'C' ? 0 : number_at(&rest), third = kind == 'H' ? number_at(&rest) : 0;
    if (told > YAKEPUHI_SHEET + PAST || third > AREA || (kind == 'A' && (second > AREA || !spell(rest, now.frame, AREA))))
        return UINT64_MAX;
    memset(now.area, MARK, AREA);
    now.place = MARK_NUMBER;
    before = now;
    alarm(SECONDS);
    switch (kind) {
    case 'A': return yakepuhi_sheet_add(sheet, told, now.frame, (size_t)second, &now.place);
    case 'W': return yakepuhi_sheet_withdraw(sheet, told, second);
    case 'C': return yakepuhi_sheet_close(sheet, told);
    case 'H': return yakepuhi_sheet_case(sheet, told, second, now.area, (size_t)third);
    default: return UINT64_MAX;
    }
}

/* The totals after a call on a sheet of the length told, and the end of the frame that the call adds. */
static struct totals totalled(char kind, const char *rest)
{
    struct totals t = { 0, MARK_NUMBER, MARK_NUMBER, MARK_NUMBER, MARK_NUMBER, MARK_NUMBER };
    size_t told = number_at(&rest), length = kind == 'A' ? number_at(&rest) : 0;
    t.returned = yakepuhi_sheet_totals(now.memory + BEFORE, told, &t.cases, &t.greatest, &t.place);
    if (kind == 'A')
        (void)yakepuhi_overpressure(now.frame, length, &t.lower, &t.upper);
    return t;
}

static void print_number(uint64_t n)
{
    if (n == MARK_NUMBER)
        printf(" -");
    else
        printf(" %" PRIu64, n);
}

static void print_change(const uint8_t *was, const uint8_t *is, size_t length)
{
    size_t first = 0, end = length;
    while (first < length && was[first] == is[first])
        first++;
    while (end > first && was[end - 1] == is[end - 1])
        end--;
    if (first == end) {
        printf(" -");
        return;
    }
    printf(" %zu:", first);
    for (size_t i = first; i < end; i++)
        printf("%02x", is[i]);
}

static void print_record(uint64_t number, uint64_t returned, const struct totals *t)
{
    printf("%" PRIu64 " %" PRIu64, number, returned);
    print_number(now.place);
    print_change(before.memory, now.memory, MEMORY);
    print_change(before.area, now.area, AREA);
    print_change(before.frame, now.frame, AREA);
    print_number(t->returned);
    print_number(t->cases);
    print_number(t->greatest);
    print_number(t->place);
    print_number(t->upper);
    printf("\n");
}

int main(void)
{
    char *line = NULL;
    size_t room = 0;
    uint64_t number = 0;
    /* a call that does not return loses no record of those before it */
    setvbuf(stdout, NULL, _IOLBF, 0);
    while (getline(&line, &room, stdin) > 0) {
        int is_memory = line[0] == 'S';
        uint64_t returned = is_memory ? 0 : called(line[0], line + 2);
        if (returned == UINT64_MAX || (is_memory && !spell(line + 2, now.memory, MEMORY))) {
            fprintf(stderr, "after call %" PRIu64 ": no call\n", number);
            return 2;
        }
        if (!is_memory) {
            struct totals t = totalled(line[0], line + 2);
            print_record(++number, returned, &t);
        }
    }
    free(line);
    return fflush(stdout) != 0;
}
