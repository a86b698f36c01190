/* Sheets stored by column and turned back, through the two entries for C. Reads lines; numbers are decimal, bytes are hexadecimal digits:
     M bytes                  the memory in which the calls after it have their sheet
     S sheet room             stores the sheet: the lengths told of the sheet and of the area
     B length room bytes      turns back: the lengths told of the stored bytes and of the area, and the bytes that lie there
   Prints for each line but M the call's number, the number returned, and what changed in the memory of the sheet, of the area and of the stored
   bytes: the number of the first byte that did, a colon and the bytes from it to the last that did; - for none. What is lent starts 32 bytes after
   its memory does, and 256 lie behind the most that can be told of it. All bytes of the area's memory are 5F before a call, and what a call changed
   is put back before the next. A call that has not returned after 20 seconds ends the program. */
#define _POSIX_C_SOURCE 200809L
#include "yakepuhi.h"

#include <inttypes.h>
#include <stdio.h>
#include <stdlib.h>
#include <string.h>
#include <unistd.h>

/* The stored bytes have room for 255 frames, the most that a first byte can say, and for some bytes behind them. */
enum { BEFORE = 32, PAST = 256, ROOM = 1600, STORED = 6400, MARK = 0x5F, SECONDS = 20 };

/* All that is lent, and what lies around it. */
struct lent {
    uint8_t sheet[BEFORE + YAKEPUHI_SHEET + PAST], area[BEFORE + ROOM + PAST], stored[BEFORE + STORED + PAST];
};

static struct lent given, now;

/* The number that a text begins with, and the text behind it and a space. */
static uint64_t number_at(const char **text)
{
    char *after;
    uint64_t n = strtoull(*text, &after, 10);
    *text = *after == ' ' ? after + 1 : after;
    return n;
}

/* The bytes that digits spell; 0 for a text of another kind. */
static int spell(const char *text, uint8_t *bytes, size_t room)
{
    static const char digits[] = "0123456789abcdef";
    size_t length = strcspn(text, "\n");
    if (length % 2 != 0 || length / 2 > room)
        return 0;
    for (size_t i = 0; i < length; i++) {
        const char *at = memchr(digits, text[i], sizeof digits - 1);
        if (at == NULL)
            return 0;
        bytes[i / 2] = (uint8_t)((i % 2 == 0 ? 0 : bytes[i / 2] << 4) | (at - digits));
    }
    return 1;
}

/* The number that a call returns; UINT64_MAX for a line that asks for none. */
static uint64_t called(char kind, const char *rest)
{
    uint64_t told = number_at(&rest), room = number_at(&rest);
    if (room > ROOM || told > (kind == 'S' ? YAKEPUHI_SHEET + PAST : STORED) || (kind == 'B' && !spell(rest, given.stored + BEFORE, STORED)))
        return UINT64_MAX;
    now = given;
    alarm(SECONDS);
    switch (kind) {
    case 'S': return yakepuhi_columns_from_sheet(now.sheet + BEFORE, (size_t)told, now.area + BEFORE, (size_t)room);
    case 'B': return yakepuhi_frames_from_columns(now.stored + BEFORE, (size_t)told, now.area + BEFORE, (size_t)room);
    default: return UINT64_MAX;
    }
}

static void print_change(const uint8_t *was, const uint8_t *is, size_t length)
{
    size_t first = 0, end = length;
    while (first < length && was[first] == is[first])
        first++;
    while (end > first && was[end - 1] == is[end - 1])
        end--;
    if (first == end) {
        printf(" -");
        return;
    }
    printf(" %zu:", first);
    for (size_t i = first; i < end; i++)
        printf("%02x", is[i]);
}

static void print_record(uint64_t number, uint64_t returned)
{
    printf("%" PRIu64 " %" PRIu64, number, returned);
    print_change(given.sheet, now.sheet, sizeof now.sheet);
    print_change(given.area, now.area, sizeof now.area);
    print_change(given.stored, now.stored, sizeof now.stored);
    printf("\n");
}

int main(void)
{
    char *line = NULL;
    size_t room = 0;
    uint64_t number = 0;
    memset(given.area, MARK, sizeof given.area);
    /* a call that does not return loses no record of those before it */
    setvbuf(stdout, NULL, _IOLBF, 0);
    while (getline(&line, &room, stdin) > 0) {
        int is_memory = line[0] == 'M';
        uint64_t returned = is_memory ? 0 : called(line[0], line + 2);
        if (returned == UINT64_MAX || (is_memory && !spell(line + 2, given.sheet, sizeof given.sheet))) {
            fprintf(stderr, "after call %" PRIu64 ": no call\n", number);
            return 2;
        }
        if (!is_memory)
            print_record(++number, returned);
    }
    free(line);
    return fflush(stdout) != 0;
}
