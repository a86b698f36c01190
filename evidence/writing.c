/* Frames written and cases spelled through the three entries for C. A line asks for one: the way (1 from fields, 2 a frame spelled, 3 a line
   spelled), the room of the area, and eleven numbers, the digits of a frame, or a line as it stands; a single space between any two. Prints the
   line's number, what was returned and, if the area is not as it was, its bytes up to the last that differs: after way 1 in upper-case digits,
   else as they stand. A line that asks for nothing ends it with status 2. */
#define _POSIX_C_SOURCE 200809L
#include "yakepuhi.h"

#include <inttypes.h>
#include <stdio.h>
#include <stdlib.h>
#include <string.h>

/* The mark is no digit, so a spelling shows whole. The longest frame has two bytes more than one with its air pressure, and a number has at most 19
   places. */
enum { FIELDS = 1, FRAME = 2, LINE = 3, AREA = 52, MARK = 0x5F, LONGEST = 26, NUMBERS = 11, PLACES = 19 };

/* Above every number of 19 digits. */
#define NONE UINT64_MAX

/* The number at the start of a text that goes on with a given character; the text is moved behind both. */
static uint64_t number_at(const char **text, char next)
{
    size_t digits = strspn(*text, "0123456789");
    if (digits == 0 || digits > PLACES || (*text)[digits] != next)
        return NONE;
    uint64_t n = strtoull(*text, NULL, 10);
    *text += digits + 1;
    return n;
}

/* Whether a text is eleven numbers and nothing else. */
static int is_fields(const char *text, size_t length, uint64_t n[NUMBERS])
{
    const char *rest = text;
    for (size_t i = 0; i < NUMBERS; i++)
        if ((n[i] = number_at(&rest, i + 1 < NUMBERS ? ' ' : '\0')) == NONE)
            return 0;
    return rest == text + length + 1;
}

/* Whether a text is the digits of up to 26 bytes. */
static int is_frame(const char *text, size_t length, uint8_t frame[LONGEST])
{
    static const char digits[] = "0123456789abcdef0123456789ABCDEF";
    if (length % 2 != 0 || length > 2 * LONGEST)
        return 0;
    for (size_t i = 0; i < length; i++) {
        const char *at = memchr(digits, text[i], sizeof digits - 1);
        if (at == NULL)
            return 0;
        uint8_t digit = (uint8_t)((at - digits) & 15);
        frame[i / 2] = (uint8_t)(i % 2 == 0 ? digit << 4 : frame[i / 2] | digit);
    }
    return 1;
}

static void print_area(uint64_t way, const uint8_t area[AREA])
{
    size_t end = AREA;
    while (end > 0 && area[end - 1] == MARK)
        end--;
    if (end > 0)
        putchar(' ');
    for (size_t i = 0; i < end; i++)
        printf(way == FIELDS ? "%02X" : "%c", area[i]);
}

/* Answers and prints what a line asks for; 0 where it asks for nothing. */
static int answer(const char *text, size_t length)
{
    uint8_t area[AREA], frame[LONGEST];
    uint64_t n[NUMBERS], number;
    const char *rest = text;
    uint64_t way = number_at(&rest, ' '), room = number_at(&rest, ' ');
    if (room > AREA)
        return 0;
    length -= (size_t)(rest - text);
    memset(area, MARK, sizeof area);
    if (way == FIELDS && is_fields(rest, length, n))
        number = yakepuhi_frame_from_fields(n[0], n[1], n[2], n[3], n[4], n[5], n[6], n[7], n[8], n[9], n[10], area, (size_t)room);
    else if (way == FRAME && is_frame(rest, length, frame))
        number = yakepuhi_spell_frame(frame, length / 2, area, (size_t)room);
    else if (way == LINE)
        number = yakepuhi_spell_line((const uint8_t *)rest, length, area, (size_t)room);
    else
        return 0;
    printf(" %" PRIu64, number);
    print_area(way, area);
    return 1;
}

int main(void)
{
    char *text = NULL;
    size_t room = 0;
    ssize_t length;
    for (uint64_t number = 1; (length = getline(&text, &room, stdin)) > 0; number++) {
        if (text[length - 1] == '\n')
            text[--length] = '\0';
        printf("%" PRIu64, number);
        if (!answer(text, (size_t)length)) {
            fprintf(stderr, "line %" PRIu64 " asks for nothing\n", number);
            return 2;
        }
        putchar('\n');
    }
    free(text);
    return fflush(stdout) != 0;
}
