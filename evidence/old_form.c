/* The old stored form through both entries for C. Reads requests, a line each: the way, 1 in or 2 back, a space, the room of the area in
   decimal, a space, then an old line as it stands, or a frame in hexadecimal digits. Prints for each its number, the number returned and,
   where the area changed, its bytes up to the last that did: from the way in as upper-case digits, from the way back as they stand. */
#define _POSIX_C_SOURCE 200809L
#include "yakepuhi.h"

#include <inttypes.h>
#include <stdio.h>
#include <stdlib.h>
#include <string.h>

/* The area's mark is no hexadecimal digit. A frame may be two bytes longer than one with its air pressure. */
enum { IN = 1, BACK = 2, AREA = 120, MARK = 0x5F, LONGEST = 26 };

/* The number and the space after it that a text begins with; -1 for another text. */
static long number_at(char **text)
{
    char *after;
    long n = strtol(*text, &after, 10);
    if (after == *text || *after != ' ')
        return -1;
    *text = after + 1;
    return n;
}

/* The bytes that digits spell; more than the longest for a text of another kind. */
static size_t spell(const char *text, size_t length, uint8_t frame[LONGEST])
{
    static const char digits[] = "0123456789abcdef0123456789ABCDEF";
    if (length % 2 != 0 || length > 2 * LONGEST)
        return LONGEST + 1;
    for (size_t i = 0; i < length; i++) {
        const char *at = memchr(digits, text[i], sizeof digits - 1);
        if (at == NULL)
            return LONGEST + 1;
        uint8_t digit = (uint8_t)((at - digits) & 15);
        frame[i / 2] = (uint8_t)(i % 2 == 0 ? digit << 4 : frame[i / 2] | digit);
    }
    return length / 2;
}

static void print_area(long way, const uint8_t area[AREA])
{
    size_t end = AREA;
    while (end > 0 && area[end - 1] == MARK)
        end--;
    if (end > 0)
        putchar(' ');
    if (way == BACK)
        fwrite(area, 1, end, stdout);
    else
        for (size_t i = 0; i < end; i++)
            printf("%02X", area[i]);
}

/* One request answered and printed; 0 where it is none. */
static int answer(char *text, size_t length)
{
    uint8_t area[AREA], frame[LONGEST];
    char *rest = text;
    long way = number_at(&rest), room = number_at(&rest);
    if (way < IN || way > BACK || room < 0 || room > AREA)
        return 0;
    length -= (size_t)(rest - text);
    size_t bytes = way == BACK ? spell(rest, length, frame) : 0;
    if (bytes > LONGEST)
        return 0;
    memset(area, MARK, sizeof area);
    uint64_t number = way == IN ? yakepuhi_frame_from_old((const uint8_t *)rest, length, area, (size_t)room)
                                : yakepuhi_old_from_frame(frame, bytes, area, (size_t)room);
    printf(" %" PRIu64, number);
    print_area(way, area);
    return 1;
}

int main(void)
{
    char *text = NULL;
    size_t room = 0;
    ssize_t length;
    for (uint64_t number = 1; (length = getline(&text, &room, stdin)) > 0; number++) {
        printf("%" PRIu64, number);
        if (!answer(text, (size_t)length - (text[length - 1] == '\n'))) {
            fprintf(stderr, "request %" PRIu64 " is none\n", number);
            return 2;
        }
        printf("\n");
    }
    free(text);
    return fflush(stdout) != 0;
}
