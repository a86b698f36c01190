/* The rules of cases through the entry for C. Reads lines and prints for each its number and the answer from the frame that it spells, - where it
   is not 44 or 48 hexadecimal digits. A space and a number behind the digits: the length that the entry is told, up to 64, in place of 22 or 24;
   the bytes behind those of the digits are 0.
   An answer is the rule of the overpressure, a comma and the rule of the impulse, or R and the refusal's number; `changed` where a refusal gave
   a lent number another value. */
#define _POSIX_C_SOURCE 200809L
#include "yakepuhi.h"

#include <inttypes.h>
#include <stdio.h>
#include <stdlib.h>
#include <string.h>

/* What the two lent numbers hold before a call: no rules. */
#define MARK_PRESSURE UINT64_C(0xEEEEEEEEEEEEEEEE)
#define MARK_IMPULSE UINT64_C(0xDDDDDDDDDDDDDDDD)

/* The bytes of a frame without and with its air pressure, and those that are lent. */
enum { SHORT = 22, LONG = 24, ROOM = 64 };

/* The bytes that the digits of a line spell; 0 for any other character among them. */
static int spell(const char *line, size_t length, uint8_t frame[ROOM])
{
    static const char digits[] = "0123456789abcdef0123456789ABCDEF";
    for (size_t i = 0; i < length; i++) {
        const char *at = memchr(digits, line[i], sizeof digits - 1);
        if (at == NULL)
            return 0;
        uint8_t digit = (uint8_t)((at - digits) & 15);
        frame[i / 2] = (uint8_t)(i % 2 == 0 ? digit << 4 : frame[i / 2] | digit);
    }
    return 1;
}

/* How many digits a line has: all its characters, or those before its first space. */
static size_t digits_of(const char *line, size_t length)
{
    const char *space = memchr(line, ' ', length);
    return space == NULL ? length : (size_t)(space - line);
}

/* The length that a line tells; past ROOM for a line of another form. */
static size_t told_length(const char *line, size_t length, size_t digits)
{
    if (digits != 2 * SHORT && digits != 2 * LONG)
        return ROOM + 1;
    return length == digits ? digits / 2 : strtoul(line + digits + 1, NULL, 10);
}

static void print_answer(const char *line, size_t length)
{
    uint8_t frame[ROOM] = { 0 };
    uint64_t pressure = MARK_PRESSURE, impulse = MARK_IMPULSE;
    size_t digits = digits_of(line, length), told = told_length(line, length, digits);
    if (told > ROOM || !spell(line, digits, frame)) {
        printf(" -\n");
        return;
    }
    uint64_t refusal = yakepuhi_rules(frame, told, &pressure, &impulse);
    if (refusal == 0)
        printf(" %" PRIu64 ",%" PRIu64 "\n", pressure, impulse);
    else if (pressure != MARK_PRESSURE || impulse != MARK_IMPULSE)
        printf(" changed\n");
    else
        printf(" R%" PRIu64 "\n", refusal);
}

int main(void)
{
    char *line = NULL;
    size_t room = 0;
    ssize_t length;
    for (uint64_t number = 1; (length = getline(&line, &room, stdin)) > 0; number++) {
        printf("%" PRIu64, number);
        print_answer(line, (size_t)length - (line[length - 1] == '\n'));
    }
    free(line);
    return fflush(stdout) != 0;
}
