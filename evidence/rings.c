/* Rings through both entries for C. Reads requests, a line each: a threshold in decimal, a space, a case's line. Prints for each its number,
   the answer from the line, and the answer from the frame that the line spells, - where it is not 44 or 48 hexadecimal digits.
   An answer is inner..outer, or R and the refusal's number; `changed` where a refusal gave a lent number another value. */
#define _POSIX_C_SOURCE 200809L
#include "yakepuhi.h"

#include <inttypes.h>
#include <stdio.h>
#include <stdlib.h>
#include <string.h>

/* What the two lent numbers hold before a call: no distances. */
#define MARK_INNER UINT64_C(0xEEEEEEEEEEEEEEEE)
#define MARK_OUTER UINT64_C(0xDDDDDDDDDDDDDDDD)

static void print_answer(uint64_t refusal, uint64_t inner, uint64_t outer)
{
    if (refusal == 0)
        printf(" %" PRIu64 "..%" PRIu64, inner, outer);
    else if (inner != MARK_INNER || outer != MARK_OUTER)
        printf(" changed");
    else
        printf(" R%" PRIu64, refusal);
}

/* The bytes of a frame without and with its air pressure. */
enum { SHORT = 22, LONG = 24 };

/* The bytes that 44 or 48 hexadecimal digits spell; 0 for any other line. */
static int spell(const char *line, size_t length, uint8_t frame[LONG])
{
    static const char digits[] = "0123456789abcdef0123456789ABCDEF";
    if (length != 2 * SHORT && length != 2 * LONG)
        return 0;
    for (size_t i = 0; i < length; i++) {
        const char *at = memchr(digits, line[i], sizeof digits - 1);
        if (at == NULL)
            return 0;
        uint8_t digit = (uint8_t)((at - digits) & 15);
        frame[i / 2] = (uint8_t)(i % 2 == 0 ? digit << 4 : frame[i / 2] | digit);
    }
    return 1;
}

static void answer(const char *line, size_t length, uint64_t threshold)
{
    uint8_t frame[LONG];
    uint64_t inner = MARK_INNER, outer = MARK_OUTER;
    uint64_t refusal = yakepuhi_ring_from_line((const uint8_t *)line, length, threshold, &inner, &outer);
    print_answer(refusal, inner, outer);
    if (spell(line, length, frame)) {
        inner = MARK_INNER, outer = MARK_OUTER;
        refusal = yakepuhi_ring_from_frame(frame, length / 2, threshold, &inner, &outer);
        print_answer(refusal, inner, outer);
    } else
        printf(" -");
}

int main(void)
{
    char *text = NULL, *line;
    size_t room = 0;
    ssize_t length;
    for (uint64_t number = 1; (length = getline(&text, &room, stdin)) > 0; number++) {
        size_t end = (size_t)length - (text[length - 1] == '\n');
        uint64_t threshold = strtoull(text, &line, 10);
        if (line == text || *line != ' ') {
            fprintf(stderr, "request %" PRIu64 " has no threshold\n", number);
            return 2;
        }
        printf("%" PRIu64, number);
        line++;
        answer(line, end - (size_t)(line - text), threshold);
        printf("\n");
    }
    free(text);
    return fflush(stdout) != 0;
}
