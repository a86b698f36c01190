/* Holds reckon's records against a peer's: `compare LINES RECKON PEER meet|inside`.
   Every verdict is worked anew from the line; reckon's intervals are held to the widths and its damages to its own ends;
   the peer's intervals must meet reckon's, or lie inside them, which also counts those of reckon's that are wider. Exit status 0 where nothing is wrong. */
#include "shared.h"

#include <stdio.h>
#include <stdlib.h>
#include <string.h>

struct record {
    int refusal; /* 0: answered */
    int range;
    struct figures f;
    int damage[PROBITS][2];
};

enum { FIGURES = 2 + PROBITS };
static const char *const names[FIGURES] = { "pressure", "impulse", "Pr1", "Pr2", "Pr3", "Pr4", "Pr5" };

static uint64_t faults, number;

/* Answers whose seven intervals are the peer's, and intervals of each figure that are not. */
static uint64_t equal, wider[FIGURES];

static void fault(const char *what)
{
    if (++faults <= 20)
        printf("line %llu: %s\n", (unsigned long long)number, what);
}

static int64_t four(const uint8_t *b) { return (int64_t)b[0] << 24 | b[1] << 16 | b[2] << 8 | b[3]; }
static int64_t four_signed(const uint8_t *b) { return (int32_t)(uint32_t)four(b); }

/* One record, of the line with this number; 0 where it has another form. */
static int parse(const char *text, size_t length, struct record *r)
{
    char head[24];
    size_t n = (size_t)sprintf(head, "%llu ", (unsigned long long)number);
    if (length < n + 2 || memcmp(text, head, n) != 0)
        return 0;
    text += n, length -= n;
    if (text[0] == 'R') {
        r->refusal = length == 2 ? text[1] - '0' : 10 * (text[1] - '0') + text[2] - '0';
        return length == 2 || (length == 3 && text[1] == '1');
    }
    if (text[0] != 'A' || length != 1 + 2 * ANSWER)
        return 0;
    uint8_t b[ANSWER];
    for (int i = 0; i < ANSWER; i++) {
        const char *digits = "0123456789ABCDEF", *high = strchr(digits, text[1 + 2 * i]), *low = strchr(digits, text[2 + 2 * i]);
        if (!high || !low || !*high || !*low)
            return 0;
        b[i] = (uint8_t)((high - digits) << 4 | (low - digits));
    }
    r->refusal = 0;
    r->range = b[0];
    for (int end = 0; end < 2; end++) {
        r->f.pressure[end] = four(b + 1 + 4 * end);
        r->f.impulse[end] = four(b + 9 + 4 * end);
        for (int i = 0; i < PROBITS; i++) {
            r->f.probit[i][end] = four_signed(b + 17 + 8 * i + 4 * end);
            r->damage[i][end] = b[57 + 4 * i + 2 * end] << 8 | b[58 + 4 * i + 2 * end];
        }
    }
    return 1;
}

static void hold(const int64_t ours[2], const int64_t theirs[2], int inside, const char *name)
{
    char what[200];
    int good = inside ? ours[0] <= theirs[0] && theirs[1] <= ours[1] : ours[0] <= theirs[1] && theirs[0] <= ours[1];
    if (good)
        return;
    sprintf(what, "%s: the peer has [%lld, %lld], reckon [%lld, %lld]", name, (long long)theirs[0], (long long)theirs[1], (long long)ours[0],
            (long long)ours[1]);
    fault(what);
}

/* An answer's own rules: ends in order, widths, damages. */
static void rules(const struct record *r)
{
    const int64_t *wave[2] = { r->f.pressure, r->f.impulse };
    for (int i = 0; i < 2; i++)
        if (wave[i][0] > wave[i][1] || WAVE_WIDTH * (wave[i][1] - wave[i][0]) > 2 * WAVE_WIDTH + wave[i][0])
            fault(i == 0 ? "the pressure's interval is out of order or too wide" : "the impulse's interval is out of order or too wide");
    for (int i = 0; i < PROBITS; i++) {
        const int64_t *p = r->f.probit[i];
        const int *d = r->damage[i];
        if (p[0] > p[1] || p[1] - p[0] > 2)
            fault("a probit's interval is out of order or too wide");
        if (d[0] != damage(p[0]) || d[1] != damage(p[1]))
            fault("a damage is not the reading at its probit's end");
        if (rank_of_damage(d[0]) < 0 || rank_of_damage(d[1]) - rank_of_damage(d[0]) > 1)
            fault("two damages are neither equal nor neighbours");
    }
}

static FILE *open_or_end(const char *path)
{
    FILE *file = fopen(path, "rb");
    if (!file) {
        perror(path);
        exit(2);
    }
    return file;
}

/* The next line of a file without its LF; -1 at the end. */
static ssize_t next_line(FILE *file, char **text, size_t *room)
{
    ssize_t length = getline(text, room, file);
    return length > 0 && (*text)[length - 1] == '\n' ? length - 1 : length;
}

static const int64_t *figure(const struct figures *f, int n) { return n == 0 ? f->pressure : n == 1 ? f->impulse : f->probit[n - 2]; }

/* reckon's answer against the peer's. */
static void hold_answers(const struct record *ours, const struct record *theirs, int inside)
{
    int same = 1;
    rules(ours);
    for (int n = 0; n < FIGURES; n++) {
        const int64_t *a = figure(&ours->f, n), *b = figure(&theirs->f, n);
        hold(a, b, inside, names[n]);
        if (a[0] != b[0] || a[1] != b[1])
            wider[n]++, same = 0;
    }
    equal += (uint64_t)same;
}

/* A line and its two records; gives the line's refusal, 0 for none. */
static int hold_line(char *const text[3], const ssize_t length[3], int inside)
{
    struct record ours, theirs;
    struct cloud c;
    int refusal = decide_line((const uint8_t *)text[0], (size_t)length[0], &c);
    if (!parse(text[1], (size_t)length[1], &ours) || !parse(text[2], (size_t)length[2], &theirs))
        fault("a record has another form");
    else if (ours.refusal != refusal || theirs.refusal != refusal)
        fault("the verdicts differ");
    else if (refusal == 0) {
        if (ours.range != c.range || theirs.range != c.range)
            fault("the speed ranges differ");
        hold_answers(&ours, &theirs, inside);
    }
    return refusal;
}

/* The next line of each file; 0 at their end. */
static int next_lines(FILE *const file[3], char *text[3], size_t room[3], ssize_t length[3])
{
    int left = 0;
    for (int i = 0; i < 3; i++)
        left += (length[i] = next_line(file[i], &text[i], &room[i])) >= 0;
    if (left > 0)
        number++;
    if (left == 1 || left == 2)
        fault("the three files have different counts of lines");
    return left == 3;
}

/* How often reckon's ends are the peer's own: at 256 bits, the exact floor and ceiling. */
static void count_ends(uint64_t answered)
{
    printf("exact ends: %llu of %llu frames, %.2f %%; wider", (unsigned long long)equal, (unsigned long long)answered, 100.0 * (double)equal / (double)answered);
    for (int n = 0; n < FIGURES; n++)
        printf(" %s:%llu", names[n], (unsigned long long)wider[n]);
    printf("\n");
}

int main(int count, char **words)
{
    if (count != 5 || (strcmp(words[4], "meet") && strcmp(words[4], "inside")))
        return fprintf(stderr, "compare LINES RECKON PEER meet|inside\n"), 2;
    FILE *file[3];
    char *text[3] = { 0 };
    size_t room[3] = { 0 };
    ssize_t length[3];
    uint64_t verdicts[15] = { 0 };
    int inside = strcmp(words[4], "inside") == 0;
    for (int i = 0; i < 3; i++)
        file[i] = open_or_end(words[1 + i]);
    while (next_lines(file, text, room, length))
        verdicts[hold_line(text, length, inside)]++;
    printf("%llu lines, %llu accepted, refused", (unsigned long long)number, (unsigned long long)verdicts[0]);
    static const int order[] = { 1, 2, 3, 12, 13, 14, 5, 6, 7 };
    for (size_t i = 0; i < sizeof order / sizeof *order; i++)
        printf(" %d:%llu", order[i], (unsigned long long)verdicts[order[i]]);
    printf("; %llu faults\n", (unsigned long long)faults);
    if (inside && verdicts[0] > 0)
        count_ends(verdicts[0]);
    return faults > 0;
}
