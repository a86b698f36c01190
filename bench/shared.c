/* A case's line read and decided exactly, Table 3, and the records of reckon's output, for all peers alike. */
#include "shared.h"

#include <errno.h>
#include <string.h>
#include <unistd.h>

/* Table 1: beta in hundredths, 0 for the dash; substance 0 is unlisted. */
static const uint16_t BETA[76] = {
    0,
    110, 103, 273, 44, 41, 105, 25, 70, 62, 30,
    67, 62, 104, 100, 100, 100, 105, 104, 32, 108, 107, 100, 66, 77, 0, 77, 82,
    56, 65, 100, 51, 42, 100, 38, 100, 70, 53, 79, 76, 71, 100, 77, 34, 52, 62, 69, 0, 79, 69, 100, 46, 43, 100, 84, 9, 100, 80,
    42, 88, 100, 100, 42, 100, 100, 114, 100, 53, 12, 91, 23, 92, 52, 90, 25, 14,
};

/* Table 3: probits in hundredths, of 1 to 99 percent and then of 99.1 to 99.9. */
static const int16_t TABLE3[108] = {
    267, 295, 312, 325, 338, 345, 352, 359, 366, 372, 377, 382, 386, 392, 396, 401, 405, 408, 412, 416, 419, 423, 426, 429, 433,
    436, 439, 442, 445, 448, 450, 453, 456, 459, 461, 464, 467, 469, 472, 475, 477, 480, 482, 485, 487, 490, 492, 495, 497, 500,
    503, 505, 508, 510, 513, 515, 518, 520, 523, 525, 528, 531, 533, 536, 539, 541, 544, 547, 550, 552, 555, 558, 561, 564, 567,
    571, 574, 577, 581, 584, 588, 592, 595, 599, 604, 608, 613, 618, 623, 628, 634, 641, 648, 655, 664, 675, 688, 705, 733,
    737, 741, 746, 751, 758, 765, 775, 788, 809,
};

typedef unsigned __int128 wide;

int class_of(unsigned substance)
{
    return substance <= 10 ? 1 : substance <= 27 ? 2 : substance <= 57 ? 3 : 4;
}

unsigned beta_of(unsigned substance)
{
    return substance <= 75 ? BETA[substance] : 0;
}

int damage(int64_t thousandths)
{
    int low = 0, high = 108; /* the probits before `low` are not above, those from `high` on are */
    while (low < high) {
        int middle = (low + high) / 2;
        if (10 * (int64_t)TABLE3[middle] <= thousandths)
            low = middle + 1;
        else
            high = middle;
    }
    return low <= 99 ? 10 * low : 891 + low;
}

int rank_of_damage(int tenths)
{
    if (tenths >= 0 && tenths <= 990 && tenths % 10 == 0)
        return tenths / 10;
    return tenths >= 991 && tenths <= 999 ? tenths - 891 : -1;
}

static inline unsigned digit_of(uint8_t ch)
{
    if (ch >= '0' && ch <= '9')
        return ch - '0';
    ch |= 32; /* the letters of both cases; 'A' to 'F' and 'a' to 'f' alone end at 'a' to 'f' */
    return ch >= 'a' && ch <= 'f' ? ch - 'a' + 10u : 16u;
}

int spell(const uint8_t *line, size_t length, uint8_t frame[LONG_FRAME])
{
    unsigned seen = 0;
    for (size_t i = 0; i < length / 2; i++) {
        unsigned high = digit_of(line[2 * i]), low = digit_of(line[2 * i + 1]);
        seen |= high | low;
        frame[i] = (uint8_t)(high << 4 | (low & 15));
    }
    return seen < 16;
}

static inline uint32_t two(const uint8_t *b) { return (uint32_t)b[0] << 8 | b[1]; }
static inline uint32_t four(const uint8_t *b) { return two(b) << 16 | two(b + 2); }
static inline int outside(uint32_t x, uint32_t least, uint32_t most) { return x < least || x > most; }

int move_receptor(struct cloud *c, uint32_t distance)
{
    /* The cube of Rx is r^3 P0/E with r in metres; in millionths, r^3 P0 parts/joules with r in centimetres. */
    wide cube = (wide)((uint64_t)distance * distance * distance) * ((uint64_t)c->air * c->parts * (c->aerosol ? 4 : 1));
    wide joules = (wide)c->joules * (c->aerosol ? 3 : 1);
    c->distance = distance;
    c->near = cube < joules * (c->state == 0 ? 8000 : 15625);
    c->under = cube < joules * 39304;
    return cube > joules * 13824000000u ? 7 : 0;
}

int decide_frame(const uint8_t *frame, size_t length, struct cloud *c)
{
    if (length != FRAME && length != LONG_FRAME)
        return 1;
    unsigned substance = frame[0], state = frame[1], placement = frame[2], surroundings = frame[3];
    uint32_t mass = four(frame + 4), mean = two(frame + 8), stoichiometric = two(frame + 10);
    uint32_t heat = four(frame + 12), distance = four(frame + 16), body = two(frame + 20);
    uint32_t air = length == FRAME ? STANDARD_AIR : two(frame + 22);
    if (substance > 75)
        return 3;
    if (state > 1)
        return 12;
    if (placement > 1)
        return 13;
    if (outside(surroundings, 1, 4))
        return 14;
    if (outside(mass, 1, 1000000000) || outside(mean, 1, 50000) || outside(stoichiometric, 1, 50000) || heat > 150000
        || outside(distance, 1, 1000000) || outside(body, 1, 500) || outside(air, LEAST_AIR, GREATEST_AIR))
        return 5;
    if (heat == 0 && BETA[substance] == 0)
        return 6;
    if (heat == 0)
        heat = 440u * BETA[substance];
    int sum = class_of(substance) + (int)surroundings;
    c->range = sum > 2 ? sum - 2 : 1;
    c->state = (int)state;
    c->aerosol = state == 1 && c->range > 1;
    c->joules = (uint64_t)mass * heat * (1 + placement);
    c->parts = 1;
    if (mean > stoichiometric) {
        c->joules *= stoichiometric;
        c->parts = mean;
    }
    c->mass = mass;
    c->body = body;
    c->air = 10 * air;
    return move_receptor(c, distance);
}

int decide_line(const uint8_t *line, size_t length, struct cloud *c)
{
    uint8_t frame[LONG_FRAME];
    if (length != LINE && length != LONG_LINE)
        return 1;
    if (!spell(line, length, frame))
        return 2;
    return decide_frame(frame, length / 2, c);
}

/* ---- the records */

enum { BLOCK = 1 << 16, RECORD = 20 + 3 + 2 * ANSWER };

static uint8_t in[BLOCK], out[BLOCK];
static size_t pending;
static uint64_t number;
static uint8_t pairs[256][2];

static void put4(uint8_t *at, int64_t value)
{
    uint32_t w = (uint32_t)value;
    at[0] = (uint8_t)(w >> 24);
    at[1] = (uint8_t)(w >> 16);
    at[2] = (uint8_t)(w >> 8);
    at[3] = (uint8_t)w;
}

static void put2(uint8_t *at, int value)
{
    at[0] = (uint8_t)(value >> 8);
    at[1] = (uint8_t)value;
}

static void put_figures(uint8_t area[ANSWER], int range, const struct figures *f)
{
    area[0] = (uint8_t)range;
    for (int end = 0; end < 2; end++) {
        put4(area + 1 + 4 * end, f->pressure[end]);
        put4(area + 9 + 4 * end, f->impulse[end]);
        for (int i = 0; i < PROBITS; i++) {
            put4(area + 17 + 8 * i + 4 * end, f->probit[i][end]);
            put2(area + 57 + 4 * i + 2 * end, damage(f->probit[i][end]));
        }
    }
}

static int flush(void)
{
    size_t done = 0;
    while (done < pending) {
        ssize_t put = write(1, out + done, pending - done);
        if (put < 0 && errno == EINTR)
            continue;
        if (put <= 0)
            return 0;
        done += (size_t)put;
    }
    pending = 0;
    return 1;
}

static uint8_t *put_decimal(uint8_t *at, uint64_t n)
{
    uint8_t digits[20];
    int count = 0;
    do
        digits[count++] = (uint8_t)('0' + n % 10);
    while ((n /= 10) > 0);
    while (count > 0)
        *at++ = digits[--count];
    return at;
}

static int put_record(const uint8_t *line, size_t length, worker *work)
{
    if (BLOCK - pending < RECORD && !flush())
        return 0;
    struct cloud c;
    int refusal = decide_line(line, length, &c);
    uint8_t *at = put_decimal(out + pending, ++number);
    *at++ = ' ';
    if (refusal > 0) {
        *at++ = 'R';
        at = put_decimal(at, (uint64_t)refusal);
    } else {
        struct figures f;
        uint8_t area[ANSWER];
        work(&c, &f);
        put_figures(area, c.range, &f);
        *at++ = 'A';
        for (int i = 0; i < ANSWER; i++, at += 2)
            memcpy(at, pairs[area[i]], 2);
    }
    *at++ = '\n';
    pending = (size_t)(at - out);
    return 1;
}

/* A line that a read cut: the start of it, of which a 49th character shows that it is too long. */
static uint8_t held[LONG_LINE + 1];
static size_t held_length;
static int open_line;

static void hold(const uint8_t *at, size_t part)
{
    size_t room = sizeof held - held_length, take = part < room ? part : room;
    memcpy(held + held_length, at, take);
    held_length += take;
    open_line = 1;
}

static int put_held(worker *work)
{
    size_t length = held_length;
    held_length = 0;
    open_line = 0;
    return put_record(held, length, work);
}

/* The records of the lines that end within a part of the input. */
static int feed(const uint8_t *at, const uint8_t *end, worker *work)
{
    while (at < end) {
        const uint8_t *lf = memchr(at, '\n', (size_t)(end - at)), *stop = lf ? lf : end;
        if (lf && !open_line) {
            if (!put_record(at, (size_t)(stop - at), work))
                return 0;
        } else {
            hold(at, (size_t)(stop - at));
            if (lf && !put_held(work))
                return 0;
        }
        at = lf ? lf + 1 : end;
    }
    return 1;
}

int serve(worker *work)
{
    for (int b = 0; b < 256; b++)
        memcpy(pairs[b], (uint8_t[2]){ "0123456789ABCDEF"[b >> 4], "0123456789ABCDEF"[b & 15] }, 2);
    for (;;) {
        ssize_t got = read(0, in, BLOCK);
        if (got < 0 && errno == EINTR)
            continue;
        if (got < 0)
            return 1;
        if (got == 0)
            break;
        if (!feed(in, in + got, work))
            return 1;
    }
    if (open_line && !put_held(work))
        return 1;
    return !flush();
}
