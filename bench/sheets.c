/* Times the study sheet, one call an operation, storing its cases by column among them: proved, and in plain C on fields in memory, on lent bytes at
   the place at hand, and on lent bytes that each call unpacks and packs whole, as the proved one does. Plain C keeps the upper ends of plain doubles. `sheets ROUNDS` reads the lines of
   its cases from standard input. */
#include "plain_double.h"
#include "turns.h"
#include "yakepuhi.h"

#include <math.h>
#include <stdio.h>
#include <stdlib.h>
#include <string.h>

enum { SHEET = YAKEPUHI_SHEET, PLACES = YAKEPUHI_PLACES, PLACE = SHEET / PLACES, HALF = PLACES / 2, KINDS = 4, TASKS = 7, MARK = 0xEE };

/* The upper end, 4 bytes, lies in a place behind the tag and the shorter frame, and the air pressure behind it, 2 bytes, 0 for the standard one. */
enum { END = 1 + FRAME, AIR_AT = END + 4 };

static struct frame *frames;
static size_t cases;
static uint64_t sum; /* what the calls gave, so that none is left out */

/* Tests 1 to 7, which the peers make alike, and the upper end of an accepted case. */
static uint64_t refusal_of(const uint8_t *frame, size_t length, struct cloud *c) { return (uint64_t)decide_frame(frame, length, c); }
static uint32_t end_of(const struct cloud *c) { return (uint32_t)ceil(overpressure(c)); }

struct totals {
    uint64_t cases, greatest, place; /* the first place that has the greatest end, 0 for none */
};

/* One case more, behind the others. */
static void include(struct totals *t, uint64_t place, uint32_t end)
{
    if (t->cases++ == 0 || t->greatest < end) {
        t->greatest = end;
        t->place = place;
    }
}

/* ---- frames of 24 bytes by column, and back */

static uint64_t put_columns(const uint8_t *rows, size_t count, uint8_t *area)
{
    *area++ = (uint8_t)count;
    for (size_t column = 0; column < LONG_FRAME; column++)
        for (size_t row = 0; row < count; row++)
            *area++ = rows[LONG_FRAME * row + column];
    return 0;
}

static uint64_t plain_restore(const uint8_t *stored, size_t length, uint8_t *area)
{
    if (length == 0 || stored[0] > PLACES || length != 1 + LONG_FRAME * (size_t)stored[0])
        return 20;
    size_t count = *stored++;
    for (size_t row = 0; row < count; row++)
        for (size_t column = 0; column < LONG_FRAME; column++)
            *area++ = stored[count * column + row];
    return 0;
}

/* ---- a sheet of fields in memory */

struct fields {
    uint8_t substance, state, placement, surroundings;
    uint16_t mean, stoichiometric, body, air; /* 0 for the standard air */
    uint32_t mass, heat, distance;
};

struct place {
    int held;
    uint32_t end;
    struct fields fields;
};

struct memory {
    uint64_t last; /* the last place that holds a case, 0 for none */
    struct totals totals;
    struct place places[PLACES];
};

static uint32_t number_at(const uint8_t *from, int size)
{
    uint32_t n = 0;
    for (int i = 0; i < size; i++)
        n = n << 8 | from[i];
    return n;
}

static void put_number(uint8_t *to, int size, uint32_t n)
{
    for (int i = 0; i < size; i++)
        to[i] = (uint8_t)(n >> 8 * (size - 1 - i));
}

/* The air pressure as a place has it. */
static uint16_t kept_air(const uint8_t *frame, size_t length)
{
    uint32_t air = length == FRAME ? STANDARD_AIR : number_at(frame + FRAME, 2);
    return air == STANDARD_AIR ? 0 : (uint16_t)air;
}

static struct fields fields_of(const uint8_t *f, uint16_t air)
{
    return (struct fields){ .substance = f[0], .state = f[1], .placement = f[2], .surroundings = f[3], .mass = number_at(f + 4, 4),
                            .mean = (uint16_t)number_at(f + 8, 2), .stoichiometric = (uint16_t)number_at(f + 10, 2),
                            .heat = number_at(f + 12, 4), .distance = number_at(f + 16, 4), .body = (uint16_t)number_at(f + 20, 2), .air = air };
}

/* All but the air pressure. */
static void put_fields(uint8_t *to, const struct fields *f)
{
    to[0] = f->substance;
    to[1] = f->state;
    to[2] = f->placement;
    to[3] = f->surroundings;
    put_number(to + 4, 4, f->mass);
    put_number(to + 8, 2, f->mean);
    put_number(to + 10, 2, f->stoichiometric);
    put_number(to + 12, 4, f->heat);
    put_number(to + 16, 4, f->distance);
    put_number(to + 20, 2, f->body);
}

static void count_again(struct memory *m)
{
    m->totals = (struct totals){ 0, 0, 0 };
    for (uint64_t i = 0; i < m->last; i++)
        if (m->places[i].held)
            include(&m->totals, i + 1, m->places[i].end);
}

static uint64_t memory_add(void *sheet, const uint8_t *frame, size_t length, uint64_t *place)
{
    struct memory *m = sheet;
    struct cloud c;
    uint64_t refusal = refusal_of(frame, length, &c);
    if (refusal != 0 || m->last == PLACES)
        return refusal != 0 ? refusal : 17;
    uint32_t end = end_of(&c);
    m->places[m->last] = (struct place){ 1, end, fields_of(frame, kept_air(frame, length)) };
    *place = ++m->last;
    include(&m->totals, m->last, end);
    return 0;
}

static uint64_t memory_withdraw(void *sheet, uint64_t place)
{
    struct memory *m = sheet;
    if (place < 1 || place > m->last || !m->places[place - 1].held)
        return 18;
    m->places[place - 1].held = 0;
    while (m->last > 0 && !m->places[m->last - 1].held)
        m->last--;
    if (place == m->totals.place)
        count_again(m);
    else
        m->totals.cases--;
    return 0;
}

static uint64_t memory_close(void *sheet)
{
    struct memory *m = sheet;
    uint64_t held = 0;
    for (uint64_t i = 0; i < m->last; i++)
        if (m->places[i].held) {
            if (m->totals.place == i + 1)
                m->totals.place = held + 1;
            m->places[held++] = m->places[i];
        }
    for (uint64_t i = held; i < m->last; i++)
        m->places[i].held = 0;
    m->last = held;
    return 0;
}

static uint64_t memory_read(const void *sheet, uint64_t place, uint8_t *area)
{
    const struct memory *m = sheet;
    if (place < 1 || place > m->last || !m->places[place - 1].held)
        return 18;
    put_fields(area, &m->places[place - 1].fields);
    if (m->places[place - 1].fields.air != 0)
        put_number(area + FRAME, 2, m->places[place - 1].fields.air);
    return 0;
}

static uint64_t memory_totals(const void *sheet, struct totals *t)
{
    *t = ((const struct memory *)sheet)->totals;
    return 0;
}

static uint64_t memory_store(const void *sheet, uint8_t *area)
{
    const struct memory *m = sheet;
    uint8_t rows[LONG_FRAME * PLACES];
    size_t count = 0;
    for (uint64_t i = 0; i < m->last; i++)
        if (m->places[i].held) {
            const struct fields *f = &m->places[i].fields;
            put_fields(rows + LONG_FRAME * count, f);
            put_number(rows + LONG_FRAME * count++ + FRAME, 2, f->air == 0 ? STANDARD_AIR : f->air);
        }
    return put_columns(rows, count, area);
}

/* ---- a sheet as lent bytes, of which only the place at hand is touched; right for bytes that such calls wrote */

static uint64_t last_of(const uint8_t *s)
{
    uint64_t last = PLACES;
    while (last > 0 && s[PLACE * (last - 1)] == 0)
        last--;
    return last;
}

static uint64_t bytes_add(void *sheet, const uint8_t *frame, size_t length, uint64_t *place)
{
    uint8_t *s = sheet;
    struct cloud c;
    uint64_t refusal = refusal_of(frame, length, &c), last = last_of(s);
    if (refusal != 0 || last == PLACES)
        return refusal != 0 ? refusal : 17;
    s[PLACE * last] = 1;
    memcpy(s + PLACE * last + 1, frame, FRAME);
    put_number(s + PLACE * last + END, 4, end_of(&c));
    put_number(s + PLACE * last + AIR_AT, 2, kept_air(frame, length));
    *place = last + 1;
    return 0;
}

static uint64_t bytes_withdraw(void *sheet, uint64_t place)
{
    uint8_t *s = sheet;
    if (place < 1 || place > PLACES || s[PLACE * (place - 1)] == 0)
        return 18;
    memset(s + PLACE * (place - 1), 0, PLACE);
    return 0;
}

static uint64_t bytes_close(void *sheet)
{
    uint8_t *s = sheet, *to = s;
    for (const uint8_t *from = s; from < s + SHEET; from += PLACE)
        if (*from != 0) {
            memmove(to, from, PLACE);
            to += PLACE;
        }
    memset(to, 0, (size_t)(s + SHEET - to));
    return 0;
}

static uint64_t bytes_read(const void *sheet, uint64_t place, uint8_t *area)
{
    const uint8_t *s = sheet;
    if (place < 1 || place > PLACES || s[PLACE * (place - 1)] == 0)
        return 18;
    s += PLACE * (place - 1);
    memcpy(area, s + 1, FRAME);
    if ((s[AIR_AT] | s[AIR_AT + 1]) != 0)
        memcpy(area + FRAME, s + AIR_AT, 2);
    return 0;
}

static uint64_t bytes_totals(const void *sheet, struct totals *t)
{
    const uint8_t *s = sheet;
    *t = (struct totals){ 0, 0, 0 };
    for (uint64_t i = 0; i < PLACES; i++)
        if (s[PLACE * i] != 0)
            include(t, i + 1, number_at(s + PLACE * i + END, 4));
    return 0;
}

static uint64_t bytes_store(const void *sheet, uint8_t *area)
{
    const uint8_t *s = sheet;
    uint8_t rows[LONG_FRAME * PLACES];
    size_t count = 0;
    for (const uint8_t *at = s; at < s + SHEET; at += PLACE)
        if (*at != 0) {
            uint32_t air = number_at(at + AIR_AT, 2);
            memcpy(rows + LONG_FRAME * count, at + 1, FRAME);
            put_number(rows + LONG_FRAME * count++ + FRAME, 2, air == 0 ? STANDARD_AIR : air);
        }
    return put_columns(rows, count, area);
}

/* ---- a sheet as lent bytes that are fields in memory during a call */

static void unpack(const uint8_t *s, struct memory *m)
{
    m->last = last_of(s);
    for (int i = 0; i < PLACES; i++) {
        m->places[i].held = s[PLACE * i] != 0;
        if (m->places[i].held) {
            m->places[i].fields = fields_of(s + PLACE * i + 1, (uint16_t)number_at(s + PLACE * i + AIR_AT, 2));
            m->places[i].end = number_at(s + PLACE * i + END, 4);
        }
    }
    m->totals = (struct totals){ 0, 0, 0 }; /* counted where they are asked for */
}

static void pack(const struct memory *m, uint8_t *s)
{
    memset(s, 0, SHEET);
    for (uint64_t i = 0; i < m->last; i++)
        if (m->places[i].held) {
            s[PLACE * i] = 1;
            put_fields(s + PLACE * i + 1, &m->places[i].fields);
            put_number(s + PLACE * i + END, 4, m->places[i].end);
            put_number(s + PLACE * i + AIR_AT, 2, m->places[i].fields.air);
        }
}

static uint64_t packed_add(void *sheet, const uint8_t *frame, size_t length, uint64_t *place)
{
    struct memory m;
    unpack(sheet, &m);
    uint64_t refusal = memory_add(&m, frame, length, place);
    if (refusal == 0)
        pack(&m, sheet);
    return refusal;
}

static uint64_t packed_withdraw(void *sheet, uint64_t place)
{
    struct memory m;
    unpack(sheet, &m);
    uint64_t refusal = memory_withdraw(&m, place);
    if (refusal == 0)
        pack(&m, sheet);
    return refusal;
}

static uint64_t packed_close(void *sheet)
{
    struct memory m;
    unpack(sheet, &m);
    memory_close(&m);
    pack(&m, sheet);
    return 0;
}

static uint64_t packed_read(const void *sheet, uint64_t place, uint8_t *area)
{
    struct memory m;
    unpack(sheet, &m);
    return memory_read(&m, place, area);
}

static uint64_t packed_totals(const void *sheet, struct totals *t)
{
    struct memory m;
    unpack(sheet, &m);
    count_again(&m);
    return memory_totals(&m, t);
}

static uint64_t packed_store(const void *sheet, uint8_t *area)
{
    struct memory m;
    unpack(sheet, &m);
    return memory_store(&m, area);
}

/* ---- the proved sheet */

static uint64_t proved_add(void *sheet, const uint8_t *frame, size_t length, uint64_t *place)
{
    return yakepuhi_sheet_add(sheet, SHEET, frame, length, place);
}

static uint64_t proved_withdraw(void *sheet, uint64_t place) { return yakepuhi_sheet_withdraw(sheet, SHEET, place); }
static uint64_t proved_close(void *sheet) { return yakepuhi_sheet_close(sheet, SHEET); }
static uint64_t proved_read(const void *sheet, uint64_t place, uint8_t *area) { return yakepuhi_sheet_case(sheet, SHEET, place, area, LONG_FRAME); }

static uint64_t proved_totals(const void *sheet, struct totals *t)
{
    return yakepuhi_sheet_totals(sheet, SHEET, &t->cases, &t->greatest, &t->place);
}

static uint64_t proved_store(const void *sheet, uint8_t *area) { return yakepuhi_columns_from_sheet(sheet, SHEET, area, YAKEPUHI_COLUMNS); }

static uint64_t proved_restore(const uint8_t *stored, size_t length, uint8_t *area)
{
    return yakepuhi_frames_from_columns(stored, length, area, LONG_FRAME * PLACES);
}

/* A sheet of one kind. All zero it is empty. */
union sheet {
    uint8_t bytes[SHEET];
    struct memory memory;
};

static const struct kind {
    const char *name;
    uint64_t (*add)(void *sheet, const uint8_t *frame, size_t length, uint64_t *place);
    uint64_t (*withdraw)(void *sheet, uint64_t place);
    uint64_t (*close)(void *sheet);
    uint64_t (*read)(const void *sheet, uint64_t place, uint8_t *area);
    uint64_t (*totals)(const void *sheet, struct totals *t);
    uint64_t (*store)(const void *sheet, uint8_t *area);
    uint64_t (*restore)(const uint8_t *stored, size_t length, uint8_t *area);
    size_t size;
} kinds[KINDS] = {
    { "proved", proved_add, proved_withdraw, proved_close, proved_read, proved_totals, proved_store, proved_restore, SHEET },
    { "plain C, in memory", memory_add, memory_withdraw, memory_close, memory_read, memory_totals, memory_store, plain_restore, sizeof(struct memory) },
    { "plain C, lent bytes", bytes_add, bytes_withdraw, bytes_close, bytes_read, bytes_totals, bytes_store, plain_restore, SHEET },
    { "plain C, unpacked", packed_add, packed_withdraw, packed_close, packed_read, packed_totals, packed_store, plain_restore, SHEET },
};

/* ---- answers before times */

static uint64_t next_random(void) /* splitmix64 */
{
    static uint64_t state = 1;
    uint64_t z = state += 0x9E3779B97F4A7C15u;
    z = (z ^ z >> 30) * 0xBF58476D1CE4E5B9u;
    z = (z ^ z >> 27) * 0x94D049BB133111EBu;
    return z ^ z >> 31;
}

/* Of 64 operations 34 add, one case in four with a byte spoilt and one in 64 without its last byte; 14 withdraw, 15 read and one closes. */
struct operation {
    unsigned kind;
    struct frame frame;
    uint64_t place;
};

static struct operation operation_at(size_t i)
{
    struct operation o = { .kind = (unsigned)(next_random() % 64), .frame = frames[i] };
    size_t length = frames[i].length;
    o.frame.length -= next_random() % 64 == 0;
    o.place = next_random() % (PLACES + 2);
    if (next_random() % 4 == 0)
        o.frame.bytes[next_random() % length] = (uint8_t)next_random();
    return o;
}

/* What an operation gives, with the place that is told and the case that is read, or marks that it leaves. */
struct outcome {
    uint64_t number, place;
    uint8_t area[LONG_FRAME];
};

static struct outcome outcome_of(const struct kind *k, union sheet *s, const struct operation *o)
{
    struct outcome r = { .place = MARK };
    memset(r.area, MARK, sizeof r.area);
    if (o->kind < 34)
        r.number = k->add(s, o->frame.bytes, o->frame.length, &r.place);
    else if (o->kind < 48)
        r.number = k->withdraw(s, o->place);
    else if (o->kind < 63)
        r.number = k->read(s, o->place, r.area);
    else
        r.number = k->close(s);
    return r;
}

/* The bytes of a sheet of each kind. */
static void show_bytes(union sheet sheets[KINDS], uint8_t shown[KINDS][SHEET])
{
    for (int k = 0; k < KINDS; k++)
        if (k == 1)
            pack(&sheets[k].memory, shown[k]);
        else
            memcpy(shown[k], sheets[k].bytes, SHEET);
}

/* The proved end is above the exact value by the width rule at most, that of plain doubles by less than 1, or it is one off at a whole number. */
static int near(uint64_t proved, uint64_t plain) { return plain <= proved + 1 && WAVE_WIDTH * proved <= 2 * WAVE_WIDTH + (WAVE_WIDTH + 1) * plain; }

/* The proved bytes and those of plain C: the same but for the ends of cases, which are near. */
static int alike(const uint8_t *proved, const uint8_t *plain)
{
    for (int i = 0; i < PLACES; i++, proved += PLACE, plain += PLACE) {
        uint32_t end = number_at(proved + END, 4), other = number_at(plain + END, 4);
        if (memcmp(proved, plain, END) != 0 || memcmp(proved + END + 4, plain + END + 4, PLACE - END - 4) != 0)
            return 0;
        if (proved[0] == 0 ? end != other : !near(end, other))
            return 0;
    }
    return 1;
}

/* The proved sheet like those of plain C, and these equal; the totals of each, the proved ones too, as plain C scans them from the bytes. */
static int sheets_agree(union sheet sheets[KINDS])
{
    uint8_t shown[KINDS][SHEET];
    struct totals t, scanned;
    int same = 1;
    show_bytes(sheets, shown);
    for (int k = 0; k < KINDS; k++) {
        same &= k == 0 ? alike(shown[0], shown[1]) : memcmp(shown[k], shown[1], SHEET) == 0;
        same &= kinds[k].totals(&sheets[k], &t) == 0;
        bytes_totals(shown[k], &scanned);
        same &= memcmp(&t, &scanned, sizeof t) == 0;
    }
    return same;
}

/* The columns of each sheet, and the frames that each kind makes of the proved ones, all the same and with the marks behind them. */
static int columns_agree(union sheet sheets[KINDS])
{
    uint8_t stored[KINDS][YAKEPUHI_COLUMNS + 1], rows[KINDS][LONG_FRAME * PLACES + 1];
    int same = 1;
    memset(stored, MARK, sizeof stored);
    memset(rows, MARK, sizeof rows);
    for (int k = 0; k < KINDS; k++) {
        same &= kinds[k].store(&sheets[k], stored[k]) == 0 && memcmp(stored[k], stored[0], sizeof stored[0]) == 0;
        same &= kinds[k].restore(stored[0], YAKEPUHI_COLUMNS_OF((size_t)stored[0][0]), rows[k]) == 0 && memcmp(rows[k], rows[0], sizeof rows[0]) == 0;
    }
    return same;
}

/* An operation for each case, from the empty sheet on: the same answers, and sheets, totals and columns that agree at first and after each. */
static void compare(void)
{
    static union sheet sheets[KINDS];
    size_t given[19] = { 0 };
    for (size_t i = 0; i < cases; i++) {
        struct operation o = operation_at(i);
        struct outcome r[KINDS];
        int same = i > 0 || (sheets_agree(sheets) && columns_agree(sheets));
        for (int k = 0; k < KINDS; k++) {
            r[k] = outcome_of(&kinds[k], &sheets[k], &o);
            same &= r[k].number == r[0].number && r[k].place == r[0].place && memcmp(r[k].area, r[0].area, sizeof r[0].area) == 0;
        }
        if (!same || !sheets_agree(sheets) || !columns_agree(sheets)) {
            printf("operation %zu: %llu, place %llu, the sheet, its totals or its columns stand alone\n", i + 1, (unsigned long long)r[0].number,
                   (unsigned long long)r[0].place);
            exit(1);
        }
        given[r[0].number]++;
    }
    printf("%zu operations, all answers, sheets, totals and columns agree: %zu accepted, %zu times refusal 7, %zu times 17, %zu times 18\n", cases, given[0],
           given[7], given[17], given[18]);
}

/* ---- times: a case is added and withdrawn again behind the first half; added until the sheet is full, which then is the half again; the gaps of
   every second place are closed, a copy of 2,048 bytes or more with it; a case of the first half is read; the totals of both sheets in turn; both
   stored by column in turn, 32 cases each; the columns of one turned back */

/* Sheets of each kind with cases at the first half of the places, and at every second place. */
static union sheet half[KINDS], gapped[KINDS];

static void make_sheets(void)
{
    uint64_t place;
    for (int k = 0; k < KINDS; k++)
        for (size_t i = 0; i < PLACES; i++) {
            if (i < HALF)
                kinds[k].add(&half[k], frames[i % cases].bytes, frames[i % cases].length, &place);
            kinds[k].add(&gapped[k], frames[i % cases].bytes, frames[i % cases].length, &place);
        }
    for (int k = 0; k < KINDS; k++)
        for (uint64_t i = 1; i <= PLACES; i += 2)
            kinds[k].withdraw(&gapped[k], i);
}

static void pairs(int k)
{
    union sheet s = half[k];
    uint64_t place = 0;
    for (size_t i = 0; i < cases; i++)
        sum += kinds[k].add(&s, frames[i].bytes, frames[i].length, &place) + kinds[k].withdraw(&s, place) + place;
}

static void adds(int k)
{
    union sheet s;
    uint64_t place = 0;
    for (size_t i = 0; i < cases; i++) {
        if (i % HALF == 0)
            memcpy(&s, &half[k], kinds[k].size);
        sum += kinds[k].add(&s, frames[i].bytes, frames[i].length, &place) + place;
    }
}

static void closes(int k)
{
    union sheet s;
    for (size_t i = 0; i < cases; i++) {
        memcpy(&s, &gapped[k], kinds[k].size);
        sum += kinds[k].close(&s) + s.bytes[i % SHEET];
    }
}

static void reads(int k)
{
    uint8_t area[LONG_FRAME] = { 0 };
    for (size_t i = 0; i < cases; i++)
        sum += kinds[k].read(&half[k], 1 + i % HALF, area) + area[7] + area[21];
}

static void totals(int k)
{
    struct totals t = { 0, 0, 0 };
    for (size_t i = 0; i < cases; i++)
        sum += kinds[k].totals(i % 2 == 0 ? &half[k] : &gapped[k], &t) + t.cases + t.greatest + t.place;
}

static void stores(int k)
{
    uint8_t area[YAKEPUHI_COLUMNS];
    for (size_t i = 0; i < cases; i++)
        sum += kinds[k].store(i % 2 == 0 ? &half[k] : &gapped[k], area) + area[0] + area[HALF];
}

static void restores(int k)
{
    uint8_t stored[YAKEPUHI_COLUMNS], area[LONG_FRAME * PLACES];
    kinds[k].store(&half[k], stored);
    for (size_t i = 0; i < cases; i++)
        sum += kinds[k].restore(stored, YAKEPUHI_COLUMNS_OF(HALF), area) + area[i % (LONG_FRAME * HALF)];
}

/* A run of each task by each kind. */
#define RUNS(task) \
    static void task##_proved(void) { task(0); } \
    static void task##_memory(void) { task(1); } \
    static void task##_bytes(void) { task(2); } \
    static void task##_packed(void) { task(3); }
RUNS(pairs)
RUNS(adds)
RUNS(closes)
RUNS(reads)
RUNS(totals)
RUNS(stores)
RUNS(restores)

int main(int count, char **words)
{
    static void (*const runs[TASKS * KINDS])(void) = {
        pairs_proved,  pairs_memory,  pairs_bytes,  pairs_packed,  adds_proved,  adds_memory,  adds_bytes,  adds_packed,
        closes_proved, closes_memory, closes_bytes, closes_packed, reads_proved, reads_memory, reads_bytes, reads_packed,
        totals_proved, totals_memory, totals_bytes, totals_packed, stores_proved, stores_memory, stores_bytes, stores_packed,
        restores_proved, restores_memory, restores_bytes, restores_packed,
    };
    static const char *const tasks[TASKS] = { "add and withdraw", "add", "close", "read", "totals", "store by column", "turn back" };
    int rounds = count > 1 ? atoi(words[1]) : 9;
    double medians[TASKS * KINDS];
    cases = read_frames(&frames);
    if (cases == 0 || rounds < 1)
        return 2;
    prepare(53);
    compare();
    make_sheets();
    time_in_turn(runs, TASKS * KINDS, rounds, medians);
    printf("the study sheet, one call an operation (check sum %llu)\n", (unsigned long long)sum);
    for (int i = 0; i < TASKS * KINDS; i++) {
        double spent = medians[i] / (double)cases, base = medians[i - i % KINDS + 1];
        printf("%-17s %-24s %8.0f ns %8.2f %12.0f a second\n", tasks[i / KINDS], kinds[i % KINDS].name, 1e9 * spent, medians[i] / base, 1 / spent);
    }
    return 0;
}
