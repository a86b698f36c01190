/* Times rings, one call a request, proved and by bisection over plain doubles. `rings ROUNDS` reads the lines of its cases from standard input. */
#include "plain_double.h"
#include "turns.h"
#include "yakepuhi.h"

#include <math.h>
#include <stdio.h>
#include <stdlib.h>

/* Distances in cm, thresholds in Pa; below 3 Pa there is no ring in standard air. */
enum { LAST_DISTANCE = 1000000, LEAST = 3, MOST_TIMES = 18 };

struct request {
    struct frame frame;
    uint64_t threshold;
};

struct ring {
    uint64_t refusal, inner, outer;
};

static struct request *requests;
static size_t count;
static uint64_t sum; /* what the calls gave, so that none is left out */

/* ---- rings in plain doubles */

typedef uint64_t end_at(struct cloud *c, uint64_t distance);

static uint64_t lower_at(struct cloud *c, uint64_t distance)
{
    move_receptor(c, (uint32_t)distance);
    return (uint64_t)floor(overpressure(c));
}

static uint64_t upper_at(struct cloud *c, uint64_t distance)
{
    move_receptor(c, (uint32_t)distance);
    return (uint64_t)ceil(overpressure(c));
}

/* No case is beyond at 1 cm. */
static uint64_t farthest(struct cloud *c)
{
    uint64_t low = 1, high = LAST_DISTANCE + 1;
    while (high - low > 1) {
        uint64_t middle = (low + high) / 2;
        if (move_receptor(c, (uint32_t)middle) == 0)
            low = middle;
        else
            high = middle;
    }
    return low;
}

/* A distance whose end reaches the threshold while the next one's does not, where `low` reaches it and `high` does not. */
static uint64_t last_reaching(struct cloud *c, end_at *end, uint64_t threshold, uint64_t low, uint64_t high)
{
    while (high - low > 1) {
        uint64_t middle = (low + high) / 2;
        if (end(c, middle) >= threshold)
            low = middle;
        else
            high = middle;
    }
    return low;
}

static struct ring double_ring(const struct request *q)
{
    struct cloud c;
    struct ring r = { (uint64_t)decide_frame(q->frame.bytes, q->frame.length, &c), 0, 0 };
    if (r.refusal != 0 && r.refusal != 7)
        return r;
    uint64_t far = farthest(&c), threshold = q->threshold;
    r.refusal = threshold < 1 || threshold > MOST_TIMES * c.air ? 9 : lower_at(&c, 1) < threshold ? 10 : upper_at(&c, far) >= threshold ? 11 : 0;
    if (r.refusal == 0) {
        r.inner = last_reaching(&c, lower_at, threshold, 1, far);
        r.outer = last_reaching(&c, upper_at, threshold, r.inner, far) + 1;
    }
    return r;
}

static struct ring proved_ring(const struct request *q)
{
    struct ring r = { 0, 0, 0 };
    r.refusal = yakepuhi_ring_from_frame(q->frame.bytes, q->frame.length, q->threshold, &r.inner, &r.outer);
    return r;
}

/* ---- answers before times */

/* Whether an answer is right by the ends of plain doubles, each of them a pascal off at the most. */
static int permitted(const struct request *q, struct ring r)
{
    struct cloud c;
    decide_frame(q->frame.bytes, q->frame.length, &c);
    uint64_t far = farthest(&c), t = q->threshold;
    if (r.refusal == 10)
        return lower_at(&c, 1) <= t;
    if (r.refusal == 11)
        return lower_at(&c, 1) + 1 >= t && upper_at(&c, far) + 1 >= t;
    return r.refusal == 0 && 1 <= r.inner && r.inner < r.outer && r.outer <= far && lower_at(&c, r.inner) + 1 >= t && lower_at(&c, r.inner + 1) <= t
        && upper_at(&c, r.outer) <= t && upper_at(&c, r.outer - 1) + 1 >= t;
}

/* Compares all answers, and keeps the requests that have a ring. */
static void compare(void)
{
    size_t kept = 0, equal = 0, refused[15] = { 0 };
    for (size_t i = 0; i < count; i++) {
        struct ring ours = proved_ring(&requests[i]), theirs = double_ring(&requests[i]);
        int same = ours.refusal == theirs.refusal && ours.inner == theirs.inner && ours.outer == theirs.outer;
        if (!same && !permitted(&requests[i], ours)) {
            printf("case %zu, %llu Pa: refusal %llu, %llu..%llu cm stands\n", i + 1, (unsigned long long)requests[i].threshold,
                   (unsigned long long)ours.refusal, (unsigned long long)ours.inner, (unsigned long long)ours.outer);
            exit(1);
        }
        equal += (size_t)same;
        refused[ours.refusal]++;
        if (ours.refusal == 0 && theirs.refusal == 0)
            requests[kept++] = requests[i];
    }
    printf("%zu requests: %zu rings, %zu times refusal 10, %zu times 11; %zu answers equal, the others within a pascal\n",
           count, refused[0], refused[10], refused[11], equal);
    count = kept;
}

/* ---- times */

static void proved_rings(void)
{
    for (size_t i = 0; i < count; i++) {
        struct ring r = proved_ring(&requests[i]);
        sum += r.refusal + r.inner + r.outer;
    }
}

static void double_rings(void)
{
    for (size_t i = 0; i < count; i++) {
        struct ring r = double_ring(&requests[i]);
        sum += r.refusal + r.inner + r.outer;
    }
}

/* A threshold spread evenly over the logarithm (splitmix64), up to 18 times the case's air pressure. */
static uint64_t next_threshold(const struct frame *f)
{
    struct cloud c;
    decide_frame(f->bytes, f->length, &c);
    static uint64_t state = 1;
    uint64_t z = state += 0x9E3779B97F4A7C15u;
    z = (z ^ z >> 30) * 0xBF58476D1CE4E5B9u;
    z = (z ^ z >> 27) * 0x94D049BB133111EBu;
    double unit = (double)((z ^ z >> 31) >> 11) / 9007199254740992.0;
    return (uint64_t)(LEAST * exp(unit * log((double)MOST_TIMES * c.air / LEAST)));
}

static void read_requests(void)
{
    struct frame *frames;
    count = read_frames(&frames);
    requests = malloc(count * sizeof *requests);
    for (size_t i = 0; i < count; i++) {
        requests[i].frame = frames[i];
        requests[i].threshold = next_threshold(&frames[i]);
    }
    free(frames);
}

int main(int words, char **word)
{
    static void (*const runs[2])(void) = { proved_rings, double_rings };
    static const char *const names[2] = { "rings, proved", "rings, plain doubles" };
    int rounds = words > 1 ? atoi(word[1]) : 9;
    double medians[2];
    read_requests();
    prepare(53);
    compare();
    if (count == 0 || rounds < 1)
        return 2;
    time_in_turn(runs, 2, rounds, medians);
    printf("one call a ring (check sum %llu)\n", (unsigned long long)sum);
    for (int i = 0; i < 2; i++) {
        double spent = medians[i] / (double)count;
        printf("%-30s %10.0f ns/ring %8.2f %10.0f rings/second\n", names[i], 1e9 * spent, medians[i] / medians[1], 1 / spent);
    }
    return 0;
}
