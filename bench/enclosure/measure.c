/* ns per ln, e^, product and quotient of an interval, beside libm's log and exp and a double's product and quotient, in one run:
   first calls that do not wait for one another, then calls of which each waits for the one before.
   The arguments of each row are drawn once, from a fixed seed, and are the same for both columns: intervals of up to 256 units of
   2^-30, and the double at their lower end. */
#include <math.h>
#include <stdbool.h>
#include <stdint.h>
#include <stdio.h>
#include <string.h>
#include <time.h>

/* false where the library does not take the arguments; none drawn here is such a one */
bool enclosure_ln(uint64_t m, uint64_t n, uint32_t e, int64_t *lower, int64_t *upper);
bool enclosure_expo(int64_t y, int64_t z, uint64_t *lower, uint64_t *upper, uint32_t *exponent);
bool enclosure_mul(uint64_t m, uint64_t n, uint32_t e, uint64_t p, uint64_t q, uint32_t f, uint64_t *lower, uint64_t *upper, uint32_t *exponent);
bool enclosure_quo(uint64_t m, uint64_t n, uint32_t e, uint64_t p, uint64_t q, uint32_t f, uint64_t *lower, uint64_t *upper, uint32_t *exponent);

enum { COUNT = 1 << 12, ROUNDS = 64, REPEATS = 25 };

typedef struct { uint64_t lo, hi; uint32_t e; } span;
typedef struct { int64_t lo, hi; } log_span;

static span a[COUNT], b[COUNT];
static log_span y[COUNT];
static double x[COUNT], z[COUNT], w[COUNT], out;
static uint64_t sink;

static uint64_t seed = 0x9E3779B97F4A7C15u;
static uint64_t next(void) {
    seed ^= seed << 13;
    seed ^= seed >> 7;
    seed ^= seed << 17;
    return seed;
}

/* from 2^-40 to 2^40 */
static span draw(void) {
    span s;
    s.lo = (1u << 30) + next() % ((1u << 30) - 256);
    s.hi = s.lo + next() % 256;
    s.e = 954 + next() % 80;
    return s;
}

static double now(void) {
    struct timespec t;
    clock_gettime(CLOCK_PROCESS_CPUTIME_ID, &t);
    return t.tv_sec * 1e9 + t.tv_nsec;
}

double plain_mul(double a, double b);
double plain_quo(double a, double b);
__attribute__((noinline)) double plain_mul(double a, double b) { return a * b; }
__attribute__((noinline)) double plain_quo(double a, double b) { return a / b; }

/* All numbers of the result are used: they are added. A refusal is counted. */
static uint64_t refused;
static uint64_t ln(const span *s) {
    int64_t l = 0, u = 0;
    refused += !enclosure_ln(s->lo, s->hi, s->e, &l, &u);
    return (uint64_t)l + (uint64_t)u;
}
static uint64_t expo(const log_span *s) {
    uint64_t l = 0, u = 0;
    uint32_t k = 0;
    refused += !enclosure_expo(s->lo, s->hi, &l, &u, &k);
    return l + u + k;
}
static uint64_t mul(const span *s, const span *t) {
    uint64_t l = 0, u = 0;
    uint32_t k = 0;
    refused += !enclosure_mul(s->lo, s->hi, s->e, t->lo, t->hi, t->e, &l, &u, &k);
    return l + u + k;
}
static uint64_t quo(const span *s, const span *t) {
    uint64_t l = 0, u = 0;
    uint32_t k = 0;
    refused += !enclosure_quo(s->lo, s->hi, s->e, t->lo, t->hi, t->e, &l, &u, &k);
    return l + u + k;
}

#define TIME(best, call)                                     \
    do {                                                     \
        best = 1e30;                                         \
        for (int r = 0; r < REPEATS; r++) {                  \
            double t = now();                                \
            for (int k = 0; k < ROUNDS; k++)                 \
                for (int i = 0; i < COUNT; i++) { call; }    \
            t = (now() - t) / ((double)ROUNDS * COUNT);      \
            if (t < best) best = t;                          \
        }                                                    \
    } while (0)

static uint64_t bits(double d) {
    uint64_t k;
    memcpy(&k, &d, sizeof k);
    return k;
}

static void row(const char *name, double ours, double plain) {
    printf("%-9s %6.1f ns %6.1f ns  %.2f\n", name, ours, plain, ours / plain);
}

int main(void) {
    for (int i = 0; i < COUNT; i++) {
        a[i] = draw();
        b[i] = draw();
        y[i].lo = (int64_t)(next() % (200ull << 30)) - (100ll << 30); /* from -100 to 100 */
        y[i].hi = y[i].lo + (int64_t)(next() % 256);
        x[i] = ldexp((double)a[i].lo, (int)a[i].e - 1024);
        z[i] = ldexp((double)b[i].lo, (int)b[i].e - 1024);
        w[i] = ldexp((double)y[i].lo, -30);
    }
    static volatile uint64_t none;
    uint64_t zero = none, last = 0; /* 0, unknown to the compiler: i + (last & zero) is i, once last is there */
    double ours, plain, d = 0;
    puts("apart     interval    double     ratio");
    TIME(ours, sink += ln(&a[i]));
    TIME(plain, out += log(x[i]));
    row("ln", ours, plain);
    TIME(ours, sink += expo(&y[i]));
    TIME(plain, out += exp(w[i]));
    row("e^", ours, plain);
    TIME(ours, sink += mul(&a[i], &b[i]));
    TIME(plain, out += plain_mul(x[i], z[i]));
    row("product", ours, plain);
    TIME(ours, sink += quo(&a[i], &b[i]));
    TIME(plain, out += plain_quo(x[i], z[i]));
    row("quotient", ours, plain);
    puts("in a row");
    TIME(ours, last = ln(&a[i + (last & zero)]));
    TIME(plain, d = log(x[i + (bits(d) & zero)]));
    row("ln", ours, plain);
    TIME(ours, last = expo(&y[i + (last & zero)]));
    TIME(plain, d = exp(w[i + (bits(d) & zero)]));
    row("e^", ours, plain);
    TIME(ours, last = mul(&a[i + (last & zero)], &b[i]));
    TIME(plain, d = plain_mul(x[i + (bits(d) & zero)], z[i]));
    row("product", ours, plain);
    TIME(ours, last = quo(&a[i + (last & zero)], &b[i]));
    TIME(plain, d = plain_quo(x[i + (bits(d) & zero)], z[i]));
    row("quotient", ours, plain);
    sink += last;
    out += d;
    printf("(%d)\n", (int)((sink + (uint64_t)out) & 1)); /* the results are used */
    if (refused) printf("%llu calls refused\n", (unsigned long long)refused);
    return refused != 0;
}
