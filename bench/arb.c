/* Arb: balls, a midpoint and a radius, at 53 bits unless told otherwise; at 256 it stands for the exact value. */
#include "shared.h"

#if __has_include(<flint/arb.h>)
#include <flint/arb.h>
#else
#include <arb.h>
#endif

typedef arb_t number;
typedef arb_ptr into;
typedef arb_srcptr from;

static long precision;
static arf_t end;

static void set_precision(long bits)
{
    precision = bits;
    arf_init(end);
}

static inline void fresh(into r) { arb_init(r); }
static inline void whole(into r, unsigned long n) { arb_set_ui(r, n); }
static inline void copy(into r, from a) { arb_set(r, a); }
static inline void plus(into r, from a, from b) { arb_add(r, a, b, precision); }
static inline void minus(into r, from a, from b) { arb_sub(r, a, b, precision); }
static inline void times(into r, from a, from b) { arb_mul(r, a, b, precision); }
static inline void over(into r, from a, from b) { arb_div(r, a, b, precision); }
static inline void smaller(into r, from a, from b) { arb_min(r, a, b, precision); }
static inline void square(into r, from a) { arb_mul(r, a, a, precision); }
static inline void square_root(into r, from a) { arb_sqrt(r, a, precision); }
static inline void root(into r, from a, unsigned long nth) { arb_root_ui(r, a, nth, precision); }
static inline void ln(into r, from a) { arb_log(r, a, precision); }
static inline void power_of_e(into r, from a) { arb_exp(r, a, precision); }
static inline void times_whole(into r, from a, unsigned long n) { arb_mul_ui(r, a, n, precision); }
static inline void over_whole(into r, from a, unsigned long n) { arb_div_ui(r, a, n, precision); }
static inline void whole_over(into r, unsigned long n, from a) { arb_ui_div(r, n, a, precision); }
static inline void minus_whole(into r, from a, unsigned long n) { arb_sub_ui(r, a, n, precision); }

static inline void whole_minus(into r, unsigned long n, from a)
{
    arb_sub_ui(r, a, n, precision);
    arb_neg(r, r);
}

static void round_out(int64_t ends[2], from of)
{
    arb_get_lbound_arf(end, of, precision);
    ends[0] = arf_get_si(end, ARF_RND_FLOOR);
    arb_get_ubound_arf(end, of, precision);
    ends[1] = arf_get_si(end, ARF_RND_CEIL);
}

#include "formulas.h"
