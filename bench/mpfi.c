/* MPFI: intervals of MPFR floats with directed rounding, 53 bits unless told otherwise. */
#include "shared.h"

#include <mpfi.h>

typedef mpfi_t number;
typedef mpfi_ptr into;
typedef mpfi_srcptr from;

static mpfi_t third, sixth;

static inline void fresh(into r) { mpfi_init(r); }
static inline void whole(into r, unsigned long n) { mpfi_set_ui(r, n); }
static inline void copy(into r, from a) { mpfi_set(r, a); }
static inline void plus(into r, from a, from b) { mpfi_add(r, a, b); }
static inline void minus(into r, from a, from b) { mpfi_sub(r, a, b); }
static inline void times(into r, from a, from b) { mpfi_mul(r, a, b); }
static inline void over(into r, from a, from b) { mpfi_div(r, a, b); }
static inline void square(into r, from a) { mpfi_sqr(r, a); }
static inline void square_root(into r, from a) { mpfi_sqrt(r, a); }
static inline void ln(into r, from a) { mpfi_log(r, a); }
static inline void power_of_e(into r, from a) { mpfi_exp(r, a); }
static inline void times_whole(into r, from a, unsigned long n) { mpfi_mul_ui(r, a, n); }
static inline void over_whole(into r, from a, unsigned long n) { mpfi_div_ui(r, a, n); }
static inline void whole_over(into r, unsigned long n, from a) { mpfi_ui_div(r, n, a); }
static inline void whole_minus(into r, unsigned long n, from a) { mpfi_ui_sub(r, n, a); }
static inline void minus_whole(into r, from a, unsigned long n) { mpfi_sub_ui(r, a, n); }

static void smaller(into r, from a, from b)
{
    mpfr_min(&r->left, &a->left, &b->left, MPFR_RNDD);
    mpfr_min(&r->right, &a->right, &b->right, MPFR_RNDU);
}

/* a^(1/n) = e^(ln a/n), by one over n made once. */
static void root(into r, from a, unsigned long nth)
{
    mpfi_log(r, a);
    mpfi_mul(r, r, nth == 3 ? third : sixth);
    mpfi_exp(r, r);
}

static void round_out(int64_t ends[2], from of)
{
    ends[0] = mpfr_get_si(&of->left, MPFR_RNDD);
    ends[1] = mpfr_get_si(&of->right, MPFR_RNDU);
}

static void set_precision(long bits)
{
    mpfr_set_default_prec(bits);
    mpfi_init(third), mpfi_set_ui(third, 1), mpfi_div_ui(third, third, 3);
    mpfi_init(sixth), mpfi_set_ui(sixth, 1), mpfi_div_ui(sixth, sixth, 6);
}

#include "formulas.h"
