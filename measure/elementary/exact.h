// What the measuring program and the maker of vectors share: the port's functions beside MPFR's, and the bounds.
#ifndef EXACT_H
#define EXACT_H
#include <math.h>
#include <mpfr.h>
#include <stdint.h>
#include <stdio.h>
#include <stdlib.h>
#include <string.h>

// Bits that MPFR works with: the result of one of its functions is within 2^-190 of the truth, which no double comes near.
enum { PRECISION = 192 };

typedef int (*Exact)(mpfr_t, const mpfr_t, mpfr_rnd_t);

// The bounds in units in the last place that measure.sh holds the port to: what was measured, rounded up; of atan, and of ln_1p from 0 up, the goal that was set.
#define EXP_BOUND 0.75
#define EXP_SUBNORMAL_BOUND 0.85  // the result is rounded a second time
#define LN_BOUND 0.90
#define LN_1P_BOUND 0.80
#define LN_1P_BELOW_BOUND 0.90  // below 0
#define ATAN_BOUND 0.80
#define SIN_BOUND 0.85
// The tails' bound, absolute.
#define TAIL_BOUND 3e-16

// Below it the result of exp is subnormal: 1022 ln 2.
#define EXP_SUBNORMAL -0x1.6232bdd7abcd2p9

static inline double of_bits(uint64_t b) { double x; memcpy(&x, &b, 8); return x; }
static inline uint64_t bits_of(double x) { uint64_t b; memcpy(&b, &x, 8); return b; }

// The exponent of the unit in the last place at r.
static inline long unit_of(const mpfr_t r) {
    long unit = mpfr_zero_p(r) ? -1074 : mpfr_get_exp(r) - 53;
    if (unit < -1074) unit = -1074;
    return unit > 971 ? 971 : unit;
}

// P(Z > (x - mean) / sqrt(variance)) for the standard normal Z; sign -1 gives the lower tail.
static inline void exact_tail(mpfr_t r, double mean, double variance, double x, int side) {
    static mpfr_t z, root;
    static int made;
    if (!made++) mpfr_inits2(PRECISION, z, root, (mpfr_ptr)0);
    mpfr_set_d(z, x, MPFR_RNDN);
    mpfr_sub_d(z, z, mean, MPFR_RNDN);
    mpfr_set_d(root, variance, MPFR_RNDN);
    mpfr_mul_2ui(root, root, 1, MPFR_RNDN);
    mpfr_sqrt(root, root, MPFR_RNDN);
    mpfr_div(z, z, root, MPFR_RNDN);
    if (side < 0) mpfr_neg(z, z, MPFR_RNDN);
    mpfr_erfc(r, z, MPFR_RNDN);
    mpfr_div_2ui(r, r, 1, MPFR_RNDN);
}
#endif
