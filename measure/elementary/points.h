// The arguments that the measuring program and the maker of vectors draw: point number i of each function, from several families in turn.
// No expression draws twice, as C leaves the order open: every machine draws the same points.
#ifndef POINTS_H
#define POINTS_H
#include "exact.h"

// xorshift64*, from one seed: two runs draw the same points.
static uint64_t state = 88172645463325252ULL;
static inline uint64_t draw(void) {
    state ^= state >> 12;
    state ^= state << 25;
    state ^= state >> 27;
    return state * 2685821657736338717ULL;
}
static inline double uniform(double from, double to) { return from + (to - from) * ((draw() >> 11) * 0x1p-53); }
static inline double sign(void) { return draw() & 1 ? 1.0 : -1.0; }
// A number whose exponent is one of from to to, any of them alike.
static inline double scaled(int from, int to) {
    double digits = uniform(1, 2);
    return ldexp(digits, from + (int)(draw() % (unsigned)(to - from + 1)));
}
// The same, of either sign.
static inline double signed_scaled(int from, int to) {
    double side = sign();
    return side * scaled(from, to);
}
// Any positive number, subnormal ones included, every pattern alike.
static inline double any_positive(void) { return of_bits(1 + draw() % 0x7fefffffffffffffULL); }
// A subnormal number, of any count of digits alike.
static inline double subnormal(void) {
    uint64_t digits = draw();
    return of_bits(1 + digits % (1ULL << (1 + draw() % 52)));
}

// The table that atan and ln_1p share (specs/Near.antt): row i serves the y from row_start(i) to the next row's; y is the argument of ln_1p,
// and the square of atan's. From the reach on neither asks the table.
enum { ROWS = 128 };
#define REACH 4000000.0
static inline double row_start(int i) { return ldexp(1 + i % 4 / 4.0, i / 4 - 10) - 0x1p-10; }

// exp: -745.2 to 709.8
static inline double exp_point(long i) {
    switch (i % 4) {
    case 0: return uniform(-745.2, 709.8);
    case 1: return uniform(-2, 2);
    case 2: return uniform(-745.2, -708.3);                        // subnormal results
    default: return signed_scaled(-60, 9);
    }
}

// ln: all above 0
static inline double ln_point(long i) {
    switch (i % 4) {
    case 0: return any_positive();
    case 1: return uniform(0.5, 2);
    case 2: return 1 + signed_scaled(-52, -2);                   // near 1
    default: return subnormal();
    }
}

// The integrand's v u: a weight, of both signs, times e^s with s from -30 to 60
static inline double weighted_point(void) {
    double u = signed_scaled(-43, 86);
    return u * uniform(1e-3, 4);
}

// ln_1p: from 0 up
static inline double ln_1p_point(long i) {
    double u;
    switch (i % 4) {
    case 0: return uniform(0, 3);
    case 1: return any_positive();
    case 2: return scaled(-60, 60);
    default: u = weighted_point(); return u * u;
    }
}

// ln_1p: -1 to 0
static inline double ln_1p_below_point(long i) {
    switch (i % 4) {
    case 0: return uniform(-1, 0);
    case 1: return uniform(-0.4, -0.2);
    case 2: return -scaled(-80, -1);
    default: return -1 + scaled(-52, -1);
    }
}

// atan: all
static inline double atan_point(long i) {
    double side;
    switch (i % 4) {
    case 0: return uniform(-3, 3);
    case 1: side = sign(); return side * any_positive();
    case 2: return signed_scaled(-30, 60);
    default: return weighted_point();
    }
}

// sin: to 256 in size
static inline double sin_point(long i) {
    switch (i % 3) {
    case 0: return uniform(-256, 256);
    case 1: return uniform(-4, 4);
    default: return signed_scaled(-60, 7);
    }
}

// A law and a point of it.
typedef struct { double mean, variance, x; } Place;
static inline Place tail_point(long i) {
    Place p = {0, 1, 0};
    switch (i % 4) {
    case 0: p.x = uniform(-9, 9); break;
    case 1: p.x = uniform(-40, 40); break;
    case 2: p.x = signed_scaled(-60, 5); break;
    default:                                                       // the test's own: a mean near 2, a small variance
        p.mean = uniform(1, 3);
        p.variance = scaled(-10, 1);
        p.x = uniform(0, 4);
    }
    return p;
}
#endif
