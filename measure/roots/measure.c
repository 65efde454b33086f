// Compares the port's sqrt with the platform's and its hypot with MPFR's, to the bit, and measures hypot's error in units in the last place.
// Usage: measure COUNT    Ends with status 1 where a root or a hypot differs.
#include <math.h>
#include <mpfr.h>
#include <stdint.h>
#include <stdio.h>
#include <stdlib.h>
#include <string.h>

double port_sqrt(double);
double port_hypot(double, double);

static double of_bits(uint64_t b) { double x; memcpy(&x, &b, 8); return x; }
static uint64_t bits_of(double x) { uint64_t b; memcpy(&b, &x, 8); return b; }

// xorshift64*, from one seed: two runs draw the same points, on every machine. C leaves open which part of an expression comes first, so each
// draw is a statement of its own.
static uint64_t state = 88172645463325252ULL;
static uint64_t draw(void) {
    state ^= state >> 12;
    state ^= state << 25;
    state ^= state >> 27;
    return state * 2685821657736338717ULL;
}
static double uniform(double from, double to) { return from + (to - from) * ((draw() >> 11) * 0x1p-53); }
static double sign(void) { return draw() & 1 ? 1.0 : -1.0; }
// A number whose exponent is one of from to to, any of them alike.
static double scaled(int from, int to) {
    double s = sign(), digits = uniform(1, 2);
    return s * ldexp(digits, from + (int)(draw() % (unsigned)(to - from + 1)));
}
// Any finite number, every pattern alike.
static double any(void) {
    double s = sign();
    return s * of_bits(draw() % 0x7ff0000000000000ULL);
}
// A pattern of up to 52 digits.
static uint64_t few_digits(void) {
    uint64_t most = 1ULL << (1 + draw() % 52);
    return draw() % most;
}
static double subnormal(void) {
    double s = sign();
    return s * of_bits(few_digits());
}

// ---- sqrt

static long roots, wrong;
static void root(uint64_t b) {
    double x = of_bits(b), want = sqrt(x), got = port_sqrt(x);
    roots++;
    if (isnan(want) ? !isnan(got) : bits_of(want) != bits_of(got)) {
        if (wrong++ < 10) printf("sqrt %016lx: %016lx, the platform's %016lx\n", b, bits_of(got), bits_of(want));
    }
}

static void measure_roots(long count) {
    for (long i = 0; i < count; i++) {
        root(draw());                                                   // any pattern, NaNs and negative numbers too
        root(draw() % 0x7ff0000000000000ULL);                           // any finite number from 0 up
        root(few_digits());                                             // subnormal
        double q = uniform(1, 2);                                       // a square of 53 digits, and its neighbours
        uint64_t s = bits_of(q * q) + draw() % 3 - 1;
        root(s);
    }
    for (uint64_t field = 0; field < 2048; field++)                     // every exponent, with both signs
        for (int i = 0; i < 200; i++) {
            uint64_t digits = i == 0 ? 0 : i == 1 ? 1 : i == 2 ? (1ULL << 52) - 1 : draw() >> 12;
            root(field << 52 | digits);
            root(1ULL << 63 | field << 52 | digits);
        }
    for (int part = 16; part < 64; part++)                              // both ends of each part of 1 to 4 that has a line
        for (uint64_t i = 0; i < 200; i++) {
            root(bits_of(part / 16.0) + i);
            root(bits_of((part + 1) / 16.0) - 1 - i);
        }
    printf("sqrt: %ld patterns, %ld differ from the platform's\n", roots, wrong);
}

// ---- hypot

enum { PRECISION = 256 };
static mpfr_t X, Y, R, E;

// The error of `got` in units in the last place of r; an infinity counts as 2^1024, where the rounded value is none.
static double error(double got, mpfr_t r) {
    long unit = mpfr_zero_p(r) ? -1074 : mpfr_get_exp(r) - 53;
    if (unit < -1074) unit = -1074;
    if (unit > 971) unit = 971;
    if (isinf(got)) {
        if (isinf(mpfr_get_d(r, MPFR_RNDN))) return 0;
        mpfr_set_ui_2exp(E, 1, 1024, MPFR_RNDN);
        mpfr_sub(E, E, r, MPFR_RNDN);
    } else {
        mpfr_sub_d(E, r, got, MPFR_RNDN);
    }
    mpfr_abs(E, E, MPFR_RNDN);
    mpfr_mul_2si(E, E, -unit, MPFR_RNDN);
    return mpfr_get_d(E, MPFR_RNDN);
}

static long differ;
static void differs(double x, double y, double got, double want) {
    if (differ++ < 10) printf("hypot %016lx %016lx: %016lx, not %016lx\n", bits_of(x), bits_of(y), bits_of(got), bits_of(want));
}

struct row { const char *name; long pairs, rounded; double worst, x, y; };

static void pair(struct row *a, double x, double y) {
    double got = port_hypot(x, y);
    mpfr_set_d(X, x, MPFR_RNDN);
    mpfr_set_d(Y, y, MPFR_RNDN);
    mpfr_hypot(R, X, Y, MPFR_RNDN);
    double e = error(got, R), want = mpfr_get_d(R, MPFR_RNDN);
    a->pairs++;
    if (bits_of(got) == bits_of(want)) a->rounded++;
    else differs(x, y, got, want);
    if (!(e <= a->worst)) { a->worst = e; a->x = x; a->y = y; }
}

// A pair of each family.
static void two_near(double *x, double *y) { *x = uniform(-2, 2); *y = uniform(-2, 2); }
static void any_two(double *x, double *y) { *x = any(); *y = any(); }
static void close(double *x, double *y) { *x = any(); *y = *x * scaled(-28, 0); }
static void beside_one(double *x, double *y) { *x = scaled(-60, 60); *y = 1; }
static void subnormals(double *x, double *y) { *x = subnormal(); *y = draw() & 1 ? subnormal() : scaled(-1074, -1000); }
static void small_end(double *x, double *y) { *x = scaled(-453, -447); *y = *x * scaled(-30, 0); }
static void large_end(double *x, double *y) { *x = scaled(509, 513); *y = *x * scaled(-30, 0); }
static void top_end(double *x, double *y) { *x = scaled(1020, 1023); *y = *x * scaled(-30, 0); }
static void far_apart(double *x, double *y) { *x = scaled(-500, 500); *y = *x * scaled(-540, -25); }
// The value lies close to the middle of two neighbours: y is √(r² - x²) rounded, for a middle r.
static void middles(double *x, double *y) {
    double r = uniform(1, 2);
    *x = r * uniform(0.1, 0.999);
    mpfr_set_d(R, r, MPFR_RNDN);
    mpfr_add_d(R, R, 0x1p-53, MPFR_RNDN);
    mpfr_sqr(R, R, MPFR_RNDN);
    mpfr_set_d(X, *x, MPFR_RNDN);
    mpfr_sqr(X, X, MPFR_RNDN);
    mpfr_sub(R, R, X, MPFR_RNDN);
    mpfr_sqrt(R, R, MPFR_RNDN);
    *y = mpfr_get_d(R, MPFR_RNDN);
}

typedef unsigned __int128 wide;

// The whole part of √n.
static uint64_t whole_root(wide n) {
    uint64_t w = (uint64_t)sqrt((double)n);
    while ((wide)w * w > n) w--;
    while ((wide)(w + 1) * (w + 1) <= n) w++;
    return w;
}
// a and b, whole numbers that doubles hold, by 2^e for an e of from to to, and b by 2^-less; in either order, with any signs.
static void place(uint64_t a, uint64_t b, int less, int from, int to, double *x, double *y) {
    int e = from + (int)(draw() % (unsigned)(to - from + 1));
    double p = sign() * ldexp((double)a, e), q = ldexp((double)b, e - less);
    if (draw() & 1) q = -q;
    uint64_t turned = draw() & 1;
    *x = turned ? q : p;
    *y = turned ? p : q;
}
// g (s² + t²) is an odd number of 54 digits, and the root of the squares of g 2 s t and g (s² - t²). A tie goes down where g is 1, and up where it is 3.
static void ties(double *x, double *y) {
    for (;;) {
        uint64_t g = draw() & 1 ? 1 : 3, s = (1 << 25) + draw() % (3 << 25), most = draw() & 1 ? 16 : s - 1, t = s - 1 - draw() % most;
        uint64_t middle = g * (s * s + t * t), odd = g * (s * s - t * t);
        if (middle % 2 == 0 || middle >> 53 != 1 || t == 0 || odd >> 53 != 0) continue;
        place(g * 2 * s * t, odd, 0, -1074, 969, x, y);
        return;
    }
}
// m and w with 4 m² + 4 w² = (2 c + 1)² - d, for a c of 53 digits and a d of 1 or -3: no whole numbers come nearer to a tie. (2 c + 1)² - (2 m)² =
// (2 w)² + d is u v, where u and v are a² + d b² and e² + d f², and a f + b e = 1.
static void beside_ties(double *x, double *y) {
    for (;;) {
        int64_t d = draw() & 1 ? 1 : -3, a = draw() % (1 << 27), b = draw() % (1 << 27), k = draw() % 7;
        int64_t n = a, f = 1, rest = b, next = 0;                       // n = a f + b e, for some e
        while (rest != 0) {
            int64_t q = n / rest, r = n - q * rest, z = f - q * next;
            n = rest, rest = r, f = next, next = z;
        }
        if (n != 1 || b == 0) continue;
        int64_t e = (1 - a * f) / b + (k - 3) * a;
        f -= (k - 3) * b;
        int64_t u = a * a + d * b * b, v = e * e + d * f * f, c = (u + v) / 4;
        uint64_t m = (uint64_t)llabs(v - u) / 4, w = (uint64_t)llabs(a * e - d * b * f) / 2;
        if (u <= 0 || v <= 0 || u % 2 == 0 || v % 2 == 0 || c >> 52 != 1 || (m | w) >> 53 != 0) continue;
        place(m, w, 0, -1074, 969, x, y);
        return;
    }
}
// The squares of 2 m and w / 2^s sum to (2 m + d)², an odd number's, and less than 1 more or less: what decides lies below the last digit of the sum.
static void digits_below(double *x, double *y) {
    for (;;) {
        uint64_t m = 1ULL << 52 | draw() >> 12, d = 2 * (draw() % 4) + 1, n = d * (4 * m + d);
        int s = n >> 56 == 0 ? 25 : 24;
        wide square = (wide)n << 2 * s;
        uint64_t w = whole_root(square) + (draw() & 1);
        wide other = (wide)w * w, apart = other < square ? square - other : other - square;
        if (apart >> 2 * s != 0) continue;
        place(2 * m, w, s, -1074 + s, 969, x, y);
        return;
    }
}
// Whole numbers of some digits whose root lies beside 2^digits - 1/2, by 2^e.
static void beside_power(int digits, int from, int to, double *x, double *y) {
    wide middle = ((wide)2 << digits) - 1;
    uint64_t a = draw() >> (65 - digits);
    a >>= draw() % digits;
    uint64_t b = whole_root(middle * middle / 4 - (wide)a * a) + draw() % 4 - 1;
    place(a, b, 0, from, to, x, y);
}
static void powers(double *x, double *y) { beside_power(53, -1074, 970, x, y); }
static void subnormal_powers(double *x, double *y) { int digits = draw() & 1 ? 52 : 2 + (int)(draw() % 50); beside_power(digits, -1074, -1074, x, y); }
static void beside_infinity(double *x, double *y) { beside_power(53, 971, 971, x, y); }

static const struct { const char *name; void (*of)(double *, double *); } families[] = {
    {"both within 2", two_near}, {"any two numbers", any_two}, {"a factor of 2^28 apart at most", close}, {"beside 1", beside_one},
    {"subnormal", subnormals}, {"sizes near 2^-450", small_end}, {"sizes near 2^511", large_end}, {"sizes near 2^1023", top_end},
    {"far apart", far_apart}, {"near a middle", middles}, {"ties", ties}, {"whole squares beside a tie", beside_ties}, {"less than that beside a tie", digits_below},
    {"beside a power of two", powers}, {"the same, both subnormal", subnormal_powers}, {"beside infinity", beside_infinity},
};

// Pairs with a NaN or an infinity, and (2^54 - 1) 2^970, the least value that is rounded to infinity: a tie.
static void measure_special(long count) {
    static const uint64_t patterns[] = {0x7ff0000000000000, 0xfff0000000000000, 0x7ff8000000000000, 0xfff8000000000000, 0x7ff0000000000001, 0xffffffffffffffff};
    long before = differ;
    for (long i = 0; i < count; i++) {
        double x = of_bits(patterns[draw() % 6]), y = of_bits(draw() & 1 ? draw() : patterns[draw() % 6]);
        for (int turn = 0; turn < 2; turn++) {
            double p = turn ? y : x, q = turn ? x : y, got = port_hypot(p, q), want = isinf(p) || isinf(q) ? INFINITY : NAN;
            if (isnan(want) ? !isnan(got) : bits_of(got) != bits_of(want)) differs(p, q, got, want);
        }
    }
    double x = 0x1.e1f0a43c3e148p+1023, y = 0x1.59b43fab3687fp+1022, got = port_hypot(x, y);
    if (bits_of(got) != bits_of(INFINITY)) differs(x, y, got, INFINITY);
    printf("hypot: %ld pairs with a NaN or an infinity, and one at the end of the range, %ld not as they should be\n", 2 * count, differ - before);
}

int main(int count, char **words) {
    char *end;
    long n = count == 2 ? strtol(words[1], &end, 10) : -1;
    if (n <= 0 || *end) { fprintf(stderr, "usage: measure COUNT\n"); return 2; }
    mpfr_inits2(PRECISION, X, Y, R, E, (mpfr_ptr)0);
    measure_roots(n);
    double worst = 0;
    long pairs = 0;
    printf("%-32s %10s %18s %8s  at\n", "hypot", "pairs", "correctly rounded", "max ulp");
    for (unsigned f = 0; f < sizeof families / sizeof *families; f++) {
        struct row a = {families[f].name, 0, 0, 0, 0, 0};
        while (a.pairs < n) {
            double x, y;
            families[f].of(&x, &y);
            if (!isfinite(x) || !isfinite(y)) continue;
            pair(&a, x, y);
        }
        printf("%-32s %10ld %17.1f%% %8.3f  %016lx %016lx\n", a.name, a.pairs, 100.0 * a.rounded / a.pairs, a.worst, bits_of(a.x), bits_of(a.y));
        pairs += a.pairs;
        if (!(a.worst <= worst)) worst = a.worst;
    }
    printf("%-32s %10ld %18s %8.3f\n", "all", pairs, "", worst);
    printf("hypot: %ld pairs, %ld differ from MPFR's\n", pairs, differ);
    measure_special(n);
    return wrong != 0 || differ != 0;
}
