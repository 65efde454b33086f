// Measures the port's elementary functions against MPFR, and prints one table. Usage: measure POINTS
// Each row: POINTS arguments drawn from several families, the hard ones, and a search for worse about the worst of these.
// The status is 1 where a bound of exact.h does not hold.
#include "points.h"

extern double port_exp(double), port_ln(double), port_ln_1p(double), port_atan(double), port_sin(double);
extern double port_point(size_t i);
extern double port_lower_tail(double mean, double variance, double x), port_upper_tail(double mean, double variance, double x);

enum { WORST = 32, NEIGHBOURS = 1000, CLIMBS = 10 };
// In each row of the table: neighbours on either side of its seam, the same of its middle and of its point, and points drawn.
enum { BESIDE_SEAM = 2000, BESIDE_POINT = 300, INSIDE = 3000 };

typedef struct {
    const char *name, *range;
    double (*port)(double);
    Exact exact;
    double bound;
    double low, high;           // arguments outside are left out
    long points, rounded;       // rounded: correctly, that is within half a unit
    struct { double x, error; } worst[WORST];
} Row;

static mpfr_t argument, truth, distance;
static int broken;

// The error of got in units in the last place of the truth; infinity counts as 2^1024.
static double error_of(double got, const mpfr_t r) {
    if (isnan(got)) return INFINITY;
    if (isinf(got)) mpfr_set_si_2exp(distance, got > 0 ? 1 : -1, 1024, MPFR_RNDN);
    else mpfr_set_d(distance, got, MPFR_RNDN);
    if (mpfr_get_exp(r) > 1024 && !mpfr_zero_p(r)) {
        if (isinf(got) && (got > 0) == (mpfr_sgn(r) > 0)) return 0;
    }
    mpfr_sub(distance, distance, r, MPFR_RNDN);
    mpfr_abs(distance, distance, MPFR_RNDN);
    mpfr_mul_2si(distance, distance, -unit_of(r), MPFR_RNDN);
    return mpfr_get_d(distance, MPFR_RNDU);
}

static void at(Row *row, double x) {
    if (!(row->low <= x && x <= row->high)) return;
    mpfr_set_d(argument, x, MPFR_RNDN);
    row->exact(truth, argument, MPFR_RNDN);
    double error = error_of(row->port(x), truth);
    row->points++;
    if (error <= 0.5) row->rounded++;
    int i = WORST;
    while (i > 0 && error > row->worst[i - 1].error) i--;
    if (i == WORST || (i > 0 && row->worst[i - 1].x == x)) return;
    memmove(&row->worst[i + 1], &row->worst[i], (size_t)(WORST - 1 - i) * sizeof row->worst[0]);
    row->worst[i].x = x;
    row->worst[i].error = error;
}

// x, and count numbers on each side of it.
static void around(Row *row, double x, int count) {
    uint64_t b = bits_of(x);
    for (int i = -count; i <= count; i++) at(row, of_bits(b + (uint64_t)(int64_t)i));
}

// Looks for worse about the worst, at every distance from a neighbour's to a sixteenth.
static void climb(Row *row) {
    double x[WORST];
    for (int i = 0; i < WORST; i++) x[i] = row->worst[i].x;
    for (int i = 0; i < WORST; i++)
        for (int j = 0; j < NEIGHBOURS; j++) at(row, x[i] + x[i] * signed_scaled(-52, -5));
}

static void finish(Row *row) {
    for (int i = 0; i < CLIMBS; i++) climb(row);
    printf("| %s | %s | %ld | %.4f | %.17g | %016lx | %.1f %% | %.2f |\n", row->name, row->range, row->points, row->worst[0].error,
        row->worst[0].x, (unsigned long)bits_of(row->worst[0].x), 100.0 * row->rounded / row->points, row->bound);
    fflush(stdout);
    if (!(row->worst[0].error <= row->bound)) {
        fprintf(stderr, "measure: %s: %.4f is above its bound %.2f\n", row->name, row->worst[0].error, row->bound);
        broken = 1;
    }
}

static void exp_points(Row *row, long points) {
    for (long i = 0; i < points; i++) at(row, row->low + (row->high - row->low) * uniform(0, 1));
    for (long i = 0; i < points; i++) at(row, exp_point(i));
    for (int k = -1075; k <= 1024; k++) {                          // seams of x = k ln 2 + r, and r near 0
        around(row, (k + 0.5) * M_LN2, 30);
        around(row, k * M_LN2, 30);
    }
    around(row, -745.13321910194122, 100);
    around(row, EXP_SUBNORMAL, 100);
    around(row, 709.78271289338397, 100);
    finish(row);
}

static void exp_rows(long points) {
    Row row = {"exp", "to 709.8, results normal", port_exp, mpfr_exp, EXP_BOUND, EXP_SUBNORMAL, 709.8};
    Row subnormal = {"exp", "from -745.2, results subnormal", port_exp, mpfr_exp, EXP_SUBNORMAL_BOUND, -745.2, EXP_SUBNORMAL};
    exp_points(&row, points);
    exp_points(&subnormal, points);
}

static void ln_row(long points) {
    Row row = {"ln", "all above 0", port_ln, mpfr_log, LN_BOUND, 0x1p-1074, 0x1.fffffffffffffp1023};
    for (long i = 0; i < points; i++) at(&row, ln_point(i));
    for (int k = -1074; k <= 1023; k++) {                          // seams of x = 2^k m
        around(&row, ldexp(M_SQRT2, k), 30);
        around(&row, ldexp(1, k), 30);
    }
    around(&row, 1, 50000);
    around(&row, M_SQRT2, 20000);
    around(&row, M_SQRT1_2, 20000);
    finish(&row);
}

static double itself(double y) { return y; }

// Every row of the table, on one side of 0. argument_of has the argument for a y: itself or its root. The draws come from a stream of
// their own, so that the families' points do not hang on them.
static void table_points(Row *row, double (*argument_of)(double), double side) {
    static uint64_t own = 1181783497276652981ULL;
    uint64_t families = state;
    state = own;
    for (int i = 0; i < ROWS; i++) {
        double from = argument_of(row_start(i)), to = argument_of(row_start(i + 1)), p = port_point((size_t)i);
        around(row, side * from, BESIDE_SEAM);
        around(row, side * (from + to) / 2, BESIDE_POINT);
        around(row, side * argument_of(p * p), BESIDE_POINT);
        for (int j = 0; j < INSIDE; j++) at(row, side * uniform(from, to));
    }
    around(row, side * argument_of(row_start(ROWS)), 10000);
    around(row, side * argument_of(REACH), 10000);
    around(row, side * argument_of(0x1p22), 10000);                // where the count of rows would begin again
    own = state;
    state = families;
}

static void ln_1p_row(long points) {
    Row row = {"ln_1p", "from 0 up", port_ln_1p, mpfr_log1p, LN_1P_BOUND, 0, 0x1.fffffffffffffp1023};
    for (long i = 0; i < points; i++) at(&row, ln_1p_point(i));
    table_points(&row, itself, 1);
    for (int k = -60; k <= 200; k++) around(&row, ldexp(1, k), 60);
    for (int k = 22; k <= 200; k++) {                              // seams of 1 + x = 2^k m, beyond the reach
        around(&row, ldexp(M_SQRT2, k) - 1, 60);
        around(&row, ldexp(1, k) - 1, 60);
    }
    around(&row, 0x1p-1022, 1000);
    finish(&row);
}

static void ln_1p_below_row(long points) {
    Row row = {"ln_1p", "-1 to 0", port_ln_1p, mpfr_log1p, LN_1P_BELOW_BOUND, -0x1.fffffffffffffp-1, -0.0};
    for (long i = 0; i < points; i++) at(&row, ln_1p_below_point(i));
    for (int k = 1; k <= 52; k++) {
        around(&row, ldexp(1, -k) - 1, 60);
        around(&row, ldexp(M_SQRT1_2, -k) - 1, 60);
    }
    around(&row, M_SQRT1_2 - 1, 20000);
    finish(&row);
}

static void atan_row(long points) {
    // tiny, where the square underflows, where 1 / a no longer counts, where the square overflows
    static const double seam[] = {0x1p-1022, 0x1p-538, 0x1p-511, 0x1p-28, 0x1p-27, 0x1p53, 0x1p54, 0x1p55, 0x1p512};
    Row row = {"atan", "all", port_atan, mpfr_atan, ATAN_BOUND, -0x1.fffffffffffffp1023, 0x1.fffffffffffffp1023};
    for (long i = 0; i < points; i++) at(&row, atan_point(i));
    table_points(&row, sqrt, 1);
    table_points(&row, sqrt, -1);
    for (unsigned i = 0; i < sizeof seam / sizeof seam[0]; i++) {
        around(&row, seam[i], 5000);
        around(&row, -seam[i], 5000);
    }
    finish(&row);
}

// Multiples of pi/2, where the result is near 0 or 1, and the seams between them: at most 4000 of those to `most`, with count numbers on each side.
static void around_turns(Row *row, double most, int count) {
    long last = (long)(most / M_PI_4), step = 1 + last / 4000;
    for (long k = 1; k <= last; k += step) {
        around(row, k * M_PI_4, count);
        around(row, -k * M_PI_4, count);
    }
}

static void sin_row(long points) {
    Row row = {"sin", "to 256 in size", port_sin, mpfr_sin, SIN_BOUND, -256, 256};
    for (long i = 0; i < points; i++) at(&row, sin_point(i));
    around_turns(&row, 256, 300);
    around(&row, 0x1p-27, 1000);
    finish(&row);
}

// Beyond what the port needs, to the end of the reduction.
static void sin_far_row(long points) {
    Row row = {"sin", "256 to 1647099 in size", port_sin, mpfr_sin, SIN_BOUND, -1647099, 1647099};
    for (long i = 0; i < points; i++) {
        double side = sign();
        at(&row, side * uniform(256, 1647099));
    }
    around_turns(&row, 1647099, 30);
    finish(&row);
}

// Both tails of one law at one point; the greatest distances from the truth and of their sum from 1.
static double lower_error, upper_error, sum_error;
static long tail_points;
static void tails_at(double mean, double variance, double x) {
    double lower = port_lower_tail(mean, variance, x), upper = port_upper_tail(mean, variance, x);
    exact_tail(truth, mean, variance, x, -1);
    mpfr_sub_d(distance, truth, lower, MPFR_RNDN);
    lower_error = fmax(lower_error, fabs(mpfr_get_d(distance, MPFR_RNDA)));
    exact_tail(truth, mean, variance, x, 1);
    mpfr_sub_d(distance, truth, upper, MPFR_RNDN);
    upper_error = fmax(upper_error, fabs(mpfr_get_d(distance, MPFR_RNDA)));
    mpfr_set_d(distance, lower, MPFR_RNDN);
    mpfr_add_d(distance, distance, upper, MPFR_RNDN);
    mpfr_sub_ui(distance, distance, 1, MPFR_RNDN);
    sum_error = fmax(sum_error, fabs(mpfr_get_d(distance, MPFR_RNDA)));
    tail_points++;
    if (!(lower >= 0 && lower <= 1 && upper >= 0 && upper <= 1)) {
        fprintf(stderr, "measure: a tail at mean %.17g, variance %.17g, x %.17g is not in [0, 1]\n", mean, variance, x);
        broken = 1;
    }
}

static void tail_rows(long points) {
    static const double seam[] = {0, 1, 2, 3, 4, 5, 6, 7, 8, 36, 37, 37.5, 38, 38.5, 39, 40};
    for (long i = 0; i < points; i++) {
        Place p = tail_point(i);
        tails_at(p.mean, p.variance, p.x);
    }
    for (unsigned i = 0; i < sizeof seam / sizeof seam[0]; i++)
        for (int j = -500; j <= 500; j++) {
            double x = of_bits(bits_of(seam[i]) + (uint64_t)(seam[i] == 0 ? j + 500 : j));
            tails_at(0, 1, x);
            tails_at(0, 1, -x);
        }
    printf("\n| | points | greatest distance | bound |\n|---|---|---|---|\n");
    printf("| lower_tail from the truth | %ld | %.3g | %.0g |\n", tail_points, lower_error, TAIL_BOUND);
    printf("| upper_tail from the truth | %ld | %.3g | %.0g |\n", tail_points, upper_error, TAIL_BOUND);
    printf("| lower_tail + upper_tail from 1 | %ld | %.3g | %.0g |\n", tail_points, sum_error, TAIL_BOUND);
    if (!(lower_error <= TAIL_BOUND && upper_error <= TAIL_BOUND && sum_error <= TAIL_BOUND)) {
        fprintf(stderr, "measure: a tail is above its bound\n");
        broken = 1;
    }
}

int main(int count, char **words) {
    char *end = 0;
    long points = count == 2 ? strtol(words[1], &end, 10) : 0;
    if (points < 1000 || *end) {
        fprintf(stderr, "usage: measure POINTS (1000 or more)\n");
        return 2;
    }
    mpfr_inits2(PRECISION, argument, truth, distance, (mpfr_ptr)0);
    printf("| function | arguments | points | max error (ulp) | at | its bits | correctly rounded | bound |\n|---|---|---|---|---|---|---|---|\n");
    exp_rows(points);
    ln_row(points);
    ln_1p_row(points);
    ln_1p_below_row(points);
    atan_row(points);
    sin_row(points);
    sin_far_row(points);
    tail_rows(points);
    return broken;
}
