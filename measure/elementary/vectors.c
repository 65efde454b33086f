// Writes the vectors that crates/try_elementary replays. MPFR and the list of edges decide them; the port is not called. The file is words of
// 8 bytes, the least byte first: how many vectors each function has, then function by function its vectors: the arguments (one; mean, variance
// and point for a tail), and the least and the greatest answer allowed, as patterns. `vectors text` prints them as lines of hex digits.
#include "points.h"

enum { DRAWN = 200, NEAR = 2, MOST = 65536 / 8 };

enum { EXP, LN, LN_1P, ATAN, SIN, LOWER_TAIL, UPPER_TAIL, FUNCTIONS };
static const char *const names[FUNCTIONS] = {"exp", "ln", "ln_1p", "atan", "sin", "lower_tail", "upper_tail"};

// Patterns of edges.
#define INF 0x7ff0000000000000
#define NONE 0x7ff8000000000000
#define MINUS 0x8000000000000000
#define ONE 0x3ff0000000000000
#define LARGEST 0x7fefffffffffffff
#define HALF_PI 0x3ff921fb54442d18

static mpfr_t truth, end;

static struct { uint64_t vectors, count, words[MOST]; } group[FUNCTIONS];

static void word(int function, double x) {
    if (group[function].count == MOST) {
        fprintf(stderr, "vectors: more than %d words\n", MOST);
        exit(1);
    }
    group[function].words[group[function].count++] = bits_of(x);
}

// A NaN's sign and digits hang on the machine: it is answered by the one pattern.
static double answer(double x) { return isnan(x) ? of_bits(NONE) : x; }

static void line(int function, const double *arguments, int count, double least, double greatest) {
    for (int i = 0; i < count; i++) word(function, arguments[i]);
    word(function, answer(least));
    word(function, answer(greatest));
    group[function].vectors++;
}

// truth + reach 2^unit, rounded towards truth.
static double end_of(double reach, long unit) {
    mpfr_set_d(end, reach, MPFR_RNDN);
    mpfr_mul_2si(end, end, unit, MPFR_RNDN);
    mpfr_add(end, truth, end, MPFR_RNDN);
    double x = mpfr_get_d(end, reach < 0 ? MPFR_RNDU : MPFR_RNDD);
    return x == 0 ? copysign(0, mpfr_sgn(truth)) : x;
}

typedef struct {
    int name;
    Exact exact;
    double bound;
} Function;

// The line of x, unless the truth is 0: that is an edge.
static void at(const Function *f, double x) {
    mpfr_set_d(end, x, MPFR_RNDN);
    f->exact(truth, end, MPFR_RNDN);
    if (mpfr_zero_p(truth)) return;
    double nearest = mpfr_get_d(truth, MPFR_RNDN);
    if (isinf(nearest)) line(f->name, &x, 1, nearest, nearest);
    else line(f->name, &x, 1, end_of(-f->bound, unit_of(truth)), end_of(f->bound, unit_of(truth)));
}

// x and NEAR numbers on each side of it.
static void around(const Function *f, double x) {
    for (int i = -NEAR; i <= NEAR; i++) at(f, of_bits(bits_of(x) + (uint64_t)(int64_t)i));
}

static void exp_at(double x) {
    const Function normal = {EXP, mpfr_exp, EXP_BOUND}, subnormal = {EXP, mpfr_exp, EXP_SUBNORMAL_BOUND};
    at(x < EXP_SUBNORMAL ? &subnormal : &normal, x);
}

static void exp_around(double x) {
    for (int i = -NEAR; i <= NEAR; i++) exp_at(of_bits(bits_of(x) + (uint64_t)(int64_t)i));
}

static void exp_lines(void) {
    for (int i = 0; i < DRAWN; i++) exp_at(exp_point(i));
    for (int k = -1075; k <= 1024; k += 139) exp_around((k + 0.5) * M_LN2);
    exp_around(-745.13321910194122);
    exp_around(EXP_SUBNORMAL);
    exp_around(709.78271289338397);
    exp_at(1);
}

static void ln_lines(void) {
    const Function f = {LN, mpfr_log, LN_BOUND};
    for (int i = 0; i < DRAWN; i++) at(&f, ln_point(i));
    for (int k = -1074; k <= 1023; k += 149) around(&f, ldexp(M_SQRT2, k));
    around(&f, 1);
    around(&f, M_SQRT2);
    around(&f, M_SQRT1_2);
    around(&f, 0x1p-1022);
    at(&f, 0x1.fffffffffffffp1023);
}

// Points of the table that atan and ln_1p share, of its rows 4, 40, 83 and 127.
static const uint64_t table_points[] = {0x3fa1e3608a76d5ad, 0x3ff0ef76433ef41a, 0x4045e27aedfa978c, 0x409ef314691d6974};
enum { TABLE_POINTS = sizeof table_points / sizeof table_points[0] };

// A spread of the table's seams, of every quarter: the first, the last and each ninth; the first beside a point above 0; the reach; where the
// rows end, and where their count would begin again. Each is the y: ln_1p's argument, and the square of atan's.
static int seams(double *y) {
    int count = 0;
    for (int i = 1; i < ROWS; i += 9) y[count++] = row_start(i);
    y[count++] = row_start(4);
    y[count++] = REACH;
    y[count++] = row_start(ROWS);
    y[count++] = 0x1p22;
    return count;
}

static void ln_1p_lines(void) {
    const Function f = {LN_1P, mpfr_log1p, LN_1P_BOUND}, below = {LN_1P, mpfr_log1p, LN_1P_BELOW_BOUND};
    double y[ROWS];
    int count = seams(y);
    for (int i = 0; i < DRAWN; i++) at(&f, ln_1p_point(i));
    for (int i = 0; i < DRAWN; i++) at(&below, ln_1p_below_point(i));
    for (int i = 0; i < count; i++) around(&f, y[i]);
    for (int i = 0; i < TABLE_POINTS; i++) at(&f, of_bits(table_points[i]) * of_bits(table_points[i]));
    for (int k = 24; k <= 60; k += 12) around(&f, ldexp(M_SQRT2, k) - 1);
    around(&below, M_SQRT1_2 - 1);
    around(&f, 1);
    around(&f, 0x1p53);
    at(&f, 0x1.fffffffffffffp1023);
}

static void atan_lines(void) {
    static const double seam[] = {1, 0x1p-28, 0x1p54};
    const Function f = {ATAN, mpfr_atan, ATAN_BOUND};
    double y[ROWS];
    int count = seams(y);
    for (int i = 0; i < DRAWN; i++) at(&f, atan_point(i));
    for (int i = 0; i < count; i++) {
        around(&f, sqrt(y[i]));
        at(&f, -sqrt(y[i]));
    }
    for (int i = 0; i < TABLE_POINTS; i++) {
        at(&f, of_bits(table_points[i]));
        at(&f, -of_bits(table_points[i]));
    }
    for (unsigned i = 0; i < sizeof seam / sizeof seam[0]; i++) {
        around(&f, seam[i]);
        around(&f, -seam[i]);
    }
}

static void sin_lines(void) {
    const Function f = {SIN, mpfr_sin, SIN_BOUND};
    for (int i = 0; i < DRAWN; i++) at(&f, sin_point(i));
    for (int k = 1; k <= 325; k += 27) {
        around(&f, k * M_PI_4);
        around(&f, -k * M_PI_4);
    }
    around(&f, 164 * M_PI_2);
}

// Both tails at one place. An end outside 0 .. 1 is no answer.
static void tails_at(Place p) {
    double arguments[] = {p.mean, p.variance, p.x};
    for (int name = LOWER_TAIL; name <= UPPER_TAIL; name++) {
        exact_tail(truth, p.mean, p.variance, p.x, name == LOWER_TAIL ? -1 : 1);
        line(name, arguments, 3, fmax(0, end_of(-TAIL_BOUND, 0)), fmin(1, end_of(TAIL_BOUND, 0)));
    }
}

static void tail_lines(void) {
    for (int i = 0; i < DRAWN; i++) tails_at(tail_point(i));
    for (double x = -8; x <= 8; x += 0.5) tails_at((Place){0, 1, x});
}

// Answers to the bit: IEEE 754 (9.2.1) for what it names; a NaN for the sine beyond its reduction; of the tails, what their definition says.
static void edge_lines(void) {
    static const struct { int name; uint64_t x, answer; } edges[] = {
        {EXP, 0, ONE}, {EXP, MINUS, ONE}, {EXP, 1, ONE}, {EXP, MINUS | 1, ONE}, {EXP, INF, INF}, {EXP, MINUS | INF, 0}, {EXP, NONE, NONE},
        {EXP, LARGEST, INF}, {EXP, MINUS | LARGEST, 0},
        {LN, ONE, 0}, {LN, 0, MINUS | INF}, {LN, MINUS, MINUS | INF}, {LN, MINUS | 1, NONE}, {LN, MINUS | ONE, NONE}, {LN, INF, INF},
        {LN, MINUS | INF, NONE}, {LN, NONE, NONE},
        {LN_1P, 0, 0}, {LN_1P, MINUS, MINUS}, {LN_1P, 1, 1}, {LN_1P, MINUS | 1, MINUS | 1}, {LN_1P, MINUS | ONE, MINUS | INF},
        {LN_1P, MINUS | (ONE + 1), NONE}, {LN_1P, INF, INF}, {LN_1P, MINUS | INF, NONE}, {LN_1P, NONE, NONE},
        {ATAN, 0, 0}, {ATAN, MINUS, MINUS}, {ATAN, 1, 1}, {ATAN, MINUS | 1, MINUS | 1}, {ATAN, INF, HALF_PI}, {ATAN, MINUS | INF, MINUS | HALF_PI},
        {ATAN, LARGEST, HALF_PI}, {ATAN, MINUS | LARGEST, MINUS | HALF_PI}, {ATAN, NONE, NONE},
        {SIN, 0, 0}, {SIN, MINUS, MINUS}, {SIN, 1, 1}, {SIN, MINUS | 1, MINUS | 1}, {SIN, INF, NONE}, {SIN, MINUS | INF, NONE}, {SIN, NONE, NONE},
        {SIN, LARGEST, NONE}, {SIN, MINUS | LARGEST, NONE}, {SIN, 0x413921fb00000001, NONE}, {SIN, MINUS | 0x413921fb00000001, NONE},
    };
    static const struct { uint64_t mean, variance, x, lower, upper; } tails[] = {
        {0, ONE, INF, ONE, 0}, {0, ONE, MINUS | INF, 0, ONE}, {0, ONE, LARGEST, ONE, 0}, {0, ONE, MINUS | LARGEST, 0, ONE},
        {0, ONE, 0x4044000000000000, ONE, 0}, {0, ONE, 0xc044000000000000, 0, ONE},                 // at 40 and -40
        {NONE, ONE, 0, NONE, NONE}, {0, NONE, 0, NONE, NONE}, {0, ONE, NONE, NONE, NONE}, {0, MINUS | ONE, 0, NONE, NONE},
        {INF, ONE, 0, 0, ONE}, {MINUS | INF, ONE, 0, ONE, 0}, {INF, ONE, INF, NONE, NONE},
        {0, 0, ONE, ONE, 0}, {0, 0, MINUS | ONE, 0, ONE}, {0, 0, 0, NONE, NONE},                     // no variance
    };
    for (unsigned i = 0; i < sizeof edges / sizeof edges[0]; i++) {
        double x = of_bits(edges[i].x), answer = of_bits(edges[i].answer);
        line(edges[i].name, &x, 1, answer, answer);
    }
    for (unsigned i = 0; i < sizeof tails / sizeof tails[0]; i++) {
        double arguments[] = {of_bits(tails[i].mean), of_bits(tails[i].variance), of_bits(tails[i].x)};
        line(LOWER_TAIL, arguments, 3, of_bits(tails[i].lower), of_bits(tails[i].lower));
        line(UPPER_TAIL, arguments, 3, of_bits(tails[i].upper), of_bits(tails[i].upper));
    }
}

static void put(uint64_t w) {
    for (int i = 0; i < 8; i++) putchar((int)(w >> (8 * i) & 255));
}

static void write_words(void) {
    for (int f = 0; f < FUNCTIONS; f++) put(group[f].vectors);
    for (int f = 0; f < FUNCTIONS; f++)
        for (uint64_t i = 0; i < group[f].count; i++) put(group[f].words[i]);
}

static void write_text(void) {
    for (int f = 0; f < FUNCTIONS; f++) {
        uint64_t width = group[f].count / group[f].vectors;
        for (uint64_t i = 0; i < group[f].count; i++) {
            if (i % width == 0) printf("%s", names[f]);
            printf(" %016lx%s", (unsigned long)group[f].words[i], i % width == width - 1 ? "\n" : "");
        }
    }
}

int main(int count, char **arguments) {
    int is_text = count == 2 && strcmp(arguments[1], "text") == 0;
    if (count != 1 && !is_text) {
        fprintf(stderr, "usage: vectors [text]\n");
        return 2;
    }
    mpfr_inits2(PRECISION, truth, end, (mpfr_ptr)0);
    exp_lines();
    ln_lines();
    ln_1p_lines();
    atan_lines();
    sin_lines();
    tail_lines();
    edge_lines();
    uint64_t words = FUNCTIONS;
    for (int f = 0; f < FUNCTIONS; f++) words += group[f].count;
    if (words > MOST) {
        fprintf(stderr, "vectors: %lu words, more than %d\n", (unsigned long)words, MOST);
        return 1;
    }
    if (is_text) write_text();
    else write_words();
    return fflush(stdout) == 0 && !ferror(stdout) ? 0 : 1;
}
