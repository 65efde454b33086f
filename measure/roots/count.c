// Calls a function many times, for count.sh to count its instructions.
// Usage: count FUNCTION ARGUMENTS CALLS    FUNCTION: one, sqrt (of x); two, hypot, platform (of x and y). ARGUMENTS: weights, any, subnormal
#include <math.h>
#include <stdint.h>
#include <stdio.h>
#include <stdlib.h>
#include <string.h>

double counted_sqrt(double);
double counted_hypot(double, double);

// These give an argument back: what the loop and the call take.
static double one(double x) { return x; }
static double two(double x, double y) { return (void)y, x; }

// xorshift64*, from one seed: every run draws the same numbers.
static uint64_t state = 88172645463325252ULL;
static uint64_t draw(void) {
    state ^= state >> 12;
    state ^= state << 25;
    state ^= state >> 27;
    return state * 2685821657736338717ULL;
}
static double of_bits(uint64_t b) { double x; memcpy(&x, &b, 8); return x; }
static double weight(void) { return 1e-3 + (4 - 1e-3) * ((draw() >> 11) * 0x1p-53); }
static double any(void) { return of_bits((1ULL << 52) + draw() % 0x7fe0000000000000ULL); }
static double subnormal(void) { return of_bits(1 + draw() % ((1ULL << 52) - 1)); }

static const struct { const char *name; double (*of_one)(double), (*of_two)(double, double); } functions[] = {
    {"one", one, 0}, {"sqrt", counted_sqrt, 0}, {"two", 0, two}, {"hypot", 0, counted_hypot}, {"platform", 0, hypot},
};
static const struct { const char *name; double (*of)(void); } families[] = {{"weights", weight}, {"any", any}, {"subnormal", subnormal}};

int main(int count, char **words) {
    unsigned f = 0, g = 0;
    while (count == 4 && f < sizeof functions / sizeof *functions && strcmp(words[1], functions[f].name)) f++;
    while (count == 4 && g < sizeof families / sizeof *families && strcmp(words[2], families[g].name)) g++;
    if (count != 4 || f == sizeof functions / sizeof *functions || g == sizeof families / sizeof *families) {
        fprintf(stderr, "usage: count FUNCTION ARGUMENTS CALLS\n");
        return 2;
    }
    double (*of_one)(double) = functions[f].of_one, (*of_two)(double, double) = functions[f].of_two, (*next)(void) = families[g].of, sum = 0;
    long calls = atol(words[3]);
    if (of_one) for (long i = 0; i < calls; i++) sum += of_one(next());
    else for (long i = 0; i < calls; i++) { double x = next(); sum += of_two(x, next()); }
    printf("%a\n", sum);
    return 0;
}
