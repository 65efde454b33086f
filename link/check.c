/* Calls the library on sheets whose answers are known: worked by hand where p is 0, 1/2 or 1, else by the oracle's first build (oracle/README.md),
   which shares the library's elementary functions and so its bits. Prints each check that fails, then `N passed, M failed`; status 1 if any failed. */
#include "dwexport.h"
#include "../target/link/fields.h" /* names[], which link/check has tools/line.py write */

#include <stdio.h>
#include <string.h>

enum { ROWS = DWEXPORT_MAX_ROWS, COLUMNS = DWEXPORT_MAX_COLUMNS, BEYOND = 5 };
#define ROOM DWEXPORT_MATRIX_ROOM(ROWS)
#define TWO 0x4000000000000000u
#define ONE 0x3ff0000000000000u
#define HALF 0x3fe0000000000000u

static unsigned passed, failed;
static double residuals[ROWS + 1], columns[(COLUMNS + 1) * (ROWS + 1)], matrix[ROOM + BEYOND], parts[DWEXPORT_PART_ROOM + BEYOND];
static uint64_t result[DWEXPORT_WORDS + 1];

static void check(const char *name, const char *what, int holds) {
    if (holds) {
        passed++;
    } else {
        failed++;
        printf("FAILED %s: %s\n", name, what);
    }
}

static void fill(double *run, size_t from, size_t to, double x) {
    for (size_t t = from; t < to; t++) run[t] = x;
}

/* Whether each number has the bits of x: a sum or == would take -0 for +0. */
static int all(const double *run, size_t from, size_t to, double x) {
    for (size_t t = from; t < to; t++)
        if (memcmp(&run[t], &x, sizeof x) != 0) return 0;
    return 1;
}

/* Whole numbers without a drift. */
static void cubes(size_t n) {
    for (size_t t = 0; t < n; t++) residuals[t] = (double)((long)(t * t * t % 17) - 8);
}

/* An intercept, then the position where there is room for it. */
static void intercept_and_position(size_t n, size_t k) {
    fill(columns, 0, n, 1.0);
    for (size_t t = 0; k > 1 && t < n; t++) columns[n + t] = (double)t;
}

static uint32_t call_with(size_t n, size_t m, size_t k, uint32_t alternative, uint32_t choice, size_t matrix_len, size_t parts_len, size_t result_len) {
    fill(matrix, 0, ROOM + BEYOND, -7.5);
    fill(parts, 0, DWEXPORT_PART_ROOM + BEYOND, -7.5);
    for (size_t t = 0; t <= DWEXPORT_WORDS; t++) result[t] = 0xdeadbeef;
    return dwexport_test(residuals, n, columns, m, k, alternative, choice, matrix, matrix_len, parts, parts_len, result, result_len);
}

/* The rooms at exit: the first n (n + 1) and 8,004 numbers +0, or all as they were. */
static void check_rooms(const char *name, size_t n, int used) {
    size_t m = used ? DWEXPORT_MATRIX_ROOM(n) : 0, p = used ? DWEXPORT_PART_ROOM : 0;
    check(name, "the matrix room at exit", all(matrix, 0, m, 0.0) && all(matrix, m, ROOM + BEYOND, -7.5));
    check(name, "the part room at exit", all(parts, 0, p, 0.0) && all(parts, p, DWEXPORT_PART_ROOM + BEYOND, -7.5));
}

static void check_words(const char *name, const uint64_t *words) {
    for (size_t t = 0; t < DWEXPORT_WORDS; t++) check(name, names[t], result[t] == words[t]);
    check(name, "a word beyond the result", result[DWEXPORT_WORDS] == 0xdeadbeef);
}

/* A sheet of n rows and m numbers of columns with rooms of these lengths. */
static void answered_with(const char *name, size_t n, size_t m, size_t k, uint32_t alternative, uint32_t choice, size_t matrix_len, size_t parts_len, int used, const uint64_t *words) {
    check(name, "answered", call_with(n, m, k, alternative, choice, matrix_len, parts_len, DWEXPORT_WORDS) == DWEXPORT_ANSWERED);
    check_words(name, words);
    check_rooms(name, n, used);
}

/* Of n rows and k columns, with both rooms just long enough, and then longer. */
static void answered(const char *name, size_t n, size_t k, uint32_t alternative, uint32_t choice, int used, const uint64_t *words) {
    answered_with(name, n, k * n, k, alternative, choice, n <= ROWS ? DWEXPORT_MATRIX_ROOM(n) : ROOM, DWEXPORT_PART_ROOM, used, words);
    answered_with(name, n, k * n, k, alternative, choice, ROOM + BEYOND, DWEXPORT_PART_ROOM + BEYOND, used, words);
}

static void accepted(const char *name, size_t n, size_t k, uint32_t alternative, uint32_t choice, uint64_t statistic, uint64_t p, uint64_t path, uint64_t kept, uint64_t sweeps, uint64_t bisections, uint64_t evaluations, uint64_t settled) {
    const uint64_t words[DWEXPORT_WORDS] = {[DWEXPORT_STATISTIC] = statistic, [DWEXPORT_P] = p, [DWEXPORT_PATH] = path, [DWEXPORT_KEPT] = kept,
        [DWEXPORT_SWEEPS] = sweeps, [DWEXPORT_BISECTIONS] = bisections, [DWEXPORT_EVALUATIONS] = evaluations, [DWEXPORT_SETTLED] = settled};
    answered(name, n, k, alternative, choice, path == 2, words);
}

static void refused(const char *name, size_t n, size_t k, uint32_t choice, uint64_t refusal, uint64_t place) {
    const uint64_t words[DWEXPORT_WORDS] = {[DWEXPORT_REFUSAL] = refusal, [DWEXPORT_PLACE] = place};
    answered(name, n, k, DWEXPORT_GREATER, choice, 0, words);
}

/* A call that is not answered: nothing is written. */
static void turned_away(const char *name, uint32_t alternative, uint32_t choice, size_t result_len, uint32_t code) {
    check(name, "the code", call_with(4, 4, 1, alternative, choice, ROOM, DWEXPORT_PART_ROOM, result_len) == code);
    for (size_t t = 0; t <= DWEXPORT_WORDS; t++) check(name, "the result's words stay", result[t] == 0xdeadbeef);
    check_rooms(name, 4, 0);
}

static void set(double a, double b, double c, double d) {
    residuals[0] = a, residuals[1] = b, residuals[2] = c, residuals[3] = d;
    fill(columns, 0, 2 * ROWS, 1.0);
}

static void by_hand(void) {
    set(1, -1, 1, -1);
    accepted("P1: 1, -1", 2, 1, DWEXPORT_GREATER, DWEXPORT_DEFAULT, TWO, ONE, 1, 0, 0, 0, 0, 1);
    accepted("P2: 1, -1, 1, -1, less, normal", 4, 1, DWEXPORT_LESS, DWEXPORT_NORMAL, 0x4008000000000000u, ONE, 4, 0, 0, 0, 0, 1);
    set(1, 1, -1, -1);
    accepted("P3: 1, 1, -1, -1, two-sided, normal", 4, 1, DWEXPORT_TWO_SIDED, DWEXPORT_NORMAL, ONE, ONE, 4, 0, 0, 0, 0, 1);
    set(1, 1, 0, 0);
    accepted("P4: 1, 1, 0, exact", 3, 1, DWEXPORT_GREATER, DWEXPORT_EXACT, HALF, 0, 2, 2, 5, 0, 0, 1);
    accepted("P4, less", 3, 1, DWEXPORT_LESS, DWEXPORT_EXACT, HALF, ONE, 2, 2, 5, 0, 0, 1);
    set(0, 1, 0, 0);
    accepted("P5: 0, 1, 0, exact", 3, 1, DWEXPORT_GREATER, DWEXPORT_EXACT, TWO, HALF, 2, 2, 5, 0, 15, 1);
    refused("P6: no column", 2, 0, DWEXPORT_DEFAULT, 1, 0);
    set(1, -1, 0, 0);
    refused("P7: one row", 1, 1, DWEXPORT_DEFAULT, 6, 0);
    refused("P10: as many columns as rows", 2, 2, DWEXPORT_DEFAULT, 10, 0);
    refused("no row", 0, 1, DWEXPORT_DEFAULT, 5, 0);
    refused("two columns of ones", 3, 2, DWEXPORT_EXACT, 11, 1);
    refused("257 rows", 257, 1, DWEXPORT_DEFAULT, 2, 0);
    refused("9 columns", 20, 9, DWEXPORT_DEFAULT, 2, 1);
    set(0, 0, 0, 0);
    refused("P8: zeros", 2, 1, DWEXPORT_DEFAULT, 8, 0);
    set(1e200, 1e200, 0, 0);
    refused("P9: 1e200 twice", 2, 1, DWEXPORT_DEFAULT, 9, 0);
    set(0, 0, 0, 0);
    residuals[4] = 1;
    fill(columns, 0, 20, 0.0);
    for (size_t t = 0; t < 4; t++) columns[5 * t + t] = 1.0;
    refused("P11: four unit vectors", 5, 4, DWEXPORT_NORMAL, 14, 0);
    set(1, -1, 0, 0);
    fill(columns, 0, 2, 0x1p-515);
    refused("P12: the column 2^-515 twice", 2, 1, DWEXPORT_DEFAULT, 13, 1);
    set(1, -1, 0, 0);
    residuals[1] = residuals[1] / 0.0;
    refused("a residual is not finite", 3, 1, DWEXPORT_DEFAULT, 7, 1);
    set(1, -1, 0, 0);
    columns[2] = columns[2] / 0.0;
    refused("a column number is not finite", 3, 1, DWEXPORT_DEFAULT, 4, 2);
}

static void by_the_oracle(void) {
    set(1, -1, 0, 0);
    accepted("1, -1, 0, exact", 3, 1, DWEXPORT_GREATER, DWEXPORT_EXACT, 0x4004000000000000u, 0x3fe5555555554755u, 2, 2, 5, 16, 495, 1);
    accepted("1, -1, 0, exact, less", 3, 1, DWEXPORT_LESS, DWEXPORT_EXACT, 0x4004000000000000u, 0x3fd5555555557156u, 2, 2, 5, 16, 495, 1);
    accepted("1, -1, 0, exact, two-sided", 3, 1, DWEXPORT_TWO_SIDED, DWEXPORT_EXACT, 0x4004000000000000u, 0x3fe5555555557156u, 2, 2, 5, 16, 495, 1);
    cubes(20);
    intercept_and_position(20, 2);
    accepted("20 rows, normal", 20, 2, DWEXPORT_GREATER, DWEXPORT_NORMAL, 0x3ffcaeecd63bf23eu, 0x3fcce7f13d3b3f98u, 3, 0, 0, 0, 0, 1);
    accepted("20 rows, normal, less", 20, 2, DWEXPORT_LESS, DWEXPORT_NORMAL, 0x3ffcaeecd63bf23eu, 0x3fe8c603b0b1301au, 3, 0, 0, 0, 0, 1);
    accepted("20 rows", 20, 2, DWEXPORT_TWO_SIDED, DWEXPORT_DEFAULT, 0x3ffcaeecd63bf23eu, 0x3fdd9bd745fb9216u, 2, 18, 42, 13, 405, 1);
    cubes(100);
    intercept_and_position(99, 1);
    accepted("99 rows, default", 99, 1, DWEXPORT_GREATER, DWEXPORT_DEFAULT, 0x4000bedf1d04838cu, 0x3fe5bb1ae801e75au, 2, 98, 208, 12, 375, 1);
    intercept_and_position(100, 1);
    accepted("100 rows, default", 100, 1, DWEXPORT_GREATER, DWEXPORT_DEFAULT, 0x4000c4ceb0d36ae4u, 0x3fe5f60706796d0eu, 3, 0, 0, 0, 0, 1);
    cubes(256);
    intercept_and_position(256, 2);
    accepted("256 rows, exact, two-sided", 256, 2, DWEXPORT_TWO_SIDED, DWEXPORT_EXACT, 0x40012768fbb1d799u, 0x3fd18cb0b5d9fad0u, 2, 254, 523, 13, 405, 1);
    set(1, -1, 2, 0);
    residuals[4] = 1, residuals[5] = -1;
    fill(columns, 0, 12, 0.0);
    columns[1] = 0x1p-519, columns[5] = 1.0, columns[8] = columns[9] = 1.0;
    accepted("2^-519 in a column: four indexes out of sweeps", 6, 2, DWEXPORT_GREATER, DWEXPORT_EXACT, 0x4006000000000000u, 0x3feeb6e524af1818u, 2, 4, 242, 15, 465, 0);
}

/* 2 n^2 numbers of matrix room, and one fewer: the answer is that of n (n + 1), and the numbers beyond these stay. */
static void full_matrices(void) {
    const uint64_t words[DWEXPORT_WORDS] = {[DWEXPORT_STATISTIC] = 0x3ffcaeecd63bf23eu, [DWEXPORT_P] = 0x3fdd9bd745fb9216u, [DWEXPORT_PATH] = 2, [DWEXPORT_KEPT] = 18,
        [DWEXPORT_SWEEPS] = 42, [DWEXPORT_BISECTIONS] = 13, [DWEXPORT_EVALUATIONS] = 405, [DWEXPORT_SETTLED] = 1};
    cubes(20);
    intercept_and_position(20, 2);
    answered_with("20 rows, 420 numbers of matrix room", 20, 40, 2, DWEXPORT_TWO_SIDED, DWEXPORT_EXACT, 420, DWEXPORT_PART_ROOM, 1, words);
    answered_with("20 rows, 799 numbers of matrix room", 20, 40, 2, DWEXPORT_TWO_SIDED, DWEXPORT_EXACT, 799, DWEXPORT_PART_ROOM, 1, words);
    answered_with("20 rows, 800 numbers of matrix room", 20, 40, 2, DWEXPORT_TWO_SIDED, DWEXPORT_EXACT, 800, DWEXPORT_PART_ROOM, 1, words);
    check("20 rows, 800 numbers of matrix room", "the first 420 are cleared, the other 380 stay", all(matrix, 0, 420, 0.0) && all(matrix, 420, 800, -7.5));
}

/* Lengths that do not fit: refusals of the test for the columns and the rooms, return codes for the rest. */
static void lengths_and_codes(void) {
    uint64_t words[DWEXPORT_WORDS] = {[DWEXPORT_REFUSAL] = 3};
    set(1, -1, 1, -1);
    answered_with("columns one number short", 4, 3, 1, DWEXPORT_GREATER, DWEXPORT_DEFAULT, ROOM, DWEXPORT_PART_ROOM, 0, words);
    words[DWEXPORT_REFUSAL] = 12, words[DWEXPORT_PLACE] = 1;
    answered_with("matrix room one number short", 4, 4, 1, DWEXPORT_GREATER, DWEXPORT_EXACT, 19, DWEXPORT_PART_ROOM, 0, words);
    words[DWEXPORT_PLACE] = 2;
    answered_with("part room one number short", 4, 4, 1, DWEXPORT_GREATER, DWEXPORT_EXACT, 20, DWEXPORT_PART_ROOM - 1, 0, words);
    turned_away("a result of no word", DWEXPORT_GREATER, DWEXPORT_EXACT, 0, DWEXPORT_WRONG_RESULT_LENGTH);
    turned_away("a result one word short", DWEXPORT_GREATER, DWEXPORT_EXACT, DWEXPORT_WORDS - 1, DWEXPORT_WRONG_RESULT_LENGTH);
    turned_away("a result one word long", DWEXPORT_GREATER, DWEXPORT_EXACT, DWEXPORT_WORDS + 1, DWEXPORT_WRONG_RESULT_LENGTH);
    turned_away("alternative 3", 3, DWEXPORT_EXACT, DWEXPORT_WORDS, DWEXPORT_WRONG_ALTERNATIVE);
    turned_away("alternative 256, whose last byte is 0", 256, DWEXPORT_EXACT, DWEXPORT_WORDS, DWEXPORT_WRONG_ALTERNATIVE);
    turned_away("choice 3", DWEXPORT_GREATER, 3, DWEXPORT_WORDS, DWEXPORT_WRONG_CHOICE);
    turned_away("choice 2^32 - 1", DWEXPORT_GREATER, 0xffffffff, DWEXPORT_WORDS, DWEXPORT_WRONG_CHOICE);
    turned_away("all three wrong: the length first", 3, 3, DWEXPORT_WORDS + 1, DWEXPORT_WRONG_RESULT_LENGTH);
    turned_away("both codes wrong: the alternative first", 3, 3, DWEXPORT_WORDS, DWEXPORT_WRONG_ALTERNATIVE);
}

int main(void) {
    by_hand();
    by_the_oracle();
    full_matrices();
    lengths_and_codes();
    printf("%u passed, %u failed\n", passed, failed);
    return failed != 0;
}
