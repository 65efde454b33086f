/* The Durbin-Watson test of regression residuals, for C. The library is crates/dwexport/out/libdwexport.a, for x86-64-v2, which
   `rt lib` in crates/dwexport proves and writes. What stands here of results and rooms is its promise (crates/dwexport/src/lib.rt). */
#ifndef DWEXPORT_H
#define DWEXPORT_H

#include <stddef.h>
#include <stdint.h>

#ifdef __cplusplus
extern "C" {
#endif

/* A sheet has at most so many rows (residuals) and columns; a larger one meets refusal 2. */
#define DWEXPORT_MAX_ROWS 256
#define DWEXPORT_MAX_COLUMNS 8

/* Numbers that the exact path wants of the two rooms, for a sheet of n rows. With fewer than 3 rows, or on the normal path, none. A caller that still
   lends the 2 n^2 numbers of matrix room that were wanted once gets the same answer, and only its first n (n + 1) numbers are cleared. */
#define DWEXPORT_MATRIX_ROOM(n) ((size_t)(n) * ((size_t)(n) + 1))
#define DWEXPORT_PART_ROOM 8004

/* Codes of the alternative. */
enum { DWEXPORT_GREATER = 0, DWEXPORT_LESS = 1, DWEXPORT_TWO_SIDED = 2 };

/* Codes of the choice: default is exact below 100 rows, else normal. */
enum { DWEXPORT_DEFAULT = 0, DWEXPORT_EXACT = 1, DWEXPORT_NORMAL = 2 };

/* What the function returns. */
enum {
    DWEXPORT_ANSWERED = 0,
    DWEXPORT_WRONG_RESULT_LENGTH = 1, /* result_len is not DWEXPORT_WORDS */
    DWEXPORT_WRONG_ALTERNATIVE = 2,   /* no such code */
    DWEXPORT_WRONG_CHOICE = 3         /* no such code */
};

/* The words of the result, in the order of the sheet program's line, as tools/line.py writes them. */
enum {
    DWEXPORT_REFUSAL = 0,     /* 0 accepted; else 1 to 14, and every word but the place is 0 (README.md has the table) */
    DWEXPORT_PLACE = 1,       /* where, for a refusal that has a place */
    DWEXPORT_STATISTIC = 2,   /* the bits of the statistic, a double */
    DWEXPORT_P = 3,           /* the bits of p, a double */
    DWEXPORT_PATH = 4,        /* 1 fewer than three rows, p is 1; 2 exact; 3 normal; 4 normal with fewer than five rows, p is 1; 0 none */
    DWEXPORT_FALLBACK = 5,    /* 1: the exact path had no value, and path 3 or 4 answered */
    DWEXPORT_KEPT = 6,        /* eigenvalues kept */
    DWEXPORT_SWEEPS = 7,      /* of the QL step */
    DWEXPORT_BISECTIONS = 8,  /* of the integral */
    DWEXPORT_EVALUATIONS = 9, /* of the integrand */
    DWEXPORT_SETTLED = 10,    /* 1: accepted, no index of the QL step had a coupling left after its 60 sweeps, and where an integral was
                                 needed the final sum of its errors is at most 5e-12 */
    DWEXPORT_WORDS = 11
};
/* The end of what tools/line.py writes. */

/* The test of a sheet. Any numbers may be given, NaN and infinities too.

   residuals    in    residuals_len numbers: n, the residuals in print order
   columns      in    columns_len numbers: the k columns of the regression one after another, n numbers each; an intercept is a column of ones
   k            in    how many columns
   alternative  in    a code
   choice       in    a code
   matrix       room  matrix_len numbers; the exact path wants DWEXPORT_MATRIX_ROOM(n)
   parts        room  parts_len numbers; the exact path wants DWEXPORT_PART_ROOM
   result       out   result_len words, DWEXPORT_WORDS

   Returns DWEXPORT_ANSWERED, and each word of result is set; or another code, the first that holds in the order of the codes, and
   result and both rooms stay as they were.

   At exit the first DWEXPORT_MATRIX_ROOM(n) numbers of matrix and the first DWEXPORT_PART_ROOM of parts are +0 if the exact path was
   taken: exact chosen or due by default, 3 rows or more, and none of the refusals up to 12. What lies beyond them stays, and every
   other call leaves both rooms as they were. What the rooms hold before a call does not matter. residuals and columns are only read.

   The function has no heap, keeps nothing between calls and calls nothing but memset and memcpy: threads may call it at once, each
   with a result and rooms of its own. It wants some 64 KB of stack (measured, not proved).

   Duties of the caller, which nothing can check: the rows are in print order, which no positions show here; each pointer points to as
   many numbers as its length says, aligned to 8 bytes, and is not NULL even where the length is 0; matrix, parts and result overlap
   neither each other nor another run; nothing else writes the runs during the call. */
uint32_t dwexport_test(const double *residuals, size_t residuals_len,
                       const double *columns, size_t columns_len,
                       size_t k, uint32_t alternative, uint32_t choice,
                       double *matrix, size_t matrix_len,
                       double *parts, size_t parts_len,
                       uint64_t *result, size_t result_len);

#ifdef __cplusplus
}
#endif

#endif
