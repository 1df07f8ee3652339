/* Evindrast for C: dual numbers with their chain rules, LU and Jacobi over them, and matrices read from Matrix Market
   texts and written to them. Link libevindrast.a, which bin/library proves and writes for the machine at hand.

   How every call works
   - A record is a few doubles one after the other, the real part first (enum evindrast_kind says which). A matrix is
     n * n records row by row, a vector n records.
   - A buffer is lent as a pointer and a length. A length counts doubles, never records; that of an order size_t's,
     that of a text bytes. Pointers are not null, also where the length is 0, and what a call writes, a count included,
     overlaps nothing else that it is lent.
   - The answer is 0 or the number of a refusal (enum evindrast_number). A call that is refused writes nothing, with
     one exception: LU's 6 leaves its column, and zeros in both outputs. What a buffer held before has no effect on a
     result.
   - Every call ends with an answer, for every input, length and bit pattern. None allocates or keeps anything, and
     calls may run at the same time.
   - A NaN counts as positive, whatever its bits. One that evindrast_record, an operator or evindrast_sqrt_word gives
     has the bits 7ff8000000000000; the others' may have any bits of a NaN.

   The floating-point environment
   The promises are for the environment in which a program starts: results rounded to nearest, ties to even, subnormal
   numbers kept, exceptions not trapped. It belongs to a thread, and no call looks at it. fesetround changes it, and so
   does flush-to-zero with its like for operands, which -ffast-math sets at start-up where a program is linked with it.
   Then other results come, without a word: with both, the root of 2^-1074 is 2^-1074 and the 1 by 1 matrix (2^-1074, 1)
   is singular; in another direction of rounding last digits change. evindrast_environment tells whether the environment
   is the one that the promises are for. Ask it once on each thread.

   docs/PROMISES.md names the promise of each function, and the theorems behind it. */
#ifndef EVINDRAST_H
#define EVINDRAST_H

#include <stddef.h>
#include <stdint.h>
#include <string.h>

/* The version of this header and of the library beside it. */
#define EVINDRAST_VERSION "0.2.0"
#define EVINDRAST_VERSION_MAJOR 0
#define EVINDRAST_VERSION_MINOR 2
#define EVINDRAST_VERSION_PATCH 0

#ifdef __cplusplus
extern "C" {
#endif

/* The numbers that a call gives back. Where several hold, a matrix is refused by the first in the order 1, 3, 2, 4, 7,
   8, then the work begins; a record by 2 before 5; a text that is read by 10, 11, 1 up to its size line, then 2, then
   the first fault in its entries, 10 or 12; a matrix that is written by 1, 2, 20. */
enum evindrast_number {
    EVINDRAST_DONE = 0,
    EVINDRAST_TOO_LARGE = 1,          /* n above 32 */
    EVINDRAST_WRONG_LENGTH = 2,       /* a lent length is not the one wanted; or an unknown kind or function */
    EVINDRAST_EMPTY = 3,              /* Jacobi with n = 0 */
    EVINDRAST_LIMIT_TOO_LARGE = 4,    /* a sweep limit above 1,000 */
    EVINDRAST_EXPONENT_TOO_LARGE = 5, /* a powi exponent outside -1,024..1,024 */
    EVINDRAST_SINGULAR = 6,           /* LU: in one column no pivot exceeds zero */
    EVINDRAST_NOT_AN_ORDER = 7,       /* a lent order is not a permutation of 0..n-1 */
    EVINDRAST_WRONG_SWAPS = 8,        /* determinant: a swap count above 32, or of the other parity than the order */
    EVINDRAST_UNREADABLE_MARKET = 10, /* a text above 65,536 bytes, its header, size line or a number unreadable, or a
                                         magnitude above 2^53 */
    EVINDRAST_NOT_SQUARE = 11,        /* a text's two sizes differ */
    EVINDRAST_WRONG_ENTRIES = 12,     /* a text has too few entries, or a byte after the last */
    EVINDRAST_UNWRITABLE = 20         /* a real part is no whole number of magnitude up to 2^53, or a derivative part is
                                         not zero */
};

#define EVINDRAST_MAX_N 32               /* the largest n */
#define EVINDRAST_MAX_SWEEPS 1000        /* the largest sweep limit */
#define EVINDRAST_MAX_EXPONENT 1024      /* powi's largest exponent, and its smallest with the sign turned */
#define EVINDRAST_MAX_MARKET_BYTES 65536 /* the most bytes of a text that is read */
#define EVINDRAST_MARKET_BYTES 20480     /* the bytes that are lent for a text to be written: no text needs more */

/* The kinds of records, with their doubles in order. */
enum evindrast_kind {
    EVINDRAST_DUAL = 1,          /* 2: re, eps */
    EVINDRAST_DUAL2 = 2,         /* 3: re, v1, v2 */
    EVINDRAST_DUAL3 = 3,         /* 4: re, v1, v2, v3 */
    EVINDRAST_HYPERDUAL = 4,     /* 4: re, eps1, eps2, eps1eps2 */
    EVINDRAST_HYPERHYPERDUAL = 5 /* 8: re, eps1, eps2, eps3, eps1eps2, eps1eps3, eps2eps3, eps1eps2eps3 */
};

#define EVINDRAST_DUAL_FLOATS 2
#define EVINDRAST_DUAL2_FLOATS 3
#define EVINDRAST_DUAL3_FLOATS 4
#define EVINDRAST_HYPERDUAL_FLOATS 4
#define EVINDRAST_HYPERHYPERDUAL_FLOATS 8

/* The functions of evindrast_record. Each takes the records x, y, z that are named, and the floats in brackets, in this
   order; it gives one record unless said otherwise. Values like sin(re) are the caller's own, taken at the real part of
   x (yre: of y): the result is right for the values handed in, and nothing checks them. */
enum evindrast_function {
    /* constants and constructors */
    EVINDRAST_ZERO = 0x01,        /* none */
    EVINDRAST_ONE = 0x02,         /* none */
    EVINDRAST_FROM_RE = 0x04,     /* [re] */
    EVINDRAST_DERIVATIVE = 0x05,  /* x; kinds 1, 2, 3: v1 (or eps) set to 1 */
    EVINDRAST_DERIVATIVE1 = 0x06, /* x; kinds 4, 5: eps1 set to 1 */
    EVINDRAST_DERIVATIVE2 = 0x07, /* x; kinds 4, 5: eps2 set to 1 */
    EVINDRAST_DERIVATIVE3 = 0x08, /* x; kind 5: eps3 set to 1 */

    /* arithmetic */
    EVINDRAST_ADD = 0x09,       /* x, y */
    EVINDRAST_SUB = 0x0a,       /* x, y */
    EVINDRAST_MUL = 0x0b,       /* x, y */
    EVINDRAST_DIV = 0x0c,       /* x, y */
    EVINDRAST_NEG = 0x0d,       /* x */
    EVINDRAST_MUL_FLOAT = 0x0e, /* x [factor]: each part */
    EVINDRAST_DIV_FLOAT = 0x0f, /* x [divisor]: each part */
    EVINDRAST_ADD_FLOAT = 0x10, /* x [summand]: re alone */
    EVINDRAST_SUB_FLOAT = 0x11, /* x [subtrahend]: re alone */
    EVINDRAST_SCALE = 0x12,     /* x [factor] */

    /* signs, by the sign bit of re */
    EVINDRAST_ABS = 0x15,     /* x */
    EVINDRAST_SIGNUM = 0x16,  /* x */
    EVINDRAST_ABS_SUB = 0x17, /* x, y: x - y where re > yre, else zero */

    /* powers and roots */
    EVINDRAST_RECIP = 0x18, /* x */
    EVINDRAST_INV = 0x19,   /* x */
    EVINDRAST_SQRT = 0x1a,  /* x */
    EVINDRAST_POWI = 0x1b,  /* x [re^(exponent-3)], the one function that reads `exponent` */
    EVINDRAST_POWF = 0x1c,  /* x [n, re^(((n-1)-1)-1)] */
    EVINDRAST_CBRT = 0x1d,  /* x [cbrt(re)] */

    /* exponentials and logarithms */
    EVINDRAST_EXP = 0x1e,    /* x [exp(re)] */
    EVINDRAST_EXP2 = 0x1f,   /* x [exp2(re)] */
    EVINDRAST_EXP_M1 = 0x20, /* x [expm1(re), exp(re)] */
    EVINDRAST_LN = 0x21,     /* x [ln(re)] */
    EVINDRAST_LOG = 0x22,    /* x [log of re to the base, ln of the base] */
    EVINDRAST_LOG2 = 0x23,   /* x [log2(re)] */
    EVINDRAST_LOG10 = 0x24,  /* x [log10(re)] */
    EVINDRAST_LN_1P = 0x25,  /* x [log1p(re)] */

    /* circular functions */
    EVINDRAST_SIN = 0x26,     /* x [sin(re), cos(re)] */
    EVINDRAST_COS = 0x27,     /* x [sin(re), cos(re)] */
    EVINDRAST_SIN_COS = 0x28, /* x [sin(re), cos(re)]: two records, the sine first */
    EVINDRAST_TAN = 0x29,     /* x [sin(re), cos(re)] */
    EVINDRAST_ASIN = 0x2a,    /* x [asin(re)] */
    EVINDRAST_ACOS = 0x2b,    /* x [acos(re)] */
    EVINDRAST_ATAN = 0x2c,    /* x [atan(re)] */
    EVINDRAST_ATAN2 = 0x2d,   /* x, y [atan(re * (1 / yre)), atan2(re, yre)] */

    /* hyperbolic functions */
    EVINDRAST_SINH = 0x2e,  /* x [sinh(re), cosh(re)] */
    EVINDRAST_COSH = 0x2f,  /* x [sinh(re), cosh(re)] */
    EVINDRAST_TANH = 0x30,  /* x [sinh(re), cosh(re)] */
    EVINDRAST_ASINH = 0x31, /* x [asinh(re)] */
    EVINDRAST_ACOSH = 0x32, /* x [acosh(re)] */
    EVINDRAST_ATANH = 0x33, /* x [atanh(re)] */

    /* spherical Bessel functions; below 2^-52 SPH_J1, which is num-dual's to the last bit, has a third derivative of 0:
       take SPH_J1_SERIES for the one that j1 has there, -1/5 at 0 */
    EVINDRAST_SPH_J0 = 0x34,        /* x [sin(re), cos(re)] */
    EVINDRAST_SPH_J1 = 0x35,        /* x [sin(re), cos(re)] */
    EVINDRAST_SPH_J2 = 0x36,        /* x [sin(re), cos(re)] */
    EVINDRAST_SPH_J1_SERIES = 0x44, /* x [sin(re), cos(re)]; kinds 3, 5: x/3 - x*x*x/30 if |re| < 2^-52, else SPH_J1 */

    /* of several records */
    EVINDRAST_MUL_ADD = 0x37, /* x, y, z: x * y + z */
    EVINDRAST_POWD = 0x38,    /* x, y [ln(re), exp(ln(re) * yre)] */

    /* truths, of real parts alone: one float, 1.0 or 0.0 */
    EVINDRAST_EQ = 0x3b,          /* x, y */
    EVINDRAST_LT = 0x3c,          /* x, y */
    EVINDRAST_LE = 0x3d,          /* x, y */
    EVINDRAST_GT = 0x3e,          /* x, y */
    EVINDRAST_GE = 0x3f,          /* x, y */
    EVINDRAST_IS_NEGATIVE = 0x40, /* x: the sign bit, so -0 is negative */
    EVINDRAST_IS_POSITIVE = 0x41, /* x */
    EVINDRAST_IS_ZERO = 0x42,     /* x */
    EVINDRAST_IS_ONE = 0x43       /* x */
};

/* One function of one kind of record.
   kind, function: of the enums above.
   exponent:       powi's, else not read (pass 0).
   records:        exactly the records that the function takes, one after the other; records_len counts their doubles.
   floats:         exactly the floats in the function's brackets.
   out:            exactly one record; two for sin_cos; one double for a truth. Written where the answer is 0.
   Answers: 0; 2 where the kind or the function is unknown, or the function not offered for this kind, or any of the
   three lengths is another; then 5 for powi's exponent. */
uint32_t evindrast_record(uint32_t kind, uint32_t function, int32_t exponent, const double *records, size_t records_len,
                          const double *floats, size_t floats_len, double *out, size_t out_len);

/* The operators of two records, sooner than by their numbers: each gives what evindrast_record gives for EVINDRAST_ADD,
   _SUB, _MUL, _DIV.
   records: two records, one after the other; out: one record, written where the answer is 0.
   Answers: 0; 2 where the kind is unknown or a length is another. */
uint32_t evindrast_add(uint32_t kind, const double *records, size_t records_len, double *out, size_t out_len);
uint32_t evindrast_sub(uint32_t kind, const double *records, size_t records_len, double *out, size_t out_len);
uint32_t evindrast_mul(uint32_t kind, const double *records, size_t records_len, double *out, size_t out_len);
uint32_t evindrast_div(uint32_t kind, const double *records, size_t records_len, double *out, size_t out_len);

/* The sum of a run of records, from zero, left to right; the product, from one. An empty run has a sum and a product.
   run: any number of records; out: one record, written where the answer is 0.
   Answers: 0; 2 where the kind is unknown, run_len is not whole records or out_len is not one. */
uint32_t evindrast_sum(uint32_t kind, const double *run, size_t run_len, double *out, size_t out_len);
uint32_t evindrast_product(uint32_t kind, const double *run, size_t run_len, double *out, size_t out_len);

/* The square root, rounded to nearest: that of IEEE 754. -0 gives -0; a negative or a NaN gives a NaN. It is found one
   bit at a time (docs/ROOT.md), which takes some ten to thirty times as long as the machine's own root; both give the
   same float. */
double evindrast_sqrt(double x);

/* The same by the bits of x and of the root; a NaN leaves as 7ff8000000000000. */
uint64_t evindrast_sqrt_word(uint64_t w);

/* The LU factors of a matrix: of EVINDRAST_DUAL records, and under the names with hyperdual of EVINDRAST_HYPERDUAL
   records; w doubles a record, so w is 2 or 4.
   a, factors: w * n * n doubles; order: n entries.
   At 0: `factors` holds both factors (the unit diagonal of the lower one left out), `order` the row of a that each row
   came from, `*swaps_or_column` the number of swaps. At 6: `factors` is all +0.0, `order` all 0, `*swaps_or_column` the
   column in which no pivot exceeds zero.
   Answers: 0, 1, 2, 6. */
uint32_t evindrast_lu(size_t n, const double *a, size_t a_len, double *factors, size_t factors_len, size_t *order,
                      size_t order_len, size_t *swaps_or_column);
uint32_t evindrast_hyperdual_lu(size_t n, const double *a, size_t a_len, double *factors, size_t factors_len,
                                size_t *order, size_t order_len, size_t *swaps_or_column);

/* x with a * x = b, from the factors and the order of a. A zero on the diagonal is not refused: infinities and NaNs
   follow.
   factors: w * n * n doubles; order: n entries; b, x: w * n doubles. x is written at 0.
   Answers: 0, 1, 2, 7. */
uint32_t evindrast_solve(size_t n, const double *factors, size_t factors_len, const size_t *order, size_t order_len,
                         const double *b, size_t b_len, double *x, size_t x_len);
uint32_t evindrast_hyperdual_solve(size_t n, const double *factors, size_t factors_len, const size_t *order,
                                   size_t order_len, const double *b, size_t b_len, double *x, size_t x_len);

/* The determinant, from the factors, the order and the number of swaps, into its parts, written at 0.
   factors: w * n * n doubles; order: n entries. For n = 0 it is 1 with derivative parts 0.
   Answers: 0, 1, 2, 7, 8. */
uint32_t evindrast_determinant(size_t n, const double *factors, size_t factors_len, const size_t *order,
                               size_t order_len, size_t swaps, double *re, double *eps);
uint32_t evindrast_hyperdual_determinant(size_t n, const double *factors, size_t factors_len, const size_t *order,
                                         size_t order_len, size_t swaps, double *re, double *eps1, double *eps2,
                                         double *eps1eps2);

/* The inverse, from the factors and the order.
   factors, out: w * n * n doubles; order: n entries. out is written at 0.
   Answers: 0, 1, 2, 7. */
uint32_t evindrast_inverse(size_t n, const double *factors, size_t factors_len, const size_t *order, size_t order_len,
                           double *out, size_t out_len);
uint32_t evindrast_hyperdual_inverse(size_t n, const double *factors, size_t factors_len, const size_t *order,
                                     size_t order_len, double *out, size_t out_len);

/* Eigenvalues, ascending by their real parts, and eigenvectors, a column each, of a symmetric matrix of EVINDRAST_DUAL
   records, as at most `limit` sweeps leave them; what stands below the diagonal is not read.
   a, vectors: 2 * n * n doubles; values: 2 * n doubles. At 0 `values` and `vectors` are written, and `*sweeps` is the
   number of sweeps that did not stop at a zero threshold; where it is `limit`, more sweeps might change them.
   Answers: 0, 1, 2, 3, 4. */
uint32_t evindrast_jacobi_eigenvalue(size_t n, const double *a, size_t a_len, size_t limit, double *values,
                                     size_t values_len, double *vectors, size_t vectors_len, size_t *sweeps);

/* Matrix Market texts: a matrix of whole numbers. A text is read that is, each line ended by a newline,
       %%MatrixMarket matrix array integer general      or  .. symmetric
       % any number of comment lines, here alone
       N N                                              digits, one space, digits
       one entry a line, column by column               digits, with a minus before them or none
   and nothing more. `general` has all n * n entries, `symmetric` of each column those from the diagonal down. A number
   counts by its value, so leading zeros are good; an entry's magnitude is at most 2^53, and -0 is +0. `0 0` is a matrix
   without entries.

   The size of the matrix in a text: *n, written at 0. What stands after the size line is not read.
   text: any number of bytes.
   Answers: 0, 10, 11, 1, checked in this order. */
uint32_t evindrast_market_size(const uint8_t *text, size_t text_len, size_t *n);

/* The matrix in a text, into EVINDRAST_DUAL records, and under the name with hyperdual into EVINDRAST_HYPERDUAL
   records; w doubles a record, so w is 2 or 4. To read a text whose size is not known, ask evindrast_market_size for n,
   lend w * n * n doubles, and read.
   text: any number of bytes; out: w * n * n doubles.
   At 0: `out` holds the matrix row by row, the derivative parts +0.0, and `*n` its size.
   Answers: 0; 10, 11, 1 of what stands before the entries; then 2; then the first fault in the entries: 10 at a byte
   that no readable text has there, 12 where the text ends before the last entry's newline or goes on after it. */
uint32_t evindrast_market_read(const uint8_t *text, size_t text_len, double *out, size_t out_len, size_t *n);
uint32_t evindrast_hyperdual_market_read(const uint8_t *text, size_t text_len, double *out, size_t out_len, size_t *n);

/* The text of a matrix, `general`, without comments or leading zeros, -0 as 0. Reading it gives the matrix, with +0 for
   -0.
   a: w * n * n doubles; text: EVINDRAST_MARKET_BYTES bytes, whatever n is.
   At 0: `text` starts with the text, `*length` is its length in bytes, and the bytes after it are zero.
   Answers: 0, 1, 2, 20, checked in this order. */
uint32_t evindrast_market_write(size_t n, const double *a, size_t a_len, uint8_t *text, size_t text_len,
                                size_t *length);
uint32_t evindrast_hyperdual_market_write(size_t n, const double *a, size_t a_len, uint8_t *text, size_t text_len,
                                          size_t *length);

/* What evindrast_environment tells. */
#define EVINDRAST_ENVIRONMENT_ROUNDING 1   /* results are not rounded to nearest, ties to even */
#define EVINDRAST_ENVIRONMENT_SUBNORMALS 2 /* subnormal results or operands are taken as zero */

/* Whether the calling thread has the floating-point environment that the promises are for: 0, or the sum of what is
   otherwise. It does not see whether exceptions are trapped. It is C and no proved function: the proofs know one
   environment, in which a function without inputs has one answer, and a compiler may put that in its place. So it looks
   at what the library's own additions and subtractions give, bit for bit. */
static inline int evindrast_environment(void) {
    /* 1 + 2^-53 and (1 + 2^-52) + 2^-53 lie halfway between two doubles: the first goes down to even, the second up */
    static const uint64_t halfway[4] = {0x3ff0000000000000, 0x3ff0000000000001, 0x3ca0000000000000, 0x3ca0000000000000};
    static const uint64_t to_even[2] = {0x3ff0000000000000, 0x3ff0000000000002};
    /* 1.5 * 2^-1022 - 2^-1022 has a subnormal result, 2^-1022 - (-2^-1074) a subnormal operand */
    static const uint64_t least[4] = {0x0018000000000000, 0x0010000000000000, 0x0010000000000000, 0x8000000000000001};
    static const uint64_t kept[2] = {0x0008000000000000, 0x0010000000000001};
    double records[4], out[2] = {0, 0};
    int told = 0;
    memcpy(records, halfway, sizeof records);
    evindrast_add(EVINDRAST_DUAL, records, 4, out, 2);
    if (memcmp(out, to_even, sizeof out) != 0)
        told |= EVINDRAST_ENVIRONMENT_ROUNDING;
    memcpy(records, least, sizeof records);
    evindrast_sub(EVINDRAST_DUAL, records, 4, out, 2);
    if (memcmp(out, kept, sizeof out) != 0)
        told |= EVINDRAST_ENVIRONMENT_SUBNORMALS;
    return told;
}

#ifdef __cplusplus
}
#endif

#endif
