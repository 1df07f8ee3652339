/* A file of the sound desk: the rate and the offset of a reel, and whether its last subtitle is firm.

   The desk's tool hands over the sums of a fit as a Matrix Market file of whole numbers. With u for the cues, counted
   in frames of the old print, and t for the milliseconds at which they are heard on the new one, it holds the
   symmetric matrix

       sum of u*u   sum of u         sum of u*t
       sum of u     number of cues   sum of t
       sum of u*t   sum of t         sum of t*t

   Its first two rows are the equations of least squares for rate and offset. One of the cues was counted past a torn
   splice, so that its frame is in doubt. It has its part in both sides of the equations; beside each number stands its
   slope in that frame, and the solve over `Dual` carries it to the last subtitle.

       examples/desk [FILE]      FILE: as examples/desk.mtx, else standard input */
#include "evindrast.h"
#include <math.h>
#include <stdio.h>

/* What the file does not say. Put yours here. */
static const double last = 34116;                 /* frames: the last subtitle */
static const double cue = 28506, heard = 1577990; /* the cue in doubt: its frame, the millisecond it is heard at */
static const double doubt = 2;                    /* frames: how far that cue may be off */
static const double firm = 0.1;                   /* seconds: a last subtitle that moves further is loose */

/* Where the real parts of the sums stand in the matrix, two doubles a record, row by row. */
enum { CUE_SQUARES = 0, CUES = 2, PRODUCTS = 4, COUNT = 8, TIMES = 10, TIME_SQUARES = 16, SUMS = 18 };

typedef struct { double re, eps; } dual; /* a value, and its slope in the frame of the cue in doubt */

/* Why a file was refused. */
static const char *reason(uint32_t number) {
    switch (number) {
    case EVINDRAST_UNREADABLE_MARKET:
        return "it cannot be read: it is above 65,536 bytes, or its first line is not \"%%MatrixMarket matrix array "
               "integer\" with \"general\" or \"symmetric\", or its size line or an entry is not written as it should "
               "be, or an entry is above 2^53";
    case EVINDRAST_NOT_SQUARE:
        return "its matrix has not as many columns as rows";
    case EVINDRAST_TOO_LARGE:
        return "its matrix has more than 32 rows";
    case EVINDRAST_WRONG_LENGTH: /* of the buffer, which takes a 3 by 3 matrix */
        return "its matrix is not 3 by 3";
    case EVINDRAST_WRONG_ENTRIES:
        return "it ends before its last entry, or something stands after that";
    default:
        return "it was refused";
    }
}

/* The sums of a file, or why there are none. */
static const char *take(FILE *file, double sums[SUMS]) {
    static uint8_t text[EVINDRAST_MAX_MARKET_BYTES + 1]; /* one byte more, by which a longer file shows */
    size_t n, length = fread(text, 1, sizeof text, file);
    if (ferror(file))
        return "it could not be read";
    uint32_t number = evindrast_market_read(text, length, sums, SUMS, &n);
    return number == EVINDRAST_DONE ? NULL : reason(number);
}

/* Why no rate and offset can be told from these sums, or nothing. */
static const char *fault(const double sums[SUMS]) {
    if (sums[CUES] != sums[6] || sums[PRODUCTS] != sums[12] || sums[TIMES] != sums[14])
        return "its matrix is not symmetric, so it holds no sums of a fit";
    if (sums[COUNT] < 2)
        return "a rate and an offset take two cues at least";
    /* equal cues leave nothing of the product; where little is left, more than half of the digits are lost */
    double product = sums[CUE_SQUARES] * sums[COUNT];
    if (!(product - sums[CUES] * sums[CUES] > 1e-9 * fabs(product)))
        return "its cues are too close to each other to tell a rate from an offset, or no cues have these sums";
    return NULL;
}

/* Rate and offset. A frame more adds twice the cue to the sum of squares, one to that of cues, and the time at which
   the cue is heard to that of products. */
static uint32_t fit(const double sums[SUMS], dual *rate, dual *offset) {
    const double a[8] = {sums[CUE_SQUARES], 2 * cue, sums[CUES], 1, sums[CUES], 1, sums[COUNT], 0};
    const double b[4] = {sums[PRODUCTS], heard, sums[TIMES], 0};
    double factors[8], x[4] = {NAN, NAN, NAN, NAN};
    size_t order[2], swaps_or_column;
    uint32_t number = evindrast_lu(2, a, 8, factors, 8, order, 2, &swaps_or_column);
    if (number == EVINDRAST_DONE)
        number = evindrast_solve(2, factors, 8, order, 2, b, 4, x, 4);
    *rate = (dual){x[0], x[1]}, *offset = (dual){x[2], x[3]};
    return number;
}

/* The millisecond of the last subtitle: rate * last + offset. */
static dual subtitle(dual rate, dual offset) {
    const double records[6] = {rate.re, rate.eps, last, 0, offset.re, offset.eps};
    double out[2] = {NAN, NAN};
    evindrast_record(EVINDRAST_DUAL, EVINDRAST_MUL_ADD, 0, records, 6, records, 0, out, 2); /* the lengths are right */
    return (dual){out[0], out[1]};
}

static int refused(const char *name, const char *why) {
    fprintf(stderr, "%s: %s\n", name, why);
    return 1;
}

int main(int count, char **arguments) {
    const char *name = count > 1 ? arguments[1] : "standard input", *why;
    if (evindrast_environment() != 0)
        return refused(arguments[0], "the floating-point environment is not the one that results are promised for");
    FILE *file = count > 1 ? fopen(name, "rb") : stdin;
    if (file == NULL)
        return refused(name, "there is no such file, or it may not be read");
    double sums[SUMS];
    if ((why = take(file, sums)) != NULL || (why = fault(sums)) != NULL)
        return refused(name, why);
    dual rate, offset;
    uint32_t number = fit(sums, &rate, &offset);
    dual end = subtitle(rate, offset);
    if (number != EVINDRAST_DONE || !isfinite(end.re) || !isfinite(end.eps))
        return refused(name, "the fit gives no finite numbers");
    /* the squares of what the times differ from the fit by; no times give less than zero, but for rounding */
    double rest = sums[TIME_SQUARES] - rate.re * sums[PRODUCTS] - offset.re * sums[TIMES];
    if (rest < -1e-9 * fabs(sums[TIME_SQUARES]))
        return refused(name, "its sums contradict each other: no cues and times have them");
    double moves = fabs(doubt * end.eps / 1000);
    printf("rate   %.6f ms a frame, slope %.6f\n", rate.re, rate.eps);
    printf("offset %.3f ms, slope %.3f\n", offset.re, offset.eps);
    printf("the cues are heard %.0f ms off the fit (root of the mean square)\n", sqrt(fmax(rest, 0) / sums[COUNT]));
    printf("last subtitle at %.3f s, slope %.4f\n", end.re / 1000, end.eps / 1000);
    printf("it moves by %.3f s where the cue at frame %.0f is %g frames off: it is %s\n", moves, cue, doubt,
           moves > firm ? "loose" : "firm");
    return 0;
}
