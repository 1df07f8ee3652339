/* A reel of a reconstructed cut: is its last subtitle firm?

   The cues are counted in frames of the old print. Up to a splice it ran at 24 frames a second, after it at a rate that
   is known only to a hundredth. The same lines were heard on the new print and timed by a clock. A rate and an offset
   between the two are fitted by least squares, a 2 by 2 solve over `Dual`: beside each number stands its slope in the
   rate after the splice. That rate moves every later cue, and with the cues both sides of the system; the solve carries
   it to the last subtitle. Build and run it with examples/reel. */
#include "evindrast.h"
#include <math.h>
#include <stdio.h>

/* The reel: a cue in frames of the old print, and the second at which it is heard on the new one. Put yours here. */
static const struct { double cue, heard; } lines[] = {
    {288, 12.89},
    {2292, 99.71},
    {7230, 313.48},
    {15360, 679.34},
    {28506, 1436.65},
};
enum { LINES = sizeof lines / sizeof lines[0] };
static const double last = 34116, splice = 14400;          /* frames: the last subtitle, the splice */
static const double before = 24, after = 18, doubt = 0.01; /* frames a second: up to the splice, after it, its doubt */
static const double firm = 0.1;                            /* seconds: a last subtitle that moves further is loose */

typedef struct { double re, eps; } dual; /* a value, and its slope in the rate after the splice */
typedef uint32_t operation(uint32_t, const double *, size_t, double *, size_t);

static dual of(operation *op, dual x, dual y) {
    double records[4] = {x.re, x.eps, y.re, y.eps}, out[2] = {NAN, NAN};
    op(EVINDRAST_DUAL, records, 4, out, 2); /* not refused: the lengths are those wanted */
    return (dual){out[0], out[1]};
}

static void add_to(double *sum, dual x) {
    dual grown = of(evindrast_add, (dual){sum[0], sum[1]}, x);
    sum[0] = grown.re, sum[1] = grown.eps;
}

/* When a frame of the old print was shown. */
static dual seconds(double frames) {
    if (frames <= splice)
        return (dual){frames / before, 0};
    dual later = of(evindrast_div, (dual){frames - splice, 0}, (dual){after, 1});
    return of(evindrast_add, (dual){splice / before, 0}, later);
}

static int refused(const char *why) {
    fprintf(stderr, "%s\n", why);
    return 1;
}

int main(void) {
    if (evindrast_environment() != 0)
        return refused("the floating-point environment is not the one that results are promised for");
    double a[8] = {0}, b[4] = {0}, factors[8], x[4], shown = -1, heard = 0; /* the last two: of the line before */
    for (size_t i = 0; i < LINES; i++) {
        dual time = seconds(lines[i].cue);
        /* a second that was left out is 0, and no later than the one before; neither is a NaN */
        if (!(time.re > shown && lines[i].heard > heard && isfinite(time.re + lines[i].heard))) {
            fprintf(stderr, "line %zu has %g and %g: wanted are a cue and the second at which it is heard, ", i + 1,
                    lines[i].cue, lines[i].heard);
            return refused("both later than in the line before");
        }
        shown = time.re, heard = lines[i].heard;
        add_to(&a[0], of(evindrast_mul, time, time));
        add_to(&a[2], time), add_to(&a[4], time);
        add_to(&a[6], (dual){1, 0});
        add_to(&b[0], of(evindrast_mul, time, (dual){heard, 0}));
        add_to(&b[2], (dual){heard, 0});
    }
    if (LINES < 2)
        return refused("a rate and an offset take two lines at least");
    /* Cues at one time make each row a multiple of the other, and the second pivot zero; but rounding may leave a bit
       of it, 2^-47 of 49 for instance, and LU takes that. So it is held to the entry that it is left of: at 10^-9 of
       it more than half of its digits are lost. */
    size_t order[2], swaps_or_column;
    uint32_t number = evindrast_lu(2, a, 8, factors, 8, order, 2, &swaps_or_column);
    if (number == EVINDRAST_SINGULAR || fabs(factors[6]) <= 1e-9 * fabs(a[4 * order[1] + 2]))
        return refused("the cues are too close to each other to tell a rate from an offset");
    number |= evindrast_solve(2, factors, 8, order, 2, b, 4, x, 4);
    dual subtitle = of(evindrast_add, of(evindrast_mul, (dual){x[0], x[1]}, seconds(last)), (dual){x[2], x[3]});
    if (number != EVINDRAST_DONE || !isfinite(subtitle.re) || !isfinite(subtitle.eps))
        return refused("the fit gives no finite numbers");
    double moves = fabs(doubt * subtitle.eps);
    printf("rate   %.6f, slope %.6f\noffset %.6f, slope %.6f\n", x[0], x[1], x[2], x[3]);
    printf("last subtitle at %.3f s, slope %.3f\n", subtitle.re, subtitle.eps);
    printf("it moves by %.3f s where the rate after the splice is %g off: it is %s\n", moves, doubt,
           moves > firm ? "loose" : "firm");
    return 0;
}
