/* A 2 by 2 system over Dual, and one function of its solution, through the header alone. Build and run it with
   `examples/c solve`. */
#include "evindrast.h"
#include <math.h>
#include <stdio.h>

/* 2x + y = 4 and x + 4y = 9, whose right sides move by 2 and by 1 */
static const double a[8] = {2, 0, 1, 0, 1, 0, 4, 0};
static const double b[4] = {4, 2, 9, 1};

int main(void) {
    if (evindrast_environment() != 0) {
        printf("the floating-point environment is not the one that results are promised for\n");
        return 1;
    }
    double factors[8], x[4], det[2];
    size_t order[2], swaps_or_column;
    uint32_t number = evindrast_lu(2, a, 8, factors, 8, order, 2, &swaps_or_column);
    if (number == EVINDRAST_SINGULAR) {
        printf("singular at column %zu\n", swaps_or_column);
        return 1;
    }
    /* these lengths and this order are those wanted, so neither call is refused */
    number = evindrast_solve(2, factors, 8, order, 2, b, 4, x, 4);
    number |= evindrast_determinant(2, factors, 8, order, 2, swaps_or_column, &det[0], &det[1]);

    /* the sine of x: the caller's own sine and cosine of its value, the chain rule of the library */
    double supplied[2] = {sin(x[0]), cos(x[0])}, sine[2];
    number |= evindrast_record(EVINDRAST_DUAL, EVINDRAST_SIN, 0, x, 2, supplied, 2, sine, 2);
    if (number != EVINDRAST_DONE) {
        printf("refused\n");
        return 1;
    }
    printf("x = %g, slope %g\ny = %g, slope %g\n", x[0], x[1], x[2], x[3]);
    printf("determinant %g, slope %g\n", det[0], det[1]);
    printf("sine of x %.6f, slope %.6f\n", sine[0], sine[1]);
    return 0;
}
