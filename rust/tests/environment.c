/* What evindrast_environment tells in each direction of rounding, the first and the last to nearest, and beside it the
   root of 2^-1074 by its bits and LU's answer to the 1 by 1 matrix (2^-1074, 1). */
#include "evindrast.h"
#include <fenv.h>
#include <inttypes.h>
#include <stdio.h>

static const int directions[] = {FE_TONEAREST, FE_UPWARD, FE_DOWNWARD, FE_TOWARDZERO, FE_TONEAREST};

int main(void) {
    for (size_t i = 0; i < sizeof directions / sizeof directions[0]; i++) {
        double matrix[2] = {0, 1}, factors[2];
        size_t order[1], swaps_or_column;
        const uint64_t least = 1;
        memcpy(matrix, &least, sizeof least);
        if (fesetround(directions[i]) != 0)
            return 1;
        int told = evindrast_environment();
        uint64_t root = evindrast_sqrt_word(least);
        uint32_t number = evindrast_lu(1, matrix, 2, factors, 2, order, 1, &swaps_or_column);
        fesetround(FE_TONEAREST);
        printf("%d %" PRIx64 " %" PRIu32 "\n", told, root, number);
    }
    return 0;
}
