/* A text read into both records and written from them again, by the header's functions: the answers, the counts and
   what is left. */
#include "evindrast.h"
#include <stdio.h>

static const char symmetric[] = "%%MatrixMarket matrix array integer symmetric\n2 2\n1\n-2\n3\n";

typedef uint32_t read_call(const uint8_t *, size_t, double *, size_t, size_t *);
typedef uint32_t write_call(size_t, const double *, size_t, uint8_t *, size_t, size_t *);

static void both_ways(size_t floats, read_call *read, write_call *write) {
    static uint8_t written[EVINDRAST_MARKET_BYTES];
    double out[4 * EVINDRAST_HYPERDUAL_FLOATS];
    size_t n = 7, length = 7;
    uint32_t number = read((const uint8_t *)symmetric, sizeof symmetric - 1, out, 4 * floats, &n);
    printf("%u %zu:", (unsigned)number, n);
    for (size_t i = 0; i < 4 * floats; i++)
        printf(" %g", out[i]);
    memset(written, 'x', sizeof written);
    number = write(n, out, 4 * floats, written, sizeof written, &length);
    size_t zeros = 0;
    for (size_t i = length; i < sizeof written; i++)
        zeros += written[i] == 0;
    printf("\n%u %zu %zu\n%s", (unsigned)number, length, zeros, (const char *)written);
    number = read(written, length, out, 4 * floats - 1, &n);
    printf("%u ", (unsigned)number);
    number = write(n, out, 4 * floats, written, length, &length);
    printf("%u\n", (unsigned)number);
}

int main(void) {
    size_t n = 7;
    uint32_t number = evindrast_market_size((const uint8_t *)symmetric, sizeof symmetric - 1, &n);
    printf("%u %zu\n", (unsigned)number, n);
    both_ways(EVINDRAST_DUAL_FLOATS, evindrast_market_read, evindrast_market_write);
    both_ways(EVINDRAST_HYPERDUAL_FLOATS, evindrast_hyperdual_market_read, evindrast_hyperdual_market_write);
    return 0;
}
