/* The proved square root against the machine's own, bit for bit (NaNs count as one), and the time of each.
   Build and run it with compare/root. */
#include "evindrast.h"
#include <inttypes.h>
#include <math.h>
#include <stdio.h>
#include <stdlib.h>
#include <string.h>
#include <time.h>

static double float_of(uint64_t word) { double x; memcpy(&x, &word, 8); return x; }
static uint64_t word_of(double x) { uint64_t word; memcpy(&word, &x, 8); return word; }

/* xorshift64, seeded once: every run tries the same patterns. */
static uint64_t state = 88172645463325252u;
static uint64_t random_word(void) {
    state ^= state << 13;
    state ^= state >> 7;
    state ^= state << 17;
    return state;
}

static uint64_t tried, different;

static void try_word(uint64_t word) {
    double wanted = sqrt(float_of(word));
    uint64_t wanted_word = wanted != wanted ? 0x7ff8000000000000u : word_of(wanted);
    double got = evindrast_sqrt(float_of(word));
    uint64_t got_word = got != got ? 0x7ff8000000000000u : word_of(got);
    tried++;
    if (got_word == wanted_word && evindrast_sqrt_word(word) == wanted_word) return;
    if (different++ < 10)
        printf("different: %016" PRIx64 " gives %016" PRIx64 ", wanted %016" PRIx64 "\n", word, got_word, wanted_word);
}

/* A group of patterns, counted by itself. */
static void group(const char *name, uint64_t from) { printf("%-42s %10" PRIu64 "\n", name, tried - from); }

static void compare_all(void) {
    static const uint64_t special[] = {
        0, 1, 2, 3, 0xfffffffffffffu, 0x10000000000000u, 0x10000000000001u, 0x7fefffffffffffffu, 0x7ff0000000000000u,
        0x7ff0000000000001u, 0x7ff8000000000000u, 0xfff8000000000000u, 0x8000000000000000u, 0x8000000000000001u,
        0xfff0000000000000u, 0xbff0000000000000u, 0x3ff0000000000000u, 0x3fefffffffffffffu, 0x4000000000000000u,
        0x3fffffffffffffffu, 0x4010000000000000u, 0x400fffffffffffffu};
    uint64_t from = tried;
    for (size_t i = 0; i < sizeof special / sizeof *special; i++) try_word(special[i]);
    group("specials", from);

    from = tried;
    for (uint64_t exponent = 0; exponent <= 2047; exponent++)
        for (int64_t off = -64; off <= 64; off++) try_word((exponent << 52) + (uint64_t)off);
    for (int bit = 0; bit < 52; bit++)
        for (int64_t off = -64; off <= 64; off++) try_word((UINT64_C(1) << bit) + (uint64_t)off);
    group("powers of two and their neighbours", from);

    from = tried;
    for (int digits = 1; digits <= 52; digits++)
        for (int i = 0; i < 60000; i++) try_word(random_word() >> (64 - digits));
    group("subnormals of every length", from);

    from = tried;
    for (int i = 0; i < 1000000; i++) {
        /* a float of 26 digits has an exact square */
        double root = float_of(((random_word() >> 2) & ~UINT64_C(0x7ffffff)) | 0x3000000000000000u);
        uint64_t square = word_of(root * root);
        for (int64_t off = -2; off <= 2; off++) try_word(square + (uint64_t)off);
    }
    group("squares and near squares", from);

    from = tried;
    for (int i = 0; i < 4000000; i++) try_word(random_word());
    for (int i = 0; i < 4000000; i++) try_word(random_word() >> 1);
    group("random", from);
}

static double seconds(void) {
    struct timespec now;
    clock_gettime(CLOCK_MONOTONIC, &now);
    return (double)now.tv_sec + 1e-9 * (double)now.tv_nsec;
}

static int by_size(const void *a, const void *b) {
    double x = *(const double *)a, y = *(const double *)b;
    return (x > y) - (x < y);
}

enum { NUMBERS = 1 << 16, RUNS = 31 };
static double numbers[NUMBERS];

/* The roots of all numbers, none of which waits for another. */
static double side_by_side(double (*root)(double)) {
    double sum = 0;
    for (int i = 0; i < NUMBERS; i++) sum += root(numbers[i]);
    return sum;
}

/* Each is the root of a number that the one before is added to, so it waits for that. */
static double in_turn(double (*root)(double)) {
    double last = 1;
    for (int i = 0; i < NUMBERS; i++) last = root(numbers[i] + last);
    return last;
}

/* The median time of one root over RUNS runs, in nanoseconds. */
static double nanoseconds(double (*all)(double (*)(double)), double (*root)(double)) {
    static double times[RUNS];
    volatile double sink = 0;
    for (int run = 0; run < RUNS; run++) {
        double start = seconds(), sum = all(root);
        times[run] = (seconds() - start) * 1e9 / NUMBERS;
        sink += sum;
    }
    qsort(times, RUNS, sizeof *times, by_size);
    return times[RUNS / 2];
}

static double machine_sqrt(double x) { return sqrt(x); }

static void time_both(const char *name, double (*all)(double (*)(double))) {
    double (*volatile machine)(double) = machine_sqrt;
    double ours = nanoseconds(all, evindrast_sqrt), theirs = nanoseconds(all, machine);
    printf("%-36s %6.1f ns a root, the machine's %5.1f ns: ratio %.1f\n", name, ours, theirs, ours / theirs);
}

int main(void) {
    compare_all();
    printf("%" PRIu64 " compared, %" PRIu64 " different\n", tried, different);
    for (int i = 0; i < NUMBERS; i++) numbers[i] = float_of((random_word() >> 2) | 0x3000000000000000u);
    time_both("none waits for another", side_by_side);
    for (int i = 0; i < NUMBERS; i++) numbers[i] = float_of((random_word() >> 12) | 0x3ff0000000000000u);
    time_both("each waits for the one before", in_turn);
    return different != 0;
}
