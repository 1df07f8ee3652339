/* Calls the library's functions for Matrix Market texts, for compare/market.py, which builds and runs it: cases on
   standard input, answers on standard output, in the machine's own byte order, until the input ends.

   A case is a `struct request`, then what is lent to be read: the text for READ, the floats for WRITE. An answer is a
   `struct answer`, then what was lent to be written, as it is after the call: the floats for READ, the bytes for WRITE.
   Before each call every float of these is -7.25, every byte a5, every number beside an answer 77.

   Built with -DFAULT=1, 2 or 3 it answers wrongly, to show that the comparison sees it: 1 turns a matrix that was read
   about its diagonal, 2 lets one byte after the last entry through, 3 leaves the last byte of a page as it was. */
#include "evindrast.h"
#include <stdio.h>
#include <stdlib.h>
#include <string.h>

#ifndef FAULT
#define FAULT 0
#endif

enum { READ = 1, WRITE = 2, BEFORE_BYTE = 0xa5, BEFORE_NUMBER = 77, BESIDE = 64, MOST = 1 << 17 };
static const double BEFORE_FLOAT = -7.25;

struct request {
    uint64_t kind, width, n, floats, bytes;
};

/* number and value: the answer and n (for WRITE the length) of the call itself; the next two: those of
   evindrast_market_size (READ alone); disturbed: 1 where the call wrote to what it was to read, or beside what it was
   lent to write. */
struct answer {
    uint64_t number, value, size_number, size_value, disturbed;
};

static double lent_floats[BESIDE + MOST + BESIDE], kept_floats[MOST];
static uint8_t lent_bytes[BESIDE + MOST + BESIDE], kept_bytes[MOST];
static double *const floats = lent_floats + BESIDE;
static uint8_t *const bytes = lent_bytes + BESIDE;

/* Everything from standard input, or nothing at its end. */
static int take(void *into, size_t size) {
    size_t got = fread(into, 1, size, stdin);
    if (got != 0 && got != size) exit(1);
    return got == size;
}

static void fill_floats(size_t count) {
    for (size_t at = 0; at < BESIDE + count + BESIDE; at++) lent_floats[at] = BEFORE_FLOAT;
}

static int beside_floats_changed(size_t count) {
    int changed = 0;
    for (size_t at = 0; at < BESIDE; at++)
        changed |= lent_floats[at] != BEFORE_FLOAT || floats[count + at] != BEFORE_FLOAT;
    return changed;
}

static int beside_bytes_changed(size_t count) {
    int changed = 0;
    for (size_t at = 0; at < BESIDE; at++)
        changed |= lent_bytes[at] != BEFORE_BYTE || bytes[count + at] != BEFORE_BYTE;
    return changed;
}

static uint32_t read_text(uint64_t width, size_t length, size_t count, size_t *n) {
    return width == 2 ? evindrast_market_read(bytes, length, floats, count, n)
                      : evindrast_hyperdual_market_read(bytes, length, floats, count, n);
}

/* The matrix turned about its diagonal. */
static void turn(size_t n, size_t width) {
    for (size_t row = 0; row < n; row++)
        for (size_t column = 0; column < row; column++) {
            double *one = floats + (row * n + column) * width, *other = floats + (column * n + row) * width;
            double kept = *one;
            *one = *other;
            *other = kept;
        }
}

static struct answer call_read(const struct request *asked) {
    size_t n = BEFORE_NUMBER, size = BEFORE_NUMBER;
    struct answer answer = {0};
    memcpy(kept_bytes, bytes, asked->bytes);
    fill_floats(asked->floats);
    answer.size_number = evindrast_market_size(bytes, asked->bytes, &size);
    answer.number = read_text(asked->width, asked->bytes, asked->floats, &n);
    if (FAULT == 1 && answer.number == 0) turn(n, asked->width);
    if (FAULT == 2 && answer.number == 12) answer.number = read_text(asked->width, asked->bytes - 1, asked->floats, &n);
    answer.value = n;
    answer.size_value = size;
    answer.disturbed = memcmp(kept_bytes, bytes, asked->bytes) != 0 || beside_floats_changed(asked->floats);
    return answer;
}

static struct answer call_write(const struct request *asked) {
    size_t length = BEFORE_NUMBER;
    struct answer answer = {0};
    memcpy(kept_floats, floats, asked->floats * sizeof *floats);
    memset(lent_bytes, BEFORE_BYTE, BESIDE + asked->bytes + BESIDE);
    answer.number = asked->width == 2
        ? evindrast_market_write(asked->n, floats, asked->floats, bytes, asked->bytes, &length)
        : evindrast_hyperdual_market_write(asked->n, floats, asked->floats, bytes, asked->bytes, &length);
    if (FAULT == 3 && answer.number == 0) bytes[asked->bytes - 1] = BEFORE_BYTE;
    answer.value = length;
    answer.disturbed =
        memcmp(kept_floats, floats, asked->floats * sizeof *floats) != 0 || beside_bytes_changed(asked->bytes);
    return answer;
}

int main(void) {
    struct request asked;
    while (take(&asked, sizeof asked)) {
        if (asked.floats > MOST || asked.bytes > MOST) return 1;
        int reads = asked.kind == READ;
        void *lent = reads ? (void *)bytes : (void *)floats, *written = reads ? (void *)floats : (void *)bytes;
        size_t text_size = asked.bytes, floats_size = asked.floats * sizeof *floats;
        size_t lent_size = reads ? text_size : floats_size, written_size = reads ? floats_size : text_size;
        if (lent_size != 0 && !take(lent, lent_size)) return 1;
        struct answer answer = reads ? call_read(&asked) : call_write(&asked);
        if (fwrite(&answer, sizeof answer, 1, stdout) != 1) return 1;
        if (fwrite(written, 1, written_size, stdout) != written_size) return 1;
    }
    return fflush(stdout) != 0;
}
