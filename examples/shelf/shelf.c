/*
 * The shelf of the house and one's own, in C. A shelf is a file of records, one after another: the house keeps the
 * factors that are approved, and a designer has a private one, here with a notch for 50 Hz at 1050 samples a second,
 * F(21), of four times the gain. This makes both files, maps them, goes through the house's as a browsing window would,
 * and finds factors, one's own first, which it reads where they stand. Then a byte of the house's shelf is wrong, and
 * the own one has lost a byte.
 */
#define _POSIX_C_SOURCE 200809L /* for fileno and mmap */
#include <inttypes.h>
#include <math.h>
#include <stdio.h>
#include <stdlib.h>
#include <sys/mman.h>

#include "bonvedrick.h"

enum { RATE = 1050, MAINS = 50, N = RATE / MAINS, ROOM = 65536 };

static const double PI = 3.14159265358979323846;

typedef struct shelf {
    uint8_t *bytes;
    size_t len;
} shelf;

static int64_t coeffs[ROOM];

/* Puts a factor on a shelf, each coefficient times a number. */
static void add(FILE *file, uint64_t kind, uint64_t n, int64_t times) {
    static uint8_t record[10 + 8 * ROOM];
    bv_answer a = bv_polynomial(kind, n, BV_NO_LIMIT, BV_NO_LIMIT, coeffs, ROOM);
    for (uint64_t i = 0; i <= a.degree; i++)
        coeffs[i] *= times;
    bv_written w = bv_write(kind, n, coeffs, a.degree + 1, record, sizeof record);
    if (a.code != BV_DONE || w.code != BV_DONE || fwrite(record, 1, w.used, file) != w.used)
        exit(1);
}

/* The shelf that a file holds, mapped: what is changed there doesn't reach the file. */
static shelf mapped(FILE *file) {
    long len = fflush(file) == 0 ? ftell(file) : 0;
    void *bytes = len > 0 ? mmap(NULL, (size_t)len, PROT_READ | PROT_WRITE, MAP_PRIVATE, fileno(file), 0) : MAP_FAILED;
    if (bytes == MAP_FAILED)
        exit(1);
    return (shelf){bytes, (size_t)len};
}

static const char *letter(uint64_t kind) {
    return kind == BV_F ? "F" : "I";
}

/* Each record of a shelf, up to its end or one that doesn't read. */
static void browse(shelf s) {
    bv_browsed b = bv_browse(s.bytes, s.len, 0);
    for (; b.code == BV_DONE && b.length > 0; b = bv_browse(s.bytes, s.len, b.start + b.length))
        printf("  byte %5" PRIu64 ": %s(%" PRIu64 "), degree %" PRIu64 ", %" PRIu64 " bytes\n", b.start, letter(b.kind),
               b.n, b.degree, b.length);
    printf("  byte %5" PRIu64 ": %s\n", b.start, b.code == BV_DONE ? "the end" : bv_name(b.code));
}

/* How much of a frequency comes through. */
static double response(uint64_t degree, double hz) {
    double real = 0, imag = 0;
    for (uint64_t i = 0; i <= degree; i++) {
        real += (double)coeffs[i] * cos(2 * PI * hz * (double)i / RATE);
        imag += (double)coeffs[i] * sin(2 * PI * hz * (double)i / RATE);
    }
    return hypot(real, imag);
}

/* Finds a factor, and uses its coefficients: no copy of the record is made. */
static void find(uint64_t kind, uint64_t n, shelf own, shelf house) {
    bv_found f = bv_lookup(kind, n, own.bytes, own.len, house.bytes, house.len);
    if (f.code == BV_DONE) {
        const uint8_t *record = (f.from == BV_OWN ? own.bytes : house.bytes) + f.start;
        bv_record r = bv_read(record, f.length, coeffs, ROOM);
        printf("%s(%" PRIu64 "): %s shelf, byte %" PRIu64 ": level times %.3f, hum times %.3f\n", letter(kind), n,
               f.from == BV_OWN ? "own" : "house", f.start, response(r.degree, 0), response(r.degree, MAINS));
    } else if (f.shelf != 0)
        printf("%s(%" PRIu64 "): %s at byte %" PRIu64 " of the %s shelf\n", letter(kind), n, bv_name(f.code), f.byte,
               f.shelf == BV_OWN ? "own" : "house");
    else
        printf("%s(%" PRIu64 "): %s\n", letter(kind), n, bv_name(f.code));
}

int main(void) {
    FILE *house_file = tmpfile(), *own_file = tmpfile();
    if (house_file == NULL || own_file == NULL)
        return 1;
    add(house_file, BV_F, 7, 1);
    add(house_file, BV_F, N, 1);
    add(house_file, BV_I, N, 1);
    add(house_file, BV_F, 40755, 1); /* it has a coefficient of -359, so all take two bytes */
    add(house_file, BV_F, 105, 1);
    add(own_file, BV_F, N, 4);
    shelf house = mapped(house_file), own = mapped(own_file), none = {NULL, 0};

    printf("the house shelf:\n");
    browse(house);
    printf("notch for %d Hz at %d samples a second, with no shelf of one's own:\n", MAINS, RATE);
    find(BV_F, N, none, house);
    printf("with one's own:\n");
    find(BV_F, N, own, house);
    find(BV_I, N, own, house);
    find(BV_F, 11, own, house);

    house.bytes[20] = 3;
    printf("3 as the width of the house's F(%d):\n", N);
    browse(house);
    find(BV_F, 7, own, house);
    find(BV_F, 105, own, house);
    bv_record r = bv_read(house.bytes + 17, house.len - 17, coeffs, ROOM);
    printf("read from there: %s, byte %" PRIu64 " of the record\n", bv_name(r.code), r.byte);

    own.len--;
    printf("one's own a byte short:\n");
    find(BV_F, 7, own, house);
    return 0;
}
