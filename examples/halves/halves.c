/*
 * A shelf that is halved, in C. Half of each polynomial repeats the other, so a house that keeps many factors keeps
 * half records. This makes a shelf, a file of records one after another, and halves it into a second file, record by
 * record. One of its records has a slip in it: the halves don't match, so it can't be halved and is kept as it is. Both
 * forms may stand in one file, since each converter gives BV_REFUSED_MARK for the other's. Then the second file is made
 * whole again and compared with the first, byte for byte.
 */
#include <inttypes.h>
#include <stdio.h>
#include <stdlib.h>
#include <string.h>

#include "bonvedrick.h"

enum { ROOM = 65536 };

typedef struct shelf {
    uint8_t *bytes;
    size_t len;
} shelf;

static int64_t coeffs[ROOM];
static uint8_t record[10 + 8 * ROOM]; /* no record is longer */

static void put(FILE *file, const uint8_t *bytes, uint64_t len) {
    if (fwrite(bytes, 1, len, file) != len)
        exit(1);
}

/* Puts a factor on a shelf, with a number added to its last coefficient. */
static void add(FILE *file, uint64_t kind, uint64_t n, int64_t slip) {
    bv_answer a = bv_polynomial(kind, n, BV_NO_LIMIT, BV_NO_LIMIT, coeffs, ROOM);
    coeffs[a.degree] += slip;
    bv_written w = bv_write(kind, n, coeffs, a.degree + 1, record, sizeof record);
    if (a.code != BV_DONE || w.code != BV_DONE)
        exit(1);
    put(file, record, w.used);
}

/* What a file holds. */
static shelf held(FILE *file) {
    long len = ftell(file);
    uint8_t *bytes = len > 0 ? malloc((size_t)len) : NULL;
    rewind(file);
    if (bytes == NULL || fread(bytes, 1, (size_t)len, file) != (size_t)len)
        exit(1);
    return (shelf){bytes, (size_t)len};
}

/* The whole record that stands at a place. */
static bv_browsed standing(shelf s, uint64_t at) {
    bv_browsed b = bv_browse(s.bytes, s.len, at);
    if (b.code != BV_DONE || b.length == 0)
        exit(1);
    return b;
}

static shelf halved(shelf s) {
    FILE *file = tmpfile();
    if (file == NULL)
        exit(1);
    for (uint64_t at = 0; at < s.len;) {
        bv_browsed b = standing(s, at);
        bv_converted c = bv_to_half(s.bytes + at, b.length, record, sizeof record);
        printf("  %s(%" PRIu64 "): %" PRIu64 " bytes, ", b.kind == BV_F ? "F" : "I", b.n, b.length);
        if (c.code == BV_DONE) {
            printf("halved %" PRIu64 "\n", c.written);
            put(file, record, c.written);
        } else {
            printf("%s: kept as it is\n", bv_name(c.code));
            put(file, s.bytes + at, b.length);
        }
        at += b.length;
    }
    return held(file);
}

static shelf restored(shelf s) {
    FILE *file = tmpfile();
    if (file == NULL)
        exit(1);
    for (uint64_t at = 0; at < s.len;) {
        bv_converted c = bv_to_whole(s.bytes + at, s.len - at, record, sizeof record);
        if (c.code == BV_DONE) {
            put(file, record, c.written);
            at += c.read;
        } else if (c.code == BV_REFUSED_MARK) { /* it is one that was kept */
            bv_browsed b = standing(s, at);
            put(file, s.bytes + at, b.length);
            at += b.length;
        } else
            exit(1);
    }
    return held(file);
}

int main(void) {
    FILE *file = tmpfile();
    if (file == NULL)
        return 1;
    add(file, BV_F, 21, 0);
    add(file, BV_I, 21, 0);
    add(file, BV_F, 15, 1); /* its last coefficient is 2 for 1 */
    add(file, BV_F, 40755, 0);
    add(file, BV_F, 105, 0);
    shelf all = held(file);
    printf("a shelf of %zu bytes:\n", all.len);
    shelf half = halved(all);
    printf("halved: %zu bytes, %zu spared\n", half.len, all.len - half.len);

    bv_record r = bv_read(half.bytes, half.len, coeffs, ROOM);
    printf("its first record, read as a whole one: %s\n", bv_name(r.code));
    r = bv_read_half(half.bytes, half.len, coeffs, ROOM);
    printf("read as a half record: F(%" PRIu64 "):", r.n);
    for (uint64_t i = 0; r.code == BV_DONE && i <= r.degree; i++)
        printf(" %" PRId64, coeffs[i]);
    printf("\n");

    shelf again = restored(half);
    printf("restored: %zu bytes, the same: %s\n", again.len,
           again.len == all.len && memcmp(again.bytes, all.bytes, all.len) == 0 ? "yes" : "no");
    return 0;
}
