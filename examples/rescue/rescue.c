/*
 * A damaged shelf that is rescued, in C. This makes a shelf, a file of records one after another, and damages it as a
 * disk does: a bit of F(21) is another, so that it reads well and is not F(21); bytes are written over the header of
 * F(15); and a hundred bytes of F(40755) are lost, so that all that follows has moved. A walk over the shelf doesn't
 * see the first, and ends at the second. Then the good records are rescued into a second file, which is a shelf again:
 * what was skipped is told, and rescued once more nothing is.
 */
#include <inttypes.h>
#include <stdio.h>
#include <stdlib.h>
#include <string.h>

#include "bonvedrick.h"

enum { ROOM = 65536, LOST = 100 };

typedef struct shelf {
    uint8_t *bytes;
    size_t len;
} shelf;

static int64_t coeffs[ROOM];
static uint8_t record[10 + 8 * ROOM]; /* no record is longer */

static void put(FILE *file, const uint8_t *bytes, uint64_t len) {
    if (fwrite(bytes, 1, len, file) != len)
        exit(1);
}

/* Puts a factor on a shelf, and tells at which byte. */
static size_t add(FILE *file, uint64_t kind, uint64_t n) {
    size_t start = (size_t)ftell(file);
    bv_answer a = bv_polynomial(kind, n, BV_NO_LIMIT, BV_NO_LIMIT, coeffs, ROOM);
    bv_written w = bv_write(kind, n, coeffs, a.degree + 1, record, sizeof record);
    if (a.code != BV_DONE || w.code != BV_DONE)
        exit(1);
    put(file, record, w.used);
    return start;
}

/* What a file holds. */
static shelf held(FILE *file) {
    long len = ftell(file);
    uint8_t *bytes = len > 0 ? malloc((size_t)len) : NULL;
    rewind(file);
    if (bytes == NULL || fread(bytes, 1, (size_t)len, file) != (size_t)len)
        exit(1);
    return (shelf){bytes, (size_t)len};
}

/* Goes through a shelf, to its end or to a record that doesn't read. */
static void browse(shelf s) {
    bv_browsed b = bv_browse(s.bytes, s.len, 0);
    for (; b.code == BV_DONE && b.length > 0; b = bv_browse(s.bytes, s.len, b.start + b.length))
        printf("  byte %5" PRIu64 ": %s(%" PRIu64 "), %" PRIu64 " bytes\n", b.start, b.kind == BV_F ? "F" : "I", b.n,
               b.length);
    printf("  byte %5" PRIu64 ": %s\n", b.start, b.code == BV_DONE ? "the end" : bv_name(b.code));
}

/* The good records of a shelf in a file of their own; what is skipped is told. */
static shelf rescued(shelf s) {
    size_t slots = 2 * (s.len / 11 + 1); /* there are never more stretches */
    uint8_t *out = malloc(s.len);
    uint64_t *list = malloc(slots * sizeof *list), skipped = 0;
    FILE *file = tmpfile();
    if (out == NULL || list == NULL || file == NULL)
        exit(1);
    bv_rescued r = bv_rescue(s.bytes, s.len, out, s.len, list, slots, coeffs, ROOM);
    if (r.code != BV_DONE)
        exit(1);
    printf("rescued: %" PRIu64 " bytes kept, %" PRIu64 " stretches skipped\n", r.kept, r.stretches);
    for (uint64_t i = 0; i < r.stretches; i++) {
        printf("  byte %5" PRIu64 ": %" PRIu64 " bytes\n", list[2 * i], list[2 * i + 1]);
        skipped += list[2 * i + 1];
    }
    printf("kept and skipped: %" PRIu64 " bytes\n", r.kept + skipped);
    put(file, out, r.kept);
    free(out);
    free(list);
    return held(file);
}

int main(void) {
    FILE *file = tmpfile();
    if (file == NULL)
        return 1;
    add(file, BV_F, 7);
    size_t f21 = add(file, BV_F, 21);
    add(file, BV_I, 21);
    size_t f15 = add(file, BV_F, 15);
    add(file, BV_F, 105);
    size_t f40755 = add(file, BV_F, 40755);
    add(file, BV_F, 30);
    shelf all = held(file);
    printf("a shelf of %zu bytes\n", all.len);

    all.bytes[f21 + 12] ^= 4;
    memset(all.bytes + f15 + 2, 0xAA, 6);
    memmove(all.bytes + f40755 + 5000, all.bytes + f40755 + 5000 + LOST, all.len - (f40755 + 5000 + LOST));
    all.len -= LOST;
    printf("damaged: %zu bytes\n", all.len);
    browse(all);
    bv_found f = bv_lookup(BV_F, 105, all.bytes, all.len, NULL, 0);
    printf("F(105): %s at byte %" PRIu64 "\n", bv_name(f.code), f.byte);

    bv_rescued r = bv_rescue(all.bytes, all.len, NULL, 0, NULL, 0, coeffs, ROOM);
    printf("rescued with no room: %s\n", bv_name(r.code));
    shelf good = rescued(all);
    browse(good);
    f = bv_lookup(BV_F, 105, good.bytes, good.len, NULL, 0);
    printf("F(105): %s, at byte %" PRIu64 "\n", bv_name(f.code), f.start);
    shelf again = rescued(good);
    printf("the same: %s\n", again.len == good.len && memcmp(again.bytes, good.bytes, good.len) == 0 ? "yes" : "no");
    return 0;
}
