/*
 * Both engines at every index from 1 to 65535, both kinds: bv_second is held to bv_polynomial with no working limit.
 *
 * At each: with no height limit, where everything told but additions and every entry must be the same; where the height
 * is above 1, with a limit one below it, where both must be TALL and leave zeros; and with one entry of scratch too
 * few, where nothing may be written. The scratch has 2 n + 16 entries and no more, and all three slices hold numbers of
 * their own beforehand, the ends of the range among them. What is not lent, or lent and not needed, must stand as it
 * was. Ends with a message and status 1 at the first difference.
 */
#include <stdio.h>
#include <stdlib.h>
#include <string.h>

#include "bonvedrick.h"

#define MOST 65535
#define BEYOND 16 /* entries past the longest slice, never lent */

/* A slice, how many entries it has, and what it holds before each call. */
typedef struct slice {
    int64_t *now, *was;
    size_t length;
} slice;

static slice first, second, scratch;

static void differs(uint64_t kind, uint64_t n, const char *what) {
    printf("%c(%llu), kind %llu: %s\n", "FI"[kind - 1], (unsigned long long)n, (unsigned long long)kind, what);
    exit(1);
}

static slice made(size_t length) {
    slice s = {malloc(length * sizeof *s.now), malloc(length * sizeof *s.was), length};
    if (s.now == NULL || s.was == NULL)
        exit(2);
    return s;
}

/* Numbers that follow from the seed (splitmix64), with every ninth at an end of the range; none is 0. */
static void fill(slice *s, uint64_t seed) {
    static const int64_t ends[] = {INT64_MIN, INT64_MAX, -1, 1};
    for (size_t i = 0; i < s->length; i++) {
        uint64_t z = seed += UINT64_C(0x9E3779B97F4A7C15);
        z = (z ^ z >> 30) * UINT64_C(0xBF58476D1CE4E5B9);
        z = (z ^ z >> 27) * UINT64_C(0x94D049BB133111EB);
        z ^= z >> 31;
        s->was[i] = z % 9 == 0 ? ends[z / 9 % 4] : (int64_t)(z | 1);
    }
    memcpy(s->now, s->was, s->length * sizeof *s->now);
}

/* Entries from..to - 1 stand as they were. */
static int stands(const slice *s, size_t from, size_t to) {
    return memcmp(s->now + from, s->was + from, (to - from) * sizeof *s->now) == 0;
}

/* What was written is put back. The rest is not, so a stray entry is met later if not at once. */
static void put_back(slice *s, size_t to) {
    memcpy(s->now, s->was, to * sizeof *s->now);
}

static int zero(const slice *s, size_t to) {
    int64_t any = 0;
    for (size_t i = 0; i < to; i++)
        any |= s->now[i];
    return any == 0;
}

static int told(bv_answer a, uint64_t code, uint64_t degree) {
    return a.code == code && a.degree == degree && a.additions == 0 && a.height == 0 && a.peak == 0 && a.gain == 0;
}

/* How many outcomes were compared, by what they are. */
static long delivered, tall, refused;

static void both(uint64_t kind, uint64_t n) {
    const size_t room = 2 * (size_t)n + 16;
    const uint64_t degree = bv_polynomial(kind, n, BV_NO_LIMIT, BV_NO_LIMIT, NULL, 0).degree;
    /* just enough, or one or two entries more */
    const size_t need = (size_t)degree + 1, len = need + (size_t)(n + kind) % 3, edge = need + BEYOND;

    bv_answer short_one = bv_second(kind, n, BV_NO_LIMIT, second.now, len, scratch.now, room - 1);
    if (!told(short_one, BV_REFUSED_SHORT, degree))
        differs(kind, n, "one entry of scratch too few: another answer than SHORT and the degree");
    if (!stands(&first, 0, edge) || !stands(&second, 0, edge) || !stands(&scratch, 0, room + BEYOND))
        differs(kind, n, "something was written on SHORT, or by an earlier call where it was not lent");
    refused++;

    bv_answer a = bv_polynomial(kind, n, BV_NO_LIMIT, BV_NO_LIMIT, first.now, len);
    bv_answer b = bv_second(kind, n, BV_NO_LIMIT, second.now, len, scratch.now, room);
    if (a.code != BV_DONE || b.code != BV_DONE)
        differs(kind, n, "not delivered by both");
    if (a.degree != degree || b.degree != degree)
        differs(kind, n, "another degree");
    if (a.height != b.height || a.peak != b.peak || a.gain != b.gain)
        differs(kind, n, "another height, peak or gain");
    if (b.additions != 0)
        differs(kind, n, "the second engine told additions");
    if (memcmp(first.now, second.now, need * sizeof *first.now) != 0)
        differs(kind, n, "another entry");
    if (!zero(&scratch, room))
        differs(kind, n, "the scratch is not all zero");
    if (!stands(&first, need, edge) || !stands(&second, need, edge) || !stands(&scratch, room, room + BEYOND))
        differs(kind, n, "an entry past what is written changed");
    delivered++;

    if (a.height > 1) {
        const int64_t h = (int64_t)a.height - 1;
        put_back(&first, need);
        put_back(&second, need);
        put_back(&scratch, room);
        a = bv_polynomial(kind, n, h, BV_NO_LIMIT, first.now, len);
        b = bv_second(kind, n, h, second.now, len, scratch.now, room);
        if (!told(a, BV_REFUSED_TALL, degree) || !told(b, BV_REFUSED_TALL, degree))
            differs(kind, n, "a height limit one below the height: another answer than TALL and the degree");
        if (!zero(&first, need) || !zero(&second, need) || !zero(&scratch, room))
            differs(kind, n, "something other than zeros is left on TALL");
        if (!stands(&first, need, edge) || !stands(&second, need, edge) || !stands(&scratch, room, room + BEYOND))
            differs(kind, n, "an entry past what is written changed on TALL");
        tall++;
    }
    put_back(&first, need);
    put_back(&second, need);
    put_back(&scratch, room);
}

int main(void) {
    first = made(MOST + 3 + BEYOND), second = made(MOST + 3 + BEYOND), scratch = made(2 * MOST + 16 + BEYOND);
    fill(&first, 1), fill(&second, 2), fill(&scratch, 3);
    for (uint64_t n = 1; n <= MOST; n++)
        for (uint64_t kind = BV_F; kind <= BV_I; kind++)
            both(kind, n);
    if (!stands(&first, 0, first.length) || !stands(&second, 0, second.length) || !stands(&scratch, 0, scratch.length))
        differs(BV_I, MOST, "an entry that was not lent changed, here or before");
    printf("every n of both kinds: %ld delivered alike, %ld TALL alike, %ld SHORT\n", delivered, tall, refused);
    printf("%ld comparisons, no difference\n", delivered + tall + refused);
    return 0;
}
