/*
 * The edges of every argument: NULL with length 0, 0, the largest numbers, the places just inside and just outside each
 * range. Each call is held to its whole outcome: the answer's fields and the contents of each slice. Prints how many
 * outcomes were held.
 */
#define _DEFAULT_SOURCE /* for mmap, by which a shelf longer than 2^32 bytes costs no memory */
#include <stdio.h>
#include <stdlib.h>
#include <string.h>
#include <sys/mman.h>

#include "bonvedrick.h"

/* no working limit */
static const int64_t NONE = BV_NO_LIMIT;

static int calls;

static void hold(int right, const char *what, int line) {
    calls++;
    if (!right) {
        printf("edges.c:%d: %s\n", line, what);
        exit(1);
    }
}
#define HOLD(x) hold((x), #x, __LINE__)

static int answers(bv_answer a, uint64_t code, uint64_t degree, uint64_t additions, uint64_t height, uint64_t peak,
                   int64_t gain) {
    return a.code == code && a.degree == degree && a.additions == additions && a.height == height && a.peak == peak &&
           a.gain == gain;
}

static int stops(bv_stop a, uint64_t code, uint64_t degree, uint64_t additions, uint64_t due) {
    return a.code == code && a.degree == degree && a.additions == additions && a.due == due;
}

static int steps(bv_step a, uint64_t code, uint64_t count) {
    return a.code == code && a.count == count;
}

/* the byte is told with a wrong field and 0 with every other code */
static int wrote(bv_written a, uint64_t code, uint64_t degree, uint64_t used) {
    return a.code == code && a.degree == degree && a.used == used && a.byte == (code == BV_REFUSED_RCOUNT ? 6 : 0);
}

static int reads(bv_record a, uint64_t code, uint64_t degree, uint64_t used, uint64_t kind, uint64_t n) {
    return a.code == code && a.degree == degree && a.used == used && a.kind == kind && a.n == n && a.byte == 0;
}

static int wrong(bv_record a, uint64_t code, uint64_t byte) {
    return a.code == code && a.degree == 0 && a.used == 0 && a.kind == 0 && a.n == 0 && a.byte == byte;
}

/* a slice that stands as it was: every entry 77 */
static int64_t buf[65536 + 8];
static int fresh(void) {
    for (size_t i = 0; i < sizeof buf / sizeof *buf; i++)
        buf[i] = 77;
    return 1;
}
static int untouched_from(size_t from) {
    for (size_t i = from; i < sizeof buf / sizeof *buf; i++)
        if (buf[i] != 77)
            return 0;
    return 1;
}

static void polynomial(void) {
    static const uint64_t no_kind[] = {0, 3, 257, UINT64_C(1) << 32, UINT64_MAX};
    static const uint64_t no_index[] = {0, 65536, 65537, UINT64_C(1) << 32 | 1, UINT64_MAX};
    static const int64_t no_limit[] = {0, -1, INT64_MIN};
    for (size_t i = 0; i < 5; i++) {
        HOLD(answers(bv_polynomial(no_kind[i], 0, 0, NONE, NULL, 0), BV_REFUSED_KIND, 0, 0, 0, 0, 0));
        HOLD(answers(bv_polynomial(no_kind[i], 6, 1, NONE, buf, 9), BV_REFUSED_KIND, 0, 0, 0, 0, 0) &&
             untouched_from(0));
        HOLD(answers(bv_polynomial(1 + i % 2, no_index[i], 0, NONE, NULL, 0), BV_REFUSED_INDEX, 0, 0, 0, 0, 0));
        HOLD(answers(bv_polynomial(1 + i % 2, no_index[i], 1, NONE, buf, 9), BV_REFUSED_INDEX, 0, 0, 0, 0, 0) &&
             untouched_from(0));
    }
    for (size_t i = 0; i < 3; i++)
        HOLD(answers(bv_polynomial(BV_F, 65535, no_limit[i], NONE, NULL, 0), BV_REFUSED_LIMIT, 0, 0, 0, 0, 0));
    HOLD(answers(bv_polynomial(BV_F, 15, 1, NONE, NULL, 0), BV_REFUSED_SHORT, 8, 0, 0, 0, 0));
    HOLD(answers(bv_polynomial(BV_F, 15, 1, NONE, buf, 8), BV_REFUSED_SHORT, 8, 0, 0, 0, 0) && untouched_from(0));
    HOLD(answers(bv_polynomial(BV_F, 15, 1, NONE, buf, 9), BV_DONE, 8, 6, 1, 0, 1) && buf[8] == 1 && untouched_from(9));
    HOLD(fresh() && answers(bv_polynomial(BV_F, 105, 1, NONE, buf, 60), BV_REFUSED_TALL, 48, 0, 0, 0, 0) &&
         untouched_from(49));
    for (size_t i = 0; i <= 48; i++)
        HOLD(buf[i] == 0);
    HOLD(answers(bv_polynomial(BV_F, 105, 2, NONE, buf, 60), BV_DONE, 48, 98, 2, 7, 1) && buf[7] == -2 &&
         buf[41] == -2 && untouched_from(49));
    HOLD(fresh() && answers(bv_polynomial(BV_F, 1, 1, NONE, buf, 2), BV_DONE, 1, 0, 1, 0, 0) && buf[0] == -1 &&
         buf[1] == 1);
    HOLD(answers(bv_polynomial(BV_I, 1, INT64_MAX, NONE, buf, 1), BV_DONE, 0, 0, 1, 0, 1) && buf[0] == 1 &&
         buf[1] == 1 && untouched_from(2));
    HOLD(fresh() &&
         answers(bv_polynomial(BV_F, 65535, INT64_MAX, NONE, buf, 32768), BV_REFUSED_SHORT, 32768, 0, 0, 0, 0) &&
         untouched_from(0));
    HOLD(bv_polynomial(BV_F, 65535, INT64_MAX, NONE, buf, 32769).code == BV_DONE && buf[32768] == 1 &&
         untouched_from(32769));
    HOLD(fresh() && answers(bv_polynomial(BV_F, 65521, 1, NONE, buf, 65536), BV_DONE, 65520, 32760, 1, 0, 65521) &&
         untouched_from(65521));
}

static void partial(void) {
    HOLD(fresh() && stops(bv_partial(0, 15, 0, NONE, NULL, 0), BV_REFUSED_KIND, 0, 0, 0));
    HOLD(stops(bv_partial(UINT64_MAX, 0, UINT64_MAX, NONE, buf, 4), BV_REFUSED_KIND, 0, 0, 0));
    HOLD(stops(bv_partial(1, 0, 0, NONE, NULL, 0), BV_REFUSED_INDEX, 0, 0, 0));
    HOLD(stops(bv_partial(2, 65536, 0, NONE, buf, 4), BV_REFUSED_INDEX, 0, 0, 0));
    HOLD(stops(bv_partial(1, 32768, 0, NONE, buf, 4), BV_REFUSED_INDEX, 0, 0, 0));
    HOLD(stops(bv_partial(1, 15, 4, NONE, NULL, 0), BV_REFUSED_STEP, 0, 0, 0));
    HOLD(stops(bv_partial(1, 15, UINT64_MAX, NONE, buf, 9), BV_REFUSED_STEP, 0, 0, 0));
    HOLD(stops(bv_partial(1, 15, 3, NONE, NULL, 0), BV_REFUSED_SHORT, 4, 0, 0));
    HOLD(stops(bv_partial(1, 15, 3, NONE, buf, 4), BV_REFUSED_SHORT, 4, 0, 0) && untouched_from(0));
    HOLD(stops(bv_partial(1, 15, 0, NONE, buf, 5), BV_DONE, 4, 0, 3) && buf[0] == 1 && buf[1] == 0 && buf[4] == 0 &&
         untouched_from(5));
    HOLD(stops(bv_partial(1, 15, 3, NONE, buf, 9), BV_DONE, 4, 6, 0) && buf[0] == 1 && buf[1] == -1 && buf[4] == -1 &&
         untouched_from(5));
    HOLD(stops(bv_partial(2, 60, 0, NONE, buf, 4), BV_DONE, 3, 0, 3) && buf[0] == -1 && buf[4] == -1 &&
         untouched_from(5));
}

static void one_step(bv_step (*step)(uint64_t, int64_t, int64_t *, size_t), int64_t sign) {
    int64_t a[3] = {INT64_MIN, sign * INT64_MAX, -1}, was[3];
    memcpy(was, a, sizeof a);
    HOLD(steps(step(0, NONE, NULL, 0), BV_REFUSED_STEP, 0));
    HOLD(steps(step(65536, NONE, NULL, 0), BV_REFUSED_STEP, 0));
    HOLD(steps(step(UINT64_MAX, NONE, a, 3), BV_REFUSED_STEP, 0));
    HOLD(steps(step(1, NONE, NULL, 0), BV_DONE, 0));
    HOLD(steps(step(65535, NONE, a, 3), BV_DONE, 0) && memcmp(a, was, sizeof a) == 0);
    HOLD(steps(step(3, NONE, a, 3), BV_DONE, 0) && memcmp(a, was, sizeof a) == 0);
    HOLD(steps(step(1, NONE, a, 3), BV_REFUSED_OVER, 0) && memcmp(a, was, sizeof a) == 0);
    HOLD(steps(step(2, NONE, a, 0), BV_DONE, 0) && memcmp(a, was, sizeof a) == 0);
    a[0] = INT64_MAX, a[1] = INT64_MIN, a[2] = sign * INT64_MAX;
    HOLD(steps(step(2, NONE, a, 3), BV_DONE, 1) && a[0] == INT64_MAX && a[1] == INT64_MIN && a[2] == 0);
}

static int zero_to(uint64_t degree) {
    for (size_t i = 0; i <= degree; i++)
        if (buf[i] != 0)
            return 0;
    return 1;
}

/* what a delivered request tells, and the least working limit that delivers it, from the second program */
typedef struct polynomial_case {
    uint64_t kind, n, degree, additions, height, peak;
    int64_t gain, least;
} polynomial_case;

static const polynomial_case POLYNOMIALS[] = {
    {1, 1, 1, 0, 1, 0, 0, 1},
    {2, 1, 0, 0, 1, 0, 1, 1},
    {1, 2, 1, 0, 1, 0, 2, 1},
    {2, 2, 1, 0, 1, 0, 0, 1},
    {1, 9, 6, 1, 1, 0, 3, 1},
    {2, 9, 3, 0, 1, 0, 0, 1},
    {1, 105, 48, 98, 2, 7, 1, 2},
    {2, 105, 57, 122, 1, 0, 0, 1},
    {1, 420, 96, 98, 2, 14, 1, 2},
    {2, 4004, 2564, 646, 2, 92, 0, 2},
    {1, 385, 240, 656, 3, 119, 1, 3},
    {2, 385, 145, 324, 1, 0, 0, 1},
    {2, 770, 530, 324, 1, 0, 0, 1},
    {1, 11025, 5040, 98, 2, 735, 1, 2},
    {2, 15015, 9255, 126604, 11, 583, 0, 1113164},
    {1, 30030, 5760, 74316, 23, 2294, 1, 210},
    {1, 32768, 16384, 0, 1, 0, 2, 1},
    {2, 32768, 16384, 0, 1, 0, 0, 1},
    {1, 65498, 32748, 16374, 1, 0, 1, 1},
    {1, 65521, 65520, 32760, 1, 0, 65521, 1},
    {2, 65521, 1, 0, 1, 0, 0, 1},
    {2, 65522, 32942, 0, 1, 0, 0, 1},
    {1, 65535, 32768, 205314, 4, 13384, 1, 4},
    {2, 65535, 32767, 205300, 2, 53, 0, 2},
};

typedef struct partial_case {
    uint64_t kind, n, j, half, additions, due;
    int64_t least;
} partial_case;

static const partial_case PARTIALS[] = {
    {1, 3, 0, 1, 0, 1, 1},
    {2, 3, 1, 0, 0, 0, 1},
    {1, 105, 0, 24, 0, 7, 1},
    {1, 105, 3, 24, 66, 4, 1},
    {1, 105, 4, 24, 84, 3, 2},
    {1, 105, 7, 24, 98, 0, 2},
    {2, 105, 7, 28, 122, 0, 1},
    {1, 65535, 0, 16384, 0, 15, 1},
    {1, 65535, 15, 16384, 205314, 0, 4},
    {2, 65535, 1, 16383, 16383, 14, 1},
    {2, 65535, 15, 16383, 205300, 0, 2},
};
#define COUNT(a) (sizeof(a) / sizeof *(a))

static const int64_t LIMITS[] = {INT64_MIN, -1, 0, 1, INT64_MAX};
static const uint64_t NO_KIND[] = {0, 3, UINT64_MAX};
static const uint64_t NO_INDEX[] = {0, 65536, UINT64_MAX};

/* Every edge of w with every edge of h and of the length, at a good kind and index. */
static void polynomial_limits(polynomial_case p) {
    for (size_t i = 0; i < COUNT(LIMITS); i++)
        for (size_t k = 0; k < COUNT(LIMITS); k++)
            for (int room = 0; room < 4; room++) {
                int64_t h = LIMITS[i], w = LIMITS[k];
                size_t len = room == 0 ? 0 : p.degree + (size_t)room - 1;
                fresh();
                bv_answer a = bv_polynomial(p.kind, p.n, h, w, len == 0 ? NULL : buf, len);
                if (h < 1 || w < 1)
                    HOLD(answers(a, BV_REFUSED_LIMIT, 0, 0, 0, 0, 0) && untouched_from(0));
                else if (len <= p.degree)
                    HOLD(answers(a, BV_REFUSED_SHORT, p.degree, 0, 0, 0, 0) && untouched_from(0));
                else if (w < p.least)
                    HOLD(answers(a, BV_REFUSED_OVER, p.degree, 0, 0, 0, 0) && zero_to(p.degree) &&
                         untouched_from(p.degree + 1));
                else if ((uint64_t)h < p.height)
                    HOLD(answers(a, BV_REFUSED_TALL, p.degree, 0, 0, 0, 0) && zero_to(p.degree) &&
                         untouched_from(p.degree + 1));
                else
                    HOLD(answers(a, BV_DONE, p.degree, p.additions, p.height, p.peak, p.gain) && buf[p.degree] == 1 &&
                         untouched_from(p.degree + 1));
            }
}

static void partial_limits(partial_case p) {
    for (size_t k = 0; k < COUNT(LIMITS); k++)
        for (int room = 0; room < 4; room++) {
            int64_t w = LIMITS[k];
            size_t len = room == 0 ? 0 : p.half + (size_t)room - 1;
            fresh();
            bv_stop a = bv_partial(p.kind, p.n, p.j, w, len == 0 ? NULL : buf, len);
            if (w < 1)
                HOLD(stops(a, BV_REFUSED_LIMIT, 0, 0, 0) && untouched_from(0));
            else if (len <= p.half)
                HOLD(stops(a, BV_REFUSED_SHORT, p.half, 0, 0) && untouched_from(0));
            else if (w < p.least)
                HOLD(stops(a, BV_REFUSED_OVER, p.half, 0, 0) && zero_to(p.half) && untouched_from(p.half + 1));
            else
                HOLD(stops(a, BV_DONE, p.half, p.additions, p.due) && buf[0] == (p.kind == 1 ? 1 : -1) &&
                     untouched_from(p.half + 1));
        }
}

/* KIND, INDEX and STEP come first, whatever w is. */
static void before_limits(int64_t w) {
    fresh();
    for (size_t i = 0; i < COUNT(NO_KIND); i++) {
        HOLD(answers(bv_polynomial(NO_KIND[i], 0, INT64_MIN, w, NULL, 0), BV_REFUSED_KIND, 0, 0, 0, 0, 0));
        HOLD(answers(bv_polynomial(NO_KIND[i], 105, INT64_MAX, w, buf, 60), BV_REFUSED_KIND, 0, 0, 0, 0, 0) &&
             untouched_from(0));
        HOLD(stops(bv_partial(NO_KIND[i], 0, UINT64_MAX, w, NULL, 0), BV_REFUSED_KIND, 0, 0, 0));
        HOLD(stops(bv_partial(NO_KIND[i], 105, 7, w, buf, 60), BV_REFUSED_KIND, 0, 0, 0) && untouched_from(0));
        HOLD(answers(bv_polynomial(1, NO_INDEX[i], INT64_MIN, w, NULL, 0), BV_REFUSED_INDEX, 0, 0, 0, 0, 0));
        HOLD(answers(bv_polynomial(2, NO_INDEX[i], INT64_MAX, w, buf, 60), BV_REFUSED_INDEX, 0, 0, 0, 0, 0) &&
             untouched_from(0));
        HOLD(stops(bv_partial(1, NO_INDEX[i], UINT64_MAX, w, NULL, 0), BV_REFUSED_INDEX, 0, 0, 0));
        HOLD(stops(bv_partial(2, NO_INDEX[i], 0, w, buf, 60), BV_REFUSED_INDEX, 0, 0, 0) && untouched_from(0));
    }
    HOLD(stops(bv_partial(1, 1, 0, w, buf, 60), BV_REFUSED_INDEX, 0, 0, 0) && untouched_from(0));
    HOLD(stops(bv_partial(2, 32768, UINT64_MAX, w, NULL, 0), BV_REFUSED_INDEX, 0, 0, 0));
    HOLD(stops(bv_partial(1, 105, 8, w, buf, 60), BV_REFUSED_STEP, 0, 0, 0) && untouched_from(0));
    HOLD(stops(bv_partial(2, 105, UINT64_MAX, w, NULL, 0), BV_REFUSED_STEP, 0, 0, 0));
}

/* A step under w: the new values at 2 and 3 are those told, whatever stands at 0 and 1, which stay. */
static void step_limits(bv_step (*step)(uint64_t, int64_t, int64_t *, size_t), int64_t w, const int64_t a[4],
                        int64_t two, int64_t three) {
    int64_t b[4];
    memcpy(b, a, sizeof b);
    HOLD(steps(step(0, w, NULL, 0), BV_REFUSED_STEP, 0));
    HOLD(steps(step(65536, w, b, 4), BV_REFUSED_STEP, 0) && memcmp(a, b, sizeof b) == 0);
    HOLD(steps(step(UINT64_MAX, w, b, 4), BV_REFUSED_STEP, 0) && memcmp(a, b, sizeof b) == 0);
    HOLD(steps(step(1, w, NULL, 0), w < 1 ? BV_REFUSED_LIMIT : BV_DONE, 0));
    HOLD(steps(step(4, w, b, 4), w < 1 ? BV_REFUSED_LIMIT : BV_DONE, 0) && memcmp(a, b, sizeof b) == 0);
    HOLD(steps(step(65535, w, b, 4), w < 1 ? BV_REFUSED_LIMIT : BV_DONE, 0) && memcmp(a, b, sizeof b) == 0);
    if (w < 1)
        HOLD(steps(step(2, w, b, 4), BV_REFUSED_LIMIT, 0) && memcmp(a, b, sizeof b) == 0);
    else if (two > w || two < -w || three > w || three < -w)
        HOLD(steps(step(2, w, b, 4), BV_REFUSED_OVER, 0) && memcmp(a, b, sizeof b) == 0);
    else
        HOLD(steps(step(2, w, b, 4), BV_DONE, 2) && b[0] == a[0] && b[1] == a[1] && b[2] == two && b[3] == three);
}

static void limits(void) {
    static const int64_t small[] = {1, 0, 0, 1};
    /* old entries at the ends, new values of 1 and -1 */
    static const int64_t combs[] = {INT64_MIN, INT64_MAX, INT64_MIN + 1, INT64_MAX - 1};
    static const int64_t sums[] = {INT64_MIN, INT64_MAX, INT64_MAX, -INT64_MAX + 1};
    static const int64_t larger[] = {3, -3, 5, -1};
    /* a new value that w has room for, then one that it has not */
    static const int64_t late[] = {1, 0, 0, 5};
    /* new values at the ends of the largest limit, and one past it */
    static const int64_t ends[] = {0, 0, INT64_MAX, -INT64_MAX};
    static const int64_t past[] = {0, 0, 0, INT64_MIN};
    for (size_t i = 0; i < COUNT(POLYNOMIALS); i++)
        polynomial_limits(POLYNOMIALS[i]);
    for (size_t i = 0; i < COUNT(PARTIALS); i++)
        partial_limits(PARTIALS[i]);
    for (size_t k = 0; k < COUNT(LIMITS); k++) {
        int64_t w = LIMITS[k];
        before_limits(w);
        step_limits(bv_comb, w, small, -1, 1);
        step_limits(bv_accumulate, w, small, 1, 1);
        step_limits(bv_comb, w, combs, 1, -1);
        step_limits(bv_accumulate, w, sums, -1, 1);
        step_limits(bv_comb, w, larger, 2, 2);
        step_limits(bv_accumulate, w, larger, 8, -4);
        step_limits(bv_comb, w, late, -1, 5);
        step_limits(bv_accumulate, w, late, 1, 5);
        step_limits(bv_comb, w, ends, INT64_MAX, -INT64_MAX);
        step_limits(bv_accumulate, w, ends, INT64_MAX, -INT64_MAX);
        step_limits(bv_comb, w, past, 0, INT64_MIN);
        step_limits(bv_accumulate, w, past, 0, INT64_MIN);
    }
}

/* F(6)'s record with the lowest number of b bytes as each coefficient: refused in b bytes, since the width goes by the
 * magnitude, and written in the next width; in 8 bytes there is no next one. */
static void lowest(void) {
    for (size_t b = 1; b <= 8; b *= 2) {
        int64_t low = -(INT64_MAX >> (64 - 8 * b)) - 1, c[] = {low, low, low};
        uint8_t bytes[40] = {0xC9, 0x50, 1, (uint8_t)b, 6, 0, 3}, again[40];
        for (size_t i = 0; i < 3; i++)
            bytes[10 + i * b + b - 1] = 0x80;
        HOLD(fresh() && reads(bv_read(bytes, 40, buf, 9), BV_REFUSED_WIDTH, 0, 0, 0, 0) && untouched_from(0));
        if (b == 8) {
            HOLD(wrote(bv_write(1, 6, c, 3, again, 40), BV_REFUSED_OVER, 2, 0));
            continue;
        }
        HOLD(wrote(bv_write(1, 6, c, 3, again, 40), BV_DONE, 2, 10 + 3 * 2 * b) && again[3] == 2 * b);
        HOLD(reads(bv_read(again, 40, buf, 9), BV_DONE, 2, 10 + 3 * 2 * b, 1, 6) && memcmp(buf, c, sizeof c) == 0);
        for (size_t i = 0; i < 3; i++)
            c[i] = low + 1;
        HOLD(wrote(bv_write(1, 6, c, 3, again, 40), BV_DONE, 2, 10 + 3 * b) && again[3] == b);
        HOLD(reads(bv_read(again, 40, buf, 9), BV_DONE, 2, 10 + 3 * b, 1, 6) && memcmp(buf, c, sizeof c) == 0);
    }
}

static void record(void) {
    static const uint8_t f6[] = {0xC9, 0x50, 1, 1, 6, 0, 3, 0, 0, 0, 1, 0xFF, 1};
    int64_t c[] = {1, -1, 1}, least[] = {1, INT64_MIN, 1};
    uint8_t bytes[40];
    memset(bytes, 7, sizeof bytes);
    HOLD(wrote(bv_write(0, 0, NULL, 0, NULL, 0), BV_REFUSED_KIND, 0, 0));
    HOLD(wrote(bv_write(UINT64_MAX, 6, c, 3, bytes, 40), BV_REFUSED_KIND, 0, 0));
    HOLD(wrote(bv_write(1, 0, NULL, 0, NULL, 0), BV_REFUSED_INDEX, 0, 0));
    HOLD(wrote(bv_write(2, UINT64_MAX, c, 3, bytes, 40), BV_REFUSED_INDEX, 0, 0));
    HOLD(wrote(bv_write(1, 6, NULL, 0, NULL, 0), BV_REFUSED_RCOUNT, 0, 0));
    HOLD(wrote(bv_write(1, 6, c, 2, bytes, 40), BV_REFUSED_RCOUNT, 0, 0));
    HOLD(wrote(bv_write(1, 6, least, 3, NULL, 0), BV_REFUSED_OVER, 2, 0));
    HOLD(wrote(bv_write(1, 6, c, 3, NULL, 0), BV_REFUSED_SHORT, 2, 0));
    HOLD(wrote(bv_write(1, 6, c, 3, bytes, 12), BV_REFUSED_SHORT, 2, 0) && bytes[0] == 7);
    HOLD(wrote(bv_write(1, 6, c, 3, bytes, 13), BV_DONE, 2, 13) && memcmp(bytes, f6, 13) == 0 && bytes[13] == 7);
    HOLD(fresh() && reads(bv_read(NULL, 0, NULL, 0), BV_REFUSED_CUT, 0, 0, 0, 0));
    HOLD(reads(bv_read(f6, 9, buf, 9), BV_REFUSED_CUT, 0, 0, 0, 0));
    HOLD(reads(bv_read(f6, 12, buf, 9), BV_REFUSED_CUT, 0, 0, 0, 0));
    HOLD(reads(bv_read(f6, 13, NULL, 0), BV_REFUSED_SHORT, 2, 0, 0, 0));
    HOLD(reads(bv_read(f6, 13, buf, 2), BV_REFUSED_SHORT, 2, 0, 0, 0) && untouched_from(0));
    HOLD(reads(bv_read(bytes, 40, buf, 9), BV_DONE, 2, 13, 1, 6) && memcmp(buf, c, sizeof c) == 0 && untouched_from(3));
    /* each byte of the header changed alone, and with the byte of each later field */
    static const uint64_t codes[] = {BV_REFUSED_MARK,   BV_REFUSED_MARK,   BV_REFUSED_RKIND,  BV_REFUSED_RWIDTH,
                                     BV_REFUSED_RCOUNT, BV_REFUSED_RCOUNT, BV_REFUSED_RCOUNT, BV_REFUSED_RCOUNT,
                                     BV_REFUSED_RCOUNT, BV_REFUSED_RCOUNT};
    static const uint64_t starts[] = {0, 0, 2, 3, 6, 6, 6, 6, 6, 6};
    for (int at = 0; at < 10; at++) {
        uint8_t all[40];
        memcpy(all, bytes, sizeof all);
        all[at] = 0xAA;
        HOLD(fresh() && wrong(bv_read(all, 40, buf, 9), codes[at], starts[at]) && untouched_from(0));
        for (int also = at + 1; also < 10; also++) {
            all[also] = 0xAA;
            HOLD(wrong(bv_read(all, 40, buf, 9), codes[at], starts[at]) && untouched_from(0));
            all[also] = bytes[also];
        }
    }
    bytes[4] = 0;
    HOLD(wrong(bv_read(bytes, 40, buf, 9), BV_REFUSED_RINDEX, 4) && untouched_from(0));
    HOLD(wrong(bv_read(bytes, 10, buf, 9), BV_REFUSED_RINDEX, 4) &&
         reads(bv_read(bytes, 9, buf, 9), BV_REFUSED_CUT, 0, 0, 0, 0));
    bytes[6] = 1;
    HOLD(wrong(bv_read(bytes, 40, buf, 9), BV_REFUSED_RINDEX, 4) && untouched_from(0));
    bytes[4] = 6, bytes[6] = 3;
    bytes[3] = 2;
    HOLD(reads(bv_read(bytes, 15, buf, 9), BV_REFUSED_CUT, 0, 0, 0, 0) && untouched_from(0));
    memcpy(bytes + 10, "\1\0\377\377\1", 6);
    HOLD(reads(bv_read(bytes, 40, buf, 9), BV_REFUSED_WIDTH, 0, 0, 0, 0) && untouched_from(0));
    bytes[11] = 1;
    HOLD(reads(bv_read(bytes, 40, buf, 9), BV_DONE, 2, 16, 1, 6) && buf[0] == 257 && buf[1] == -1 && untouched_from(3));
    bytes[3] = 1, bytes[10] = 0x80;
    HOLD(fresh() && reads(bv_read(bytes, 40, buf, 9), BV_REFUSED_WIDTH, 0, 0, 0, 0) && untouched_from(0));
    lowest();
}

/* a second slice, likewise; with room for the second engine at every index, and more */
static int64_t scratch[131086 + 50];

static int fresh_scratch(void) {
    for (size_t i = 0; i < COUNT(scratch); i++)
        scratch[i] = 77;
    return fresh();
}

/* all of its first so many are what is told, and the others stand as they were */
static int scratch_holds(size_t room, int64_t told) {
    for (size_t i = 0; i < COUNT(scratch); i++)
        if (scratch[i] != (i < room ? told : 77))
            return 0;
    return 1;
}

static int refused_list(const uint64_t *indices, size_t count, int64_t h, size_t len, size_t room, uint64_t code) {
    bv_answer a = bv_cascade(count == 0 ? NULL : indices, count, h, len == 0 ? NULL : buf, len,
                             room == 0 ? NULL : scratch, room);
    return answers(a, code, 0, 0, 0, 0, 0) && untouched_from(0) && scratch_holds(0, 0);
}

/* what a cascade tells, from the second program; its largest factor has so many entries; height 0 is OVER */
typedef struct cascade_case {
    uint64_t indices[8];
    size_t count, longest;
    uint64_t degree, height, peak;
    int64_t gain;
} cascade_case;

static const cascade_case CASCADES[] = {
    {{1}, 1, 2, 1, 1, 0, 0},
    {{2}, 1, 2, 1, 1, 0, 2},
    {{2, 4, 8}, 3, 5, 7, 1, 0, 8},
    {{8, 4, 2}, 3, 5, 7, 1, 0, 8},
    {{2, 4, 8, 30}, 4, 9, 15, 2, 1, 8},
    {{1, 1, 1, 1, 1, 1, 1, 1}, 8, 2, 8, 70, 4, 0},
    {{105, 105, 105, 105, 105, 105, 105, 105}, 8, 49, 384, 3997316807, 192, 1},
    {{2, 4, 8, 16, 32, 64, 105, 1155}, 8, 481, 591, 6, 99, 64},
    {{239, 239, 239, 239, 239, 239, 239, 239}, 8, 239, 1904, 0, 0, 0},
    {{2003, 2003, 2003, 2003, 2003, 2003, 1}, 7, 2003, 12013, 0, 0, 0},
    {{1, 2003, 2003, 2003, 2003, 2003, 2003}, 7, 2003, 12013, 7404799259935, 4486, 0},
    {{2998, 2998, 2998, 2998, 2998, 2998, 2998, 210}, 8, 1499, 10534, 5796087793766877839, 5267, 1},
    {{17, 2, 65519}, 3, 65519, 65535, 34, 17, 2227646},
};

/* A cascade at an h and with rooms of any sort. */
static void cascaded(const cascade_case *p, int64_t h, size_t len, size_t room) {
    fresh_scratch();
    bv_answer a = bv_cascade(p->indices, p->count, h, len == 0 ? NULL : buf, len, room == 0 ? NULL : scratch, room);
    if (h < 1)
        HOLD(answers(a, BV_REFUSED_LIMIT, 0, 0, 0, 0, 0) && untouched_from(0) && scratch_holds(0, 0));
    else if (len <= p->degree || room < p->longest)
        HOLD(answers(a, BV_REFUSED_SHORT, p->degree, 0, 0, 0, 0) && untouched_from(0) && scratch_holds(0, 0));
    else if (p->height == 0 || p->height > (uint64_t)h)
        HOLD(answers(a, p->height == 0 ? BV_REFUSED_OVER : BV_REFUSED_TALL, p->degree, 0, 0, 0, 0) &&
             zero_to(p->degree) && untouched_from(p->degree + 1) && scratch_holds(room, 0));
    else
        HOLD(answers(a, BV_DONE, p->degree, 0, p->height, p->peak, p->gain) && buf[p->degree] == 1 &&
             untouched_from(p->degree + 1) && scratch_holds(room, 0));
}

/* Every edge of h with every edge of both lengths; then h at the height and one less. */
static void cascades(void) {
    for (size_t i = 0; i < COUNT(CASCADES); i++) {
        const cascade_case *p = &CASCADES[i];
        const size_t enough = p->degree + 1;
        const size_t lens[] = {0, enough - 1, enough, enough + 2}, rooms[] = {0, p->longest - 1, p->longest, 65536};
        for (size_t k = 0; k < 16; k++)
            cascaded(p, LIMITS[k % COUNT(LIMITS)], lens[k / 4], rooms[k % 4]);
        for (size_t k = 0; k < COUNT(LIMITS); k++)
            cascaded(p, LIMITS[k], enough, p->longest);
        cascaded(p, (int64_t)p->height, enough + 1, p->longest + 1);
        cascaded(p, (int64_t)p->height - 1, enough + 1, p->longest + 1);
    }
}

/* LIST by the number of indices, INDEX, and LIST by the degree come first, in this order, whatever follows. */
static void no_cascades(void) {
    static const uint64_t good[9] = {3, 5, 7, 9, 11, 13, 15, 17, 19}, none[9] = {0};
    static const uint64_t large[][8] = {{65521, 17}, {65519, 17, 1, 1}, {65521, 65521, 65521, 65521}};
    static const size_t counts[] = {2, 4, 4};
    fresh_scratch();
    for (size_t k = 0; k < COUNT(LIMITS); k++) {
        int64_t h = LIMITS[k];
        for (size_t room = 0; room <= 65536; room += 65536) {
            HOLD(refused_list(good, 0, h, room, room, BV_REFUSED_LIST));
            HOLD(refused_list(good, 9, h, room, 65536 - room, BV_REFUSED_LIST));
            HOLD(refused_list(none, 9, h, room, room, BV_REFUSED_LIST));
            for (size_t i = 0; i < COUNT(large); i++)
                HOLD(refused_list(large[i], counts[i], h, room, 65536 - room, BV_REFUSED_LIST));
            for (size_t i = 0; i < COUNT(NO_INDEX); i++)
                for (size_t at = 0; at < 8; at++) {
                    uint64_t list[8] = {65521, 65521, 2, 3, 5, 7, 11, 13};
                    list[at] = NO_INDEX[i];
                    HOLD(refused_list(list, 8, h, room, room, BV_REFUSED_INDEX));
                    HOLD(refused_list(list, at + 1, h, 65536 - room, room, BV_REFUSED_INDEX));
                }
        }
    }
}

/* A request to the second engine that is refused before any length counts. */
static int refused_second(uint64_t kind, uint64_t n, int64_t h, size_t len, size_t room, uint64_t code) {
    bv_answer a = bv_second(kind, n, h, len == 0 ? NULL : buf, len, room == 0 ? NULL : scratch, room);
    return answers(a, code, 0, 0, 0, 0, 0) && untouched_from(0) && scratch_holds(0, 0);
}

/* KIND, then INDEX, then LIMIT come first, whatever follows. */
static void no_seconds(void) {
    static const size_t lens[] = {0, 65536}, rooms[] = {0, 131086};
    fresh_scratch();
    for (size_t k = 0; k < COUNT(LIMITS); k++)
        for (size_t at = 0; at < 4; at++) {
            int64_t h = LIMITS[k];
            size_t len = lens[at / 2], room = rooms[at % 2];
            for (size_t i = 0; i < COUNT(NO_KIND); i++) {
                HOLD(refused_second(NO_KIND[i], NO_INDEX[i], h, len, room, BV_REFUSED_KIND));
                HOLD(refused_second(NO_KIND[i], 105, h, len, room, BV_REFUSED_KIND));
                HOLD(refused_second(1, NO_INDEX[i], h, len, room, BV_REFUSED_INDEX));
                HOLD(refused_second(2, NO_INDEX[i], h, len, room, BV_REFUSED_INDEX));
            }
            if (h < 1) {
                HOLD(refused_second(1, 1, h, len, room, BV_REFUSED_LIMIT));
                HOLD(refused_second(2, 65535, h, len, room, BV_REFUSED_LIMIT));
            }
        }
}

/* The second engine at an h and with rooms of any sort. */
static void asked_second(const polynomial_case *p, int64_t h, size_t len, size_t room) {
    fresh_scratch();
    bv_answer a = bv_second(p->kind, p->n, h, len == 0 ? NULL : buf, len, room == 0 ? NULL : scratch, room);
    if (h < 1)
        HOLD(answers(a, BV_REFUSED_LIMIT, 0, 0, 0, 0, 0) && untouched_from(0) && scratch_holds(0, 0));
    else if (len <= p->degree || room < 2 * p->n + 16)
        HOLD(answers(a, BV_REFUSED_SHORT, p->degree, 0, 0, 0, 0) && untouched_from(0) && scratch_holds(0, 0));
    else if (p->height > (uint64_t)h)
        HOLD(answers(a, BV_REFUSED_TALL, p->degree, 0, 0, 0, 0) && zero_to(p->degree) &&
             untouched_from(p->degree + 1) && scratch_holds(room, 0));
    else {
        static int64_t plain[65536];
        HOLD(answers(a, BV_DONE, p->degree, 0, p->height, p->peak, p->gain) && buf[p->degree] == 1 &&
             untouched_from(p->degree + 1) && scratch_holds(room, 0));
        HOLD(bv_polynomial(p->kind, p->n, h, NONE, plain, len).code == BV_DONE &&
             memcmp(plain, buf, (p->degree + 1) * sizeof *buf) == 0);
    }
}

/* Every edge of h with every edge of both lengths; then h at the height and one less. */
static void seconds(void) {
    for (size_t i = 0; i < COUNT(POLYNOMIALS); i++) {
        const polynomial_case *p = &POLYNOMIALS[i];
        const size_t enough = p->degree + 1, needed = 2 * p->n + 16;
        const size_t lens[] = {0, enough - 1, enough, enough + 2}, rooms[] = {0, needed - 1, needed, needed + 40};
        for (size_t k = 0; k < 16; k++)
            for (size_t at = 0; at < COUNT(LIMITS); at++)
                asked_second(p, LIMITS[at], lens[k / 4], rooms[k % 4]);
        asked_second(p, (int64_t)p->height, enough, needed);
        asked_second(p, (int64_t)p->height - 1, enough, needed);
    }
}

/* found: that stretch of that shelf */
static int found(bv_found a, uint64_t from, uint64_t start, uint64_t length) {
    return a.code == BV_DONE && a.byte == 0 && a.shelf == 0 && a.from == from && a.start == start && a.length == length;
}

/* refused: the byte and the shelf are told of a record that doesn't read, and 0 with every other code */
static int refuses(bv_found a, uint64_t code, uint64_t byte, uint64_t shelf) {
    return a.code == code && a.byte == byte && a.shelf == shelf && a.from == 0 && a.start == 0 && a.length == 0;
}

static int shows(bv_browsed a, uint64_t start, uint64_t length, uint64_t kind, uint64_t n, uint64_t degree) {
    return a.code == BV_DONE && a.start == start && a.length == length && a.kind == kind && a.n == n &&
           a.degree == degree;
}

static int shows_none(bv_browsed a, uint64_t code, uint64_t start) {
    return a.code == code && a.start == start && a.length == 0 && a.kind == 0 && a.n == 0 && a.degree == 0;
}

/* A record of coefficients that are all the same, put at a place by the words of the header; its length. */
static size_t put(uint8_t *to, uint64_t kind, uint64_t n, size_t width, size_t count, int64_t each) {
    const uint64_t head[] = {0xC9, 0x50, kind, width, n, n >> 8, count, count >> 8, count >> 16, 0};
    for (size_t i = 0; i < 10; i++)
        to[i] = (uint8_t)head[i];
    for (size_t i = 0; i < count * width; i++)
        to[10 + i] = (uint8_t)((uint64_t)each >> (8 * (i % width)));
    return 10 + count * width;
}

/* A shelf of seven: of each width, both kinds of one index, two indices with the same low byte, and one that comes
 * again with other coefficients; and F(15), which it does not have. */
typedef struct shelf_record {
    uint64_t kind, n;
    size_t width, count;
    int64_t each;
} shelf_record;

static const shelf_record RECORDS[] = {
    {1, 6, 1, 3, -127},      {2, 6, 2, 5, -128},       {1, 262, 1, 131, 0},   {1, 1, 4, 2, 32768},
    {2, 1, 8, 1, INT64_MAX}, {1, 6, 8, 3, -INT64_MAX}, {2, 65521, 1, 2, 127},
};
enum { SEVEN = 7 };

static const uint8_t F15[] = {0xC9, 0x50, 1, 1, 15, 0, 9, 0, 0, 0, 1, 0xFF, 0, 1, 0xFF, 1, 0, 0xFF, 1};

static uint8_t good[512];
static size_t starts[SEVEN + 1]; /* where each record starts, and where the last ends */

static void make_good(void) {
    for (size_t i = 0; i < SEVEN; i++) {
        const shelf_record *r = &RECORDS[i];
        starts[i + 1] = starts[i] + put(good + starts[i], r->kind, r->n, r->width, r->count, r->each);
    }
}

/* KIND, then INDEX, come first, whatever the shelves hold. */
static void no_lookups(void) {
    static const uint64_t no_kind[] = {0, 3, 257, UINT64_C(1) << 32 | 1, UINT64_MAX};
    static const uint64_t no_index[] = {0, 65536, 65542, UINT64_C(1) << 32 | 6, UINT64_MAX};
    static const uint8_t broken[] = {0xC9, 0x50, 3};
    for (size_t i = 0; i < 5; i++) {
        HOLD(refuses(bv_lookup(no_kind[i], no_index[i], NULL, 0, NULL, 0), BV_REFUSED_KIND, 0, 0));
        HOLD(refuses(bv_lookup(no_kind[i], 6, good, starts[SEVEN], good, starts[SEVEN]), BV_REFUSED_KIND, 0, 0));
        HOLD(refuses(bv_lookup(no_kind[i], 6, broken, 3, broken, 3), BV_REFUSED_KIND, 0, 0));
        for (uint64_t kind = 1; kind <= 2; kind++) {
            HOLD(refuses(bv_lookup(kind, no_index[i], NULL, 0, NULL, 0), BV_REFUSED_INDEX, 0, 0));
            HOLD(refuses(bv_lookup(kind, no_index[i], good, starts[SEVEN], good, starts[SEVEN]), BV_REFUSED_INDEX, 0,
                         0));
            HOLD(refuses(bv_lookup(kind, no_index[i], broken, 3, broken, 3), BV_REFUSED_INDEX, 0, 0));
        }
    }
}

/* Empty shelves, by NULL and by length 0: an empty one ends well. */
static void empty_shelves(void) {
    static const uint64_t places[] = {0, 1, 13, UINT64_C(1) << 32, UINT64_C(1) << 63, UINT64_MAX};
    for (size_t i = 0; i < 4; i++) {
        const uint8_t *own = i % 2 ? good : NULL, *house = i / 2 ? good : NULL;
        HOLD(refuses(bv_lookup(1, 6, own, 0, house, 0), BV_REFUSED_ABSENT, 0, 0));
        HOLD(refuses(bv_lookup(2, 65535, own, 0, house, 0), BV_REFUSED_ABSENT, 0, 0));
        HOLD(found(bv_lookup(1, 6, good, starts[1], house, 0), BV_OWN, 0, starts[1]));
        HOLD(found(bv_lookup(1, 6, own, 0, good, starts[1]), BV_HOUSE, 0, starts[1]));
        HOLD(refuses(bv_lookup(2, 6, good, starts[1], house, 0), BV_REFUSED_ABSENT, 0, 0));
        HOLD(refuses(bv_lookup(2, 6, own, 0, good, starts[1]), BV_REFUSED_ABSENT, 0, 0));
    }
    for (size_t i = 0; i < COUNT(places); i++) {
        HOLD(shows_none(bv_browse(NULL, 0, places[i]), BV_DONE, 0));
        HOLD(shows_none(bv_browse(good, 0, places[i]), BV_DONE, 0));
    }
}

/* Each record of a good shelf, from either shelf; the first counts, and the own shelf comes first. */
static void good_shelves(void) {
    const size_t all = starts[SEVEN], most = starts[SEVEN - 1];
    for (size_t i = 0; i < SEVEN; i++) {
        const shelf_record *r = &RECORDS[i];
        size_t first = i == 5 ? 0 : i; /* F(6) comes twice */
        uint64_t length = starts[first + 1] - starts[first];
        HOLD(found(bv_lookup(r->kind, r->n, good, all, NULL, 0), BV_OWN, starts[first], length));
        HOLD(found(bv_lookup(r->kind, r->n, NULL, 0, good, all), BV_HOUSE, starts[first], length));
        HOLD(found(bv_lookup(r->kind, r->n, good, all, good, all), BV_OWN, starts[first], length));
        HOLD(found(bv_lookup(r->kind, r->n, good, starts[i], good, all), i == 5 ? BV_OWN : BV_HOUSE, starts[first],
                   length));
        /* from its own start on it is the first */
        HOLD(found(bv_lookup(r->kind, r->n, good + starts[i], all - starts[i], good, all), BV_OWN, 0,
                   starts[i + 1] - starts[i]));
        HOLD(shows(bv_browse(good, all, starts[i]), starts[i], starts[i + 1] - starts[i], r->kind, r->n, r->count - 1));
        /* what follows it is not looked at, so it may end there */
        HOLD(shows(bv_browse(good, starts[i + 1], starts[i]), starts[i], starts[i + 1] - starts[i], r->kind, r->n,
                   r->count - 1));
    }
    HOLD(found(bv_lookup(2, 65521, good, most, good, all), BV_HOUSE, most, 12));
    HOLD(refuses(bv_lookup(2, 65521, good, most, good, most), BV_REFUSED_ABSENT, 0, 0));
    HOLD(refuses(bv_lookup(2, 262, good, all, good, all), BV_REFUSED_ABSENT, 0, 0));
    HOLD(refuses(bv_lookup(1, 65521, good, all, good, all), BV_REFUSED_ABSENT, 0, 0));
    HOLD(refuses(bv_lookup(1, 65535, good, all, NULL, 0), BV_REFUSED_ABSENT, 0, 0));
    HOLD(shows_none(bv_browse(good, all, all), BV_DONE, all));
    HOLD(shows_none(bv_browse(good, all, all + 1), BV_DONE, all));
    HOLD(shows_none(bv_browse(good, all, UINT64_C(1) << 32), BV_DONE, all));
    HOLD(shows_none(bv_browse(good, all, UINT64_C(1) << 63), BV_DONE, all));
    HOLD(shows_none(bv_browse(good, all, UINT64_MAX), BV_DONE, all));
}

/* What stands at every byte of a shelf, and past its end, is what bv_read makes of the bytes from there on. */
static void browsed(const uint8_t *shelf, size_t len) {
    for (size_t at = 0; at <= len + 1; at++) {
        bv_browsed b = bv_browse(shelf, len, at);
        bv_record r = {0, 0, 0, 0, 0, 0};
        if (at < len)
            r = bv_read(shelf + at, len - at, buf, 65536);
        HOLD(b.code == r.code && b.start == (at < len ? at : len) && b.length == r.used && b.kind == r.kind &&
             b.n == r.n && b.degree == r.degree);
    }
}

/* A byte of F(6)'s record, coefficients 1 1 1, to be changed: where, to what, and the code that it then gives. */
typedef struct damage {
    size_t at;
    uint8_t byte;
    uint64_t code;
} damage;

static const damage DAMAGES[] = {
    {0, 0xC8, BV_REFUSED_MARK},   {1, 0x51, BV_REFUSED_MARK},   {2, 0, BV_REFUSED_RKIND},
    {2, 3, BV_REFUSED_RKIND},     {3, 0, BV_REFUSED_RWIDTH},    {3, 3, BV_REFUSED_RWIDTH},
    {3, 16, BV_REFUSED_RWIDTH},   {4, 0, BV_REFUSED_RINDEX},    {4, 7, BV_REFUSED_RCOUNT},
    {5, 1, BV_REFUSED_RCOUNT},    {6, 2, BV_REFUSED_RCOUNT},    {6, 4, BV_REFUSED_RCOUNT},
    {9, 128, BV_REFUSED_RCOUNT},  {10, 0x80, BV_REFUSED_WIDTH}, {11, 0x80, BV_REFUSED_WIDTH},
    {12, 0x80, BV_REFUSED_WIDTH}, {3, 2, BV_REFUSED_CUT},
};

/* A shelf that holds a record that doesn't read, at a place: it is refused there, in whichever shelf, unless a match
 * comes first; and the house's shelf is not looked at after the own one has stopped. */
static void stops_at(const uint8_t *shelf, size_t len, size_t at, uint64_t code) {
    const size_t all = starts[SEVEN];
    /* asked for is F(15), which the shelf does not have before that place */
    HOLD(refuses(bv_lookup(1, 15, shelf, len, NULL, 0), code, at, BV_OWN));
    HOLD(refuses(bv_lookup(1, 15, shelf, len, F15, sizeof F15), code, at, BV_OWN));
    HOLD(refuses(bv_lookup(1, 15, shelf, len, shelf, len), code, at, BV_OWN));
    HOLD(refuses(bv_lookup(1, 15, NULL, 0, shelf, len), code, at, BV_HOUSE));
    HOLD(refuses(bv_lookup(1, 15, good, all, shelf, len), code, at, BV_HOUSE));
    HOLD(found(bv_lookup(1, 15, F15, sizeof F15, shelf, len), BV_OWN, 0, sizeof F15));
    HOLD(refuses(bv_lookup(0, 15, shelf, len, shelf, len), BV_REFUSED_KIND, 0, 0));
    HOLD(refuses(bv_lookup(1, 65536, shelf, len, shelf, len), BV_REFUSED_INDEX, 0, 0));
    HOLD(shows_none(bv_browse(shelf, len, at), code, at));
    /* up to there all is well */
    HOLD(refuses(bv_lookup(1, 15, shelf, at, NULL, 0), BV_REFUSED_ABSENT, 0, 0));
    HOLD(refuses(bv_lookup(1, 15, NULL, 0, shelf, at), BV_REFUSED_ABSENT, 0, 0));
    HOLD(found(bv_lookup(1, 15, shelf, at, F15, sizeof F15), BV_HOUSE, 0, sizeof F15));
    for (bv_browsed b = bv_browse(shelf, len, 0); b.start < at; b = bv_browse(shelf, len, b.start + b.length)) {
        HOLD(b.code == BV_DONE && b.length > 0 && b.start + b.length <= at);
        if (b.kind == 1 && b.n == 6 && b.start > 0)
            continue; /* the second F(6) of good */
        HOLD(found(bv_lookup(b.kind, b.n, shelf, len, F15, sizeof F15), BV_OWN, b.start, b.length));
        HOLD(found(bv_lookup(b.kind, b.n, NULL, 0, shelf, len), BV_HOUSE, b.start, b.length));
    }
}

/* Each damage to a record that stands first, in the midst and last, with F(15) after it and without; and the record cut
 * at every place. */
static void broken_shelves(void) {
    uint8_t shelf[600];
    for (size_t before = 0; before <= SEVEN; before++) {
        const size_t at = starts[before];
        memcpy(shelf, good, at);
        for (size_t i = 0; i < COUNT(DAMAGES); i++) {
            put(shelf + at, 1, 6, 1, 3, 1);
            memcpy(shelf + at + 13, F15, sizeof F15);
            shelf[at + DAMAGES[i].at] = DAMAGES[i].byte;
            /* in two bytes each, F(6)'s coefficients take in three bytes of F(15), which then has no mark */
            if (DAMAGES[i].code == BV_REFUSED_CUT)
                HOLD(refuses(bv_lookup(1, 15, shelf, at + 13 + sizeof F15, NULL, 0), BV_REFUSED_MARK, at + 16, BV_OWN));
            else
                stops_at(shelf, at + 13 + sizeof F15, at, DAMAGES[i].code);
            stops_at(shelf, at + 13, at, DAMAGES[i].code);
        }
        put(shelf + at, 1, 6, 1, 3, 1);
        for (size_t end = 1; end < 13; end++)
            stops_at(shelf, at + end, at, BV_REFUSED_CUT);
        browsed(shelf, at + 13);
        shelf[at + 3] = 2;
        browsed(shelf, at + 13);
    }
}

/* Two bytes of a header wrong: the first of its fields that is wrong decides, also where the record is the one that is
 * asked for. */
static void wrong_together(void) {
    static const uint64_t codes[] = {BV_REFUSED_MARK, BV_REFUSED_MARK, BV_REFUSED_RKIND, BV_REFUSED_RWIDTH};
    uint8_t shelf[13 + 12];
    const size_t at = put(shelf, 1, 6, 1, 3, 1), all = sizeof shelf;
    for (size_t i = 0; i < 10; i++)
        for (size_t j = i; j < 10; j++) {
            uint64_t code = i < COUNT(codes) ? codes[i] : BV_REFUSED_RCOUNT;
            put(shelf + at, 2, 3, 1, 2, 1);
            shelf[at + i] = shelf[at + j] = 0xAA;
            HOLD(refuses(bv_lookup(2, 3, shelf, all, NULL, 0), code, at, BV_OWN));
            HOLD(refuses(bv_lookup(2, 3, shelf, at, shelf, all), code, at, BV_HOUSE));
            HOLD(shows_none(bv_browse(shelf, all, at), code, at));
        }
}

/* One coefficient decides: at each place of F(101), the others 0, and at an address of any alignment. In b bytes those
 * read whose magnitude needs b, and no other; all 0 need 1. */
static void deciding(void) {
    static uint8_t room[8 + 10 + 8 * 101 + 13];
    for (size_t width = 1; width <= 8; width *= 2) {
        const int64_t top = INT64_MAX >> (64 - 8 * width), less = width == 1 ? 0 : INT64_MAX >> (64 - 4 * width);
        const int64_t right[] = {top, -top, less + 1, -less - 1}, wrong[] = {-top - 1, less, -less, 0};
        for (size_t place = 0; place < 101; place++) {
            uint8_t *shelf = room + place % 8, *decides = shelf + 10 + place * width;
            const size_t length = put(shelf, 1, 101, width, 101, 0), all = length + put(shelf + length, 1, 6, 1, 3, 1);
            for (size_t i = 0; i < 4; i++) {
                for (size_t j = 0; j < width; j++)
                    decides[j] = (uint8_t)((uint64_t)right[i] >> (8 * j));
                HOLD(found(bv_lookup(1, 101, shelf, all, NULL, 0), BV_OWN, 0, length));
                HOLD(found(bv_lookup(1, 6, shelf, all, NULL, 0), BV_OWN, length, 13));
                HOLD(shows(bv_browse(shelf, all, 0), 0, length, 1, 101, 100));
                for (size_t j = 0; j < width; j++)
                    decides[j] = (uint8_t)((uint64_t)wrong[i] >> (8 * j));
                /* of one byte 0 is as good as any */
                uint64_t code = width == 1 && i > 0 ? BV_DONE : BV_REFUSED_WIDTH;
                HOLD(bv_browse(shelf, all, 0).code == code);
                if (code == BV_DONE)
                    HOLD(found(bv_lookup(1, 101, NULL, 0, shelf, all), BV_HOUSE, 0, length));
                else {
                    HOLD(refuses(bv_lookup(1, 101, NULL, 0, shelf, all), code, 0, BV_HOUSE));
                    HOLD(refuses(bv_lookup(1, 6, shelf, all, NULL, 0), code, 0, BV_OWN));
                }
            }
        }
    }
}

/* Bytes that look like a record inside one, which only browsing from there shows: F(6)'s, as coefficients of F(13). */
static void inside(void) {
    uint8_t shelf[36];
    const size_t first = put(shelf, 1, 13, 1, 13, 0);
    put(shelf + 10, 1, 6, 1, 3, 1);
    HOLD(refuses(bv_lookup(1, 6, shelf, first, shelf, first), BV_REFUSED_ABSENT, 0, 0));
    HOLD(found(bv_lookup(1, 13, shelf, first, NULL, 0), BV_OWN, 0, 23));
    HOLD(shows(bv_browse(shelf, first, 0), 0, 23, 1, 13, 12));
    HOLD(shows(bv_browse(shelf, first, 10), 10, 13, 1, 6, 2));
    put(shelf + first, 1, 6, 1, 3, 1);
    HOLD(found(bv_lookup(1, 6, shelf, first + 13, NULL, 0), BV_OWN, first, 13));
    browsed(shelf, first + 13);
}

/* The longest record; and a shelf longer than 2^32 bytes, of which only the ends hold something. */
static void long_shelves(void) {
    static uint8_t shelf[10 + 8 * 65521 + 13];
    const size_t first = put(shelf, 1, 65521, 8, 65521, INT64_MIN + 1), all = first + put(shelf + first, 1, 6, 1, 3, 1);
    HOLD(shows(bv_browse(shelf, all, 0), 0, 524178, 1, 65521, 65520));
    HOLD(found(bv_lookup(1, 65521, shelf, all, NULL, 0), BV_OWN, 0, 524178));
    HOLD(found(bv_lookup(1, 6, shelf, all, NULL, 0), BV_OWN, 524178, 13));
    HOLD(found(bv_lookup(1, 6, NULL, 0, shelf, all), BV_HOUSE, 524178, 13));
    HOLD(refuses(bv_lookup(1, 6, shelf, first - 1, NULL, 0), BV_REFUSED_CUT, 0, BV_OWN));
    shelf[first - 8] = 0; /* the last coefficient: -2^63, which has no width */
    HOLD(refuses(bv_lookup(1, 6, shelf, all, NULL, 0), BV_REFUSED_WIDTH, 0, BV_OWN));
    HOLD(shows_none(bv_browse(shelf, all, 0), BV_REFUSED_WIDTH, 0));

    const size_t far = (size_t)1 << 32, page = 65536;
    uint8_t *wide = mmap(NULL, page + far, PROT_READ, MAP_PRIVATE | MAP_ANONYMOUS | MAP_NORESERVE, -1, 0);
    if (wide == MAP_FAILED || mprotect(wide, page, PROT_READ | PROT_WRITE) != 0 ||
        mprotect(wide + far, page, PROT_READ | PROT_WRITE) != 0) {
        printf("edges.c: there is no room for a shelf of 2^32 bytes\n");
        exit(1);
    }
    put(wide, 1, 6, 1, 3, 1);
    put(wide + far, 2, 6, 1, 5, 1);
    HOLD(found(bv_lookup(1, 6, wide, far + page, NULL, 0), BV_OWN, 0, 13));
    HOLD(refuses(bv_lookup(2, 6, wide, far + page, NULL, 0), BV_REFUSED_MARK, 13, BV_OWN));
    HOLD(refuses(bv_lookup(2, 6, NULL, 0, wide, far + page), BV_REFUSED_MARK, 13, BV_HOUSE));
    HOLD(refuses(bv_lookup(2, 6, wide, 13, wide, far + 15), BV_REFUSED_MARK, 13, BV_HOUSE));
    HOLD(shows(bv_browse(wide, far + 15, far), far, 15, 2, 6, 4));
    HOLD(shows_none(bv_browse(wide, far + 14, far), BV_REFUSED_CUT, far));
    HOLD(shows_none(bv_browse(wide, far + 15, far + 1), BV_REFUSED_MARK, far + 1));
    HOLD(shows_none(bv_browse(wide, far + 15, far - 1), BV_REFUSED_MARK, far - 1));
    HOLD(shows_none(bv_browse(wide, far + 15, far + 15), BV_DONE, far + 15));
    HOLD(shows_none(bv_browse(wide, far, far), BV_DONE, far));
    HOLD(shows_none(bv_browse(wide, far, UINT64_MAX), BV_DONE, far));
    HOLD(shows_none(bv_browse(wide, 13, far), BV_DONE, 13));
    munmap(wide, page + far);
}

static void shelves(void) {
    uint8_t before[sizeof good];
    make_good();
    memcpy(before, good, sizeof good);
    no_lookups();
    empty_shelves();
    good_shelves();
    broken_shelves();
    wrong_together();
    deciding();
    inside();
    long_shelves();
    browsed(good, starts[SEVEN]);
    HOLD(memcmp(before, good, sizeof good) == 0);
}

/* Half records: a kind and an index, how many coefficients it has, and whether the other half is negated. */
typedef struct half_case {
    uint64_t kind, n;
    size_t count;
    int negates;
} half_case;

static const half_case HALVES[] = {
    {1, 1, 2, 1}, {2, 1, 1, 0}, {1, 2, 2, 0}, {2, 2, 2, 1}, {1, 3, 3, 0},  {2, 3, 2, 1},
    {2, 4, 3, 1}, {1, 6, 3, 0}, {2, 6, 5, 1}, {1, 9, 7, 0}, {1, 15, 9, 0}, {2, 15, 8, 1},
};

/* what is written to: every byte 7 */
static uint8_t out[200];

static void fresh_out(void) {
    memset(out, 7, sizeof out);
}

/* its first so many are these, and the others stand as they were */
static int out_holds(const uint8_t *bytes, size_t size) {
    for (size_t i = size; i < sizeof out; i++)
        if (out[i] != 7)
            return 0;
    return size == 0 || memcmp(out, bytes, size) == 0;
}

/* The degree that a refusal or a delivery tells. */
static uint64_t told(uint64_t code, size_t count) {
    return code == BV_DONE || code == BV_REFUSED_SHORT || code == BV_REFUSED_OVER ? count - 1 : 0;
}

/* A record of either form: so many of some coefficients, in a width that need not be right; then two bytes more. */
static size_t put_form(uint8_t *to, uint8_t mark, const half_case *p, size_t width, const int64_t *c, size_t stored) {
    put(to, p->kind, p->n, width, p->count, 0);
    to[1] = mark;
    for (size_t i = 0; i < stored * width; i++)
        to[10 + i] = (uint8_t)((uint64_t)c[i / width] >> (8 * (i % width)));
    to[10 + stored * width] = to[11 + stored * width] = 0xEE;
    return 10 + stored * width;
}

/* Each of the four, held to a code; on BV_DONE it gives these bytes, or these coefficients. */
static void half_written(const half_case *p, const int64_t *c, size_t room, uint64_t code, const uint8_t *half,
                         size_t size) {
    fresh_out();
    bv_written a = bv_write_half(p->kind, p->n, c, p->count, room == 0 ? NULL : out, room);
    size_t used = code == BV_DONE ? size : 0;
    HOLD(wrote(a, code, told(code, p->count), used) && out_holds(half, used));
}

static void half_read(const half_case *p, const uint8_t *half, size_t len, size_t entries, uint64_t code,
                      const int64_t *c, size_t size) {
    for (size_t i = 0; i < 20; i++)
        buf[i] = 77;
    bv_record a = bv_read_half(len == 0 ? NULL : half, len, entries == 0 ? NULL : buf, entries);
    size_t filled = code == BV_DONE ? p->count : 0;
    int same = 1;
    for (size_t i = 0; i < 20; i++)
        same = same && buf[i] == (i < filled ? c[i] : 77);
    HOLD(same && reads(a, code, told(code, p->count), filled ? size : 0, filled ? p->kind : 0, filled ? p->n : 0));
}

static int converts(bv_converted a, uint64_t code, uint64_t degree, uint64_t read, uint64_t written, uint64_t byte) {
    return a.code == code && a.degree == degree && a.read == read && a.written == written && a.byte == byte;
}

typedef bv_converted converter(const uint8_t *, size_t, uint8_t *, size_t);

static void converted(converter *convert, const half_case *p, const uint8_t *bytes, size_t len, size_t room,
                      uint64_t code, size_t size, const uint8_t *other, size_t written) {
    fresh_out();
    bv_converted a = convert(len == 0 ? NULL : bytes, len, room == 0 ? NULL : out, room);
    if (code != BV_DONE)
        size = written = 0;
    HOLD(converts(a, code, told(code, p->count), size, written, 0) && out_holds(other, written));
}

/* All four at one kind and index, in one width: coefficients of it whose halves match. */
static void each_half(const half_case *p, size_t width) {
    const size_t count = p->count, stored = (count + 1) / 2, most = sizeof out;
    const int64_t top = INT64_MAX >> (64 - 8 * width), low = -top - 1;
    int64_t c[20] = {0};
    uint8_t record[100], half[100], other[200];
    for (size_t i = 0; i < stored; i++)
        c[i] = i == 0 ? top : (int64_t)(i % 3) - 1;
    if (p->negates && count % 2)
        c[stored - 1] = 0;
    for (size_t i = 0; i < count / 2; i++)
        c[count - 1 - i] = p->negates ? -c[i] : c[i];
    const size_t all = put_form(record, 0x50, p, width, c, count), less = put_form(half, 0x51, p, width, c, stored);

    /* every room, and every end */
    for (size_t room = 0; room <= all + 2; room++) {
        half_written(p, c, room, room < less ? BV_REFUSED_SHORT : BV_DONE, half, less);
        converted(bv_to_half, p, record, all, room, room < less ? BV_REFUSED_SHORT : BV_DONE, all, half, less);
        converted(bv_to_whole, p, half, less, room, room < all ? BV_REFUSED_SHORT : BV_DONE, less, record, all);
    }
    for (size_t entries = 0; entries <= count + 2; entries++)
        half_read(p, half, less, entries, entries < count ? BV_REFUSED_SHORT : BV_DONE, c, less);
    for (size_t len = 0; len <= all + 2; len++) {
        converted(bv_to_half, p, record, len, most, len < all ? BV_REFUSED_CUT : BV_DONE, all, half, less);
        converted(bv_to_half, p, record, len, 0, len < all ? BV_REFUSED_CUT : BV_REFUSED_SHORT, 0, NULL, 0);
        if (len > less + 2)
            continue;
        converted(bv_to_whole, p, half, len, most, len < less ? BV_REFUSED_CUT : BV_DONE, less, record, all);
        converted(bv_to_whole, p, half, len, 0, len < less ? BV_REFUSED_CUT : BV_REFUSED_SHORT, 0, NULL, 0);
        half_read(p, half, len, 20, len < less ? BV_REFUSED_CUT : BV_DONE, c, less);
        half_read(p, half, len, 0, len < less ? BV_REFUSED_CUT : BV_REFUSED_SHORT, c, 0);
    }

    /* each mark is the other's, and none of the old readers' */
    converted(bv_to_half, p, half, less, most, BV_REFUSED_MARK, 0, NULL, 0);
    converted(bv_to_whole, p, record, all, most, BV_REFUSED_MARK, 0, NULL, 0);
    half_read(p, record, all, 20, BV_REFUSED_MARK, c, 0);
    HOLD(wrong(bv_read(half, less, buf, 20), BV_REFUSED_MARK, 0));
    HOLD(shows_none(bv_browse(half, less, 0), BV_REFUSED_MARK, 0));
    HOLD(refuses(bv_lookup(p->kind, p->n, half, less, record, all), BV_REFUSED_MARK, 0, BV_OWN));

    for (size_t at = 0; at < count; at++) {
        const int64_t was = c[at];
        const int middle = 2 * at + 1 == count;
        const uint64_t code = middle && !p->negates ? BV_DONE : BV_REFUSED_UNEVEN;
        /* one that is off by 1: only a middle may be anything, where the other half is copied */
        c[at] += was > 0 ? -1 : 1;
        put_form(other, 0x50, p, width, c, count);
        uint8_t changed[100];
        put_form(changed, 0x51, p, width, c, stored);
        half_written(p, c, most, code, changed, less);
        half_written(p, c, 0, code == BV_DONE ? BV_REFUSED_SHORT : code, NULL, 0);
        converted(bv_to_half, p, other, all, most, code, all, changed, less);
        converted(bv_to_half, p, other, all, 0, code == BV_DONE ? BV_REFUSED_SHORT : code, 0, NULL, 0);
        converted(bv_to_half, p, other, all - 1, most, BV_REFUSED_CUT, 0, NULL, 0);
        if (middle) {
            converted(bv_to_whole, p, changed, less, most, code, less, other, all);
            converted(bv_to_whole, p, changed, less, 0, code == BV_DONE ? BV_REFUSED_SHORT : code, 0, NULL, 0);
            converted(bv_to_whole, p, changed, less - 1, most, BV_REFUSED_CUT, 0, NULL, 0);
            half_read(p, changed, less, 20, code, c, less);
            half_read(p, changed, less, count - 1, BV_REFUSED_SHORT, c, 0);
        }
        if (width < 8) { /* too wide, which comes before UNEVEN */
            size_t end = put_form(other, 0x50, p, 2 * width, c, count);
            converted(bv_to_half, p, other, end, most * (at % 2), BV_REFUSED_WIDTH, 0, NULL, 0);
            end = put_form(other, 0x51, p, 2 * width, c, stored);
            converted(bv_to_whole, p, other, end, most * (at % 2), BV_REFUSED_WIDTH, 0, NULL, 0);
            half_read(p, other, end, count, BV_REFUSED_WIDTH, c, 0);
            half_read(p, other, end, count - 1, BV_REFUSED_SHORT, c, 0);
        }
        /* the lowest number of the width, which that width doesn't take, and no half matches in 8 bytes */
        c[at] = low;
        put_form(other, 0x50, p, width, c, count);
        converted(bv_to_half, p, other, all, most, BV_REFUSED_WIDTH, 0, NULL, 0);
        converted(bv_to_half, p, other, all, 0, BV_REFUSED_WIDTH, 0, NULL, 0);
        if (width == 8) {
            half_written(p, c, most, BV_REFUSED_OVER, NULL, 0);
            half_written(p, c, 0, BV_REFUSED_OVER, NULL, 0);
        }
        if (at < stored) {
            put_form(other, 0x51, p, width, c, stored);
            converted(bv_to_whole, p, other, less, most, BV_REFUSED_WIDTH, 0, NULL, 0);
            converted(bv_to_whole, p, other, less, 0, BV_REFUSED_WIDTH, 0, NULL, 0);
            half_read(p, other, less, 20, BV_REFUSED_WIDTH, c, 0);
            half_read(p, other, less, count - 1, BV_REFUSED_SHORT, c, 0);
        }
        c[at] = was;
    }
    if (count == 1)
        return;
    /* negated for copied, and the other way round */
    c[count - 1] = -c[count - 1];
    put_form(other, 0x50, p, width, c, count);
    half_written(p, c, most, BV_REFUSED_UNEVEN, NULL, 0);
    converted(bv_to_half, p, other, all, most, BV_REFUSED_UNEVEN, 0, NULL, 0);
    /* one that needs the width, in one half alone */
    for (size_t at = 0; at < count; at += count - 1) {
        c[at] = top, c[count - 1 - at] = 1;
        put_form(other, 0x50, p, width, c, count);
        half_written(p, c, most, BV_REFUSED_UNEVEN, NULL, 0);
        converted(bv_to_half, p, other, all, most, BV_REFUSED_UNEVEN, 0, NULL, 0);
    }
}

/* KIND, then INDEX, then RCOUNT, before anything that the coefficients are. */
static void no_halves(void) {
    const int64_t over[] = {1, INT64_MIN, 2, 5}; /* and uneven */
    fresh_out();
    for (size_t room = 0; room <= 40; room += 40) {
        for (size_t count = 0; count <= 4; count++) {
            const int64_t *c = count == 0 ? NULL : over;
            uint8_t *to = room == 0 ? NULL : out;
            for (size_t i = 0; i < 3; i++) {
                HOLD(wrote(bv_write_half(NO_KIND[i], NO_INDEX[i], c, count, to, room), BV_REFUSED_KIND, 0, 0));
                HOLD(wrote(bv_write_half(NO_KIND[i], 6, c, count, to, room), BV_REFUSED_KIND, 0, 0));
                HOLD(wrote(bv_write_half(1 + i % 2, NO_INDEX[i], c, count, to, room), BV_REFUSED_INDEX, 0, 0));
            }
            HOLD(wrote(bv_write_half(1, 6, c, count, to, room), count == 3 ? BV_REFUSED_OVER : BV_REFUSED_RCOUNT,
                       count == 3 ? 2 : 0, 0));
            HOLD(wrote(bv_write_half(2, 6, c, count, to, room), BV_REFUSED_RCOUNT, 0, 0));
        }
        HOLD(out_holds(NULL, 0));
    }
    HOLD(wrong(bv_read_half(NULL, 0, NULL, 0), BV_REFUSED_CUT, 0));
    HOLD(converts(bv_to_half(NULL, 0, NULL, 0), BV_REFUSED_CUT, 0, 0, 0, 0));
    HOLD(converts(bv_to_whole(NULL, 0, NULL, 0), BV_REFUSED_CUT, 0, 0, 0, 0));
}

/* Each byte of a header changed alone, and with the byte of each later field; then n = 0. No length and no room
 * counts. */
static void wrong_halves(const half_case *p) {
    static const uint64_t codes[] = {BV_REFUSED_MARK, BV_REFUSED_MARK, BV_REFUSED_RKIND, BV_REFUSED_RWIDTH};
    static const uint64_t places[] = {0, 0, 2, 3};
    const int64_t zeros[20] = {0};
    uint8_t bytes[100];
    for (uint8_t mark = 0x50; mark <= 0x51; mark++)
        for (size_t at = 0; at < 10; at++)
            for (size_t also = at; also < 11; also++)
                for (size_t k = 0; k < 4; k++) {
                    uint64_t code = at < 4 ? codes[at] : BV_REFUSED_RCOUNT, byte = at < 4 ? places[at] : 6;
                    size_t len = put_form(bytes, mark, p, 1, zeros, p->count);
                    bytes[at] = bytes[also] = 0xAA;
                    if (also == 10 && at >= 4) { /* n = 0, whatever the number of coefficients is */
                        bytes[4] = bytes[5] = 0;
                        code = BV_REFUSED_RINDEX, byte = 4;
                    }
                    len = k / 2 ? len : 10;
                    size_t room = k % 2 ? sizeof out : 0;
                    fresh_out(), fresh();
                    converter *convert = mark == 0x50 ? bv_to_half : bv_to_whole;
                    HOLD(converts(convert(bytes, len, room == 0 ? NULL : out, room), code, 0, 0, 0, byte) &&
                         out_holds(NULL, 0));
                    HOLD(converts(convert(bytes, 9, out, room), BV_REFUSED_CUT, 0, 0, 0, 0) && out_holds(NULL, 0));
                    if (mark == 0x51)
                        HOLD(wrong(bv_read_half(bytes, len, room == 0 ? NULL : buf, room), code, byte) &&
                             untouched_from(0));
                }
}

/* Polynomials of every sort, written, read and converted both ways; the longest; and lengths above 2^32. */
static void long_halves(void) {
    static int64_t c[65536], again[65536];
    static uint8_t record[10 + 8 * 65536], half[10 + 8 * 65536], back[10 + 8 * 65536];
    for (size_t i = 0; i < COUNT(POLYNOMIALS); i++) {
        const polynomial_case *p = &POLYNOMIALS[i];
        const uint64_t size = 10 + p->degree + 1, less = 10 + (p->degree + 2) / 2;
        HOLD(bv_polynomial(p->kind, p->n, NONE, NONE, c, 65536).code == BV_DONE);
        HOLD(wrote(bv_write(p->kind, p->n, c, p->degree + 1, record, sizeof record), BV_DONE, p->degree, size));
        HOLD(wrote(bv_write_half(p->kind, p->n, c, p->degree + 1, half, less), BV_DONE, p->degree, less));
        HOLD(half[1] == 0x51 && memcmp(half + 2, record + 2, less - 2) == 0);
        HOLD(reads(bv_read_half(half, less, again, p->degree + 1), BV_DONE, p->degree, less, p->kind, p->n) &&
             memcmp(again, c, (p->degree + 1) * sizeof *c) == 0);
        HOLD(converts(bv_to_half(record, size, back, less), BV_DONE, p->degree, size, less, 0) &&
             memcmp(back, half, less) == 0);
        HOLD(converts(bv_to_whole(half, less, back, size), BV_DONE, p->degree, less, size, 0) &&
             memcmp(back, record, size) == 0);
        HOLD(converts(bv_to_whole(half, less, back, size - 1), BV_REFUSED_SHORT, p->degree, 0, 0, 0));
        HOLD(converts(bv_to_half(record, size, back, less - 1), BV_REFUSED_SHORT, p->degree, 0, 0, 0));
    }
    /* F(65521) in 8 bytes each, at addresses of any alignment */
    for (size_t i = 0; i < 65521; i++)
        c[i] = i % 2 ? INT64_MIN + 1 : (int64_t)i * (int64_t)(65520 - i);
    for (size_t shift = 0; shift < 8; shift++) {
        const size_t size = 10 + 8 * 65521, less = 10 + 8 * 32761;
        HOLD(wrote(bv_write(1, 65521, c, 65521, record + shift, size), BV_DONE, 65520, size));
        HOLD(wrote(bv_write_half(1, 65521, c, 65521, half + shift, less), BV_DONE, 65520, less));
        HOLD(converts(bv_to_whole(half + shift, less, back, size), BV_DONE, 65520, less, size, 0) &&
             memcmp(back, record + shift, size) == 0);
        HOLD(converts(bv_to_half(record + shift, size, back, less), BV_DONE, 65520, size, less, 0) &&
             memcmp(back, half + shift, less) == 0);
        for (size_t at = 32761 + shift; at < 65521; at += 4099) {
            record[shift + 10 + 8 * at] ^= 2;
            HOLD(converts(bv_to_half(record + shift, size, back, less), BV_REFUSED_UNEVEN, 0, 0, 0, 0));
            record[shift + 10 + 8 * at] ^= 2;
        }
    }

    const size_t far = (size_t)1 << 32, page = 65536;
    uint8_t *wide = mmap(NULL, far + page, PROT_READ | PROT_WRITE, MAP_PRIVATE | MAP_ANONYMOUS | MAP_NORESERVE, -1, 0);
    if (wide == MAP_FAILED) {
        printf("edges.c: there is no room for 2^32 bytes\n");
        exit(1);
    }
    const int64_t six[] = {1, -1, 1};
    const half_case p = {1, 6, 3, 0};
    const size_t size = put_form(record, 0x50, &p, 1, six, 3), less = put_form(half, 0x51, &p, 1, six, 2);
    for (size_t more = 0; more < 2; more++) { /* so many are 0 or 1 in 32 bits */
        memset(wide, 7, 16);
        HOLD(converts(bv_to_half(record, size, wide, far + more), BV_DONE, 2, size, less, 0));
        HOLD(memcmp(wide, half, less) == 0 && wide[less] == 7);
        HOLD(converts(bv_to_whole(wide, far + more, back, size), BV_DONE, 2, less, size, 0));
        HOLD(reads(bv_read_half(wide, far + more, buf, 3), BV_DONE, 2, less, 1, 6));
        HOLD(converts(bv_to_whole(half, less, wide, far + more), BV_DONE, 2, less, size, 0));
        HOLD(memcmp(wide, record, size) == 0 && wide[size] == 7);
        HOLD(converts(bv_to_half(wide, far + more, back, less), BV_DONE, 2, size, less, 0));
        HOLD(wrote(bv_write_half(1, 6, six, 3, wide, far + more), BV_DONE, 2, less));
        HOLD(memcmp(wide, half, less) == 0 && wide[size] == 7);
        HOLD(wrote(bv_write_half(1, 6, (const int64_t *)(const void *)wide, (far >> 3) + more, out, 40),
                   BV_REFUSED_RCOUNT, 0, 0));
    }
    munmap(wide, far + page);
}

static void halves(void) {
    no_halves();
    for (size_t i = 0; i < COUNT(HALVES); i++) {
        for (size_t width = 1; width <= 8; width *= 2)
            each_half(&HALVES[i], width);
        wrong_halves(&HALVES[i]);
    }
    long_halves();
}

/* Rescuing. A shelf is put together from these parts, so that what is kept and skipped of it is known: whether the part
 * is a record that is kept, and how many coefficients a record that reads has, kept or not. Where two meet they make no
 * record. */
typedef struct part {
    size_t len;
    int keeps;
    size_t count;
    uint8_t bytes[40];
} part;

#define F6_BYTES 0xC9, 0x50, 1, 1, 6, 0, 3, 0, 0, 0, 1, 0xFF, 1

static const part PARTS[] = {
    {13, 1, 3, {F6_BYTES}},
    {15, 1, 5, {0xC9, 0x50, 2, 1, 6, 0, 5, 0, 0, 0, 0xFF, 0xFF, 0, 1, 1}},
    {11, 1, 1, {0xC9, 0x50, 2, 1, 1, 0, 1, 0, 0, 0, 1}},
    {12, 1, 2, {0xC9, 0x50, 1, 1, 1, 0, 2, 0, 0, 0, 0xFF, 1}},
    {12, 1, 2, {0xC9, 0x50, 2, 1, 0xF1, 0xFF, 2, 0, 0, 0, 0xFF, 1}}, /* I(65521) */
    /* these read and are others: one coefficient, all, the other kind, another index, wide ones */
    {13, 0, 3, {0xC9, 0x50, 1, 1, 6, 0, 3, 0, 0, 0, 1, 0xFF, 2}},
    {11, 0, 1, {0xC9, 0x50, 2, 1, 1, 0, 1, 0, 0, 0, 0xFF}},
    {12, 0, 2, {0xC9, 0x50, 1, 1, 2, 0, 2, 0, 0, 0, 0xFF, 1}},
    {13, 0, 3, {0xC9, 0x50, 1, 1, 3, 0, 3, 0, 0, 0, 1, 0xFF, 1}},
    {16, 0, 3, {0xC9, 0x50, 1, 2, 6, 0, 3, 0, 0, 0, 1, 0, 0xFF, 0, 1, 0}},
    {22, 0, 3, {0xC9, 0x50, 1, 4, 6, 0, 3, 0, 0, 0, 1, 0, 0, 0, 0xFF, 0xFF, 0, 0, 1}},
    {18, 0, 1, {0xC9, 0x50, 2, 8, 1, 0, 1, 0, 0, 0, 1, 0, 0, 0, 1}},
    /* and these don't: too wide, -128 in one byte, a half record, wrong fields, cut, no record at all */
    {16, 0, 0, {0xC9, 0x50, 1, 2, 6, 0, 3, 0, 0, 0, 1, 0, 0xFF, 0xFF, 1, 0}},
    {18, 0, 0, {0xC9, 0x50, 2, 8, 1, 0, 1, 0, 0, 0, 1}},
    {13, 0, 0, {0xC9, 0x50, 1, 1, 6, 0, 3, 0, 0, 0, 1, 0x80, 1}},
    {12, 0, 0, {0xC9, 0x51, 1, 1, 6, 0, 3, 0, 0, 0, 1, 0xFF}},
    {13, 0, 0, {0xC9, 0x50, 3, 1, 6, 0, 3, 0, 0, 0, 1, 0xFF, 1}},
    {13, 0, 0, {0xC9, 0x50, 1, 3, 6, 0, 3, 0, 0, 0, 1, 0xFF, 1}},
    {13, 0, 0, {0xC9, 0x50, 1, 1, 0, 0, 3, 0, 0, 0, 1, 0xFF, 1}},
    {13, 0, 0, {0xC9, 0x50, 1, 1, 6, 0, 4, 0, 0, 0, 1, 0xFF, 1}},
    {9, 0, 0, {F6_BYTES}},
    {2, 0, 0, {0xC9, 0x50}},
    {1, 0, 0, {0xC9}},
    {1, 0, 0, {7}},
};

/* What is kept and skipped of a shelf, and the most coefficients of a record that is tried and reads. */
typedef struct outcome {
    size_t kept, stretches, most;
    uint8_t bytes[200];
    uint64_t list[16];
} outcome;

/* the numbers of the list, and few entries to work in: every one 77 */
static uint64_t numbers[40];
static int64_t work[40];

/* A shelf in rooms of any size: the answer, and all that is lent. */
static void rescued(const uint8_t *shelf, size_t len, const outcome *o, size_t room, size_t slots, size_t entries) {
    const size_t all = entries <= COUNT(work) ? COUNT(work) : COUNT(buf);
    int64_t *coeffs = entries <= COUNT(work) ? work : buf;
    fresh_out();
    for (size_t i = 0; i < COUNT(numbers); i++)
        numbers[i] = 77;
    for (size_t i = 0; i < all; i++)
        coeffs[i] = 77;
    bv_rescued a = bv_rescue(len == 0 ? NULL : shelf, len, room == 0 ? NULL : out, room, slots == 0 ? NULL : numbers,
                             slots, entries == 0 ? NULL : coeffs, entries);
    int fits = o->kept <= room && 2 * o->stretches <= slots && o->most <= entries, same = 1;
    size_t kept = fits ? o->kept : 0, told = fits ? o->stretches : 0;
    for (size_t i = 0; i < COUNT(numbers); i++)
        same = same && numbers[i] == (i < 2 * told ? o->list[i] : 77);
    for (size_t i = 0; i < all; i++)
        same = same && coeffs[i] == (i < entries ? 0 : 77);
    HOLD(same && a.code == (fits ? BV_DONE : BV_REFUSED_SHORT) && a.kept == kept && a.stretches == told &&
         out_holds(o->bytes, kept));
}

/* The shelf of some parts, put at a place, its length, and its outcome. */
static size_t put_parts(uint8_t *shelf, const size_t *which, size_t many, outcome *o) {
    size_t len = 0;
    memset(o, 0, sizeof *o);
    for (size_t i = 0; i < many; i++) {
        const part *p = &PARTS[which[i]];
        memcpy(shelf + len, p->bytes, p->len);
        if (p->keeps) {
            memcpy(o->bytes + o->kept, p->bytes, p->len);
            o->kept += p->len;
        } else if (i > 0 && !PARTS[which[i - 1]].keeps) {
            o->list[2 * o->stretches - 1] += p->len;
        } else {
            o->list[2 * o->stretches] = len;
            o->list[2 * o->stretches + 1] = p->len;
            o->stretches++;
        }
        o->most = p->count > o->most ? p->count : o->most;
        len += p->len;
    }
    return len;
}

/* Every shelf of up to three parts, in rooms of each sort: none, one less, just enough, and more. */
static void all_parts(void) {
    for (size_t k = 0; k < COUNT(PARTS) * COUNT(PARTS) * COUNT(PARTS); k++) {
        const size_t which[] = {k % COUNT(PARTS), k / COUNT(PARTS) % COUNT(PARTS), k / COUNT(PARTS) / COUNT(PARTS)};
        for (size_t many = which[2] ? 3 : which[1] ? 2 : 0; many <= 3; many++) {
            uint8_t room_for[8 + 120], *shelf = room_for + k % 8;
            outcome o;
            const size_t len = put_parts(shelf, which, many, &o);
            rescued(shelf, len, &o, o.kept, 2 * o.stretches, o.most);
            /* where nothing can be refused, and at the edge of that */
            const size_t ample = 2 * (len / 11 + 1);
            rescued(shelf, len, &o, len, 2 * (len / 12 + 1), 40);
            if (many < 3 || k % 7 == 0) {
                rescued(shelf, len, &o, len, ample, 65536);
                rescued(shelf, len, &o, len, ample - 1, 65536);
                rescued(shelf, len, &o, len, ample, 65535);
            }
            if (many < 3 && len > 0)
                rescued(shelf, len, &o, len - 1, ample, 65536);
            if (o.kept > 0)
                rescued(shelf, len, &o, o.kept - 1, 40, 40);
            if (o.stretches > 0)
                rescued(shelf, len, &o, sizeof out, 2 * o.stretches - 1, 40);
            if (o.most > 0)
                rescued(shelf, len, &o, sizeof out, 40, o.most - 1);
            for (size_t at = 0; many < 3 && at < 64; at++) {
                const size_t rooms[] = {0, o.kept - (o.kept > 0), o.kept, o.kept + 2};
                const size_t slots[] = {0, 2 * o.stretches - (o.stretches > 0), 2 * o.stretches, 2 * o.stretches + 3};
                const size_t lent[] = {0, o.most - (o.most > 0), o.most, o.most + 2};
                rescued(shelf, len, &o, rooms[at % 4], slots[at / 4 % 4], lent[at / 16]);
            }
        }
    }
}

/* Between two records that are kept: each byte of F(6)'s and of I(6)'s changed to each other one, and each number of
 * bytes of it lost. It is then none that is kept, and is skipped. */
static void changed_bytes(void) {
    for (size_t k = 0; k < 2; k++) {
        const part *one = &PARTS[k], *first = &PARTS[3], *last = &PARTS[2];
        outcome o = {first->len + last->len, 1, 0, {0}, {first->len, one->len}};
        uint8_t shelf[60];
        memcpy(o.bytes, first->bytes, first->len);
        memcpy(o.bytes + first->len, last->bytes, last->len);
        for (size_t at = 0; at < one->len; at++)
            for (unsigned byte = 0; byte < 256; byte++) {
                if (byte == one->bytes[at])
                    continue;
                memcpy(shelf, first->bytes, first->len);
                memcpy(shelf + first->len, one->bytes, one->len);
                memcpy(shelf + first->len + one->len, last->bytes, last->len);
                shelf[first->len + at] = (uint8_t)byte;
                rescued(shelf, o.kept + one->len, &o, o.kept, 2, 40);
            }
        for (size_t end = 0; end < one->len; end++) {
            memcpy(shelf, first->bytes, first->len);
            memcpy(shelf + first->len, one->bytes, end);
            memcpy(shelf + first->len + end, last->bytes, last->len);
            o.stretches = end > 0, o.list[1] = end;
            rescued(shelf, o.kept + end, &o, o.kept, 2, 40);
        }
    }
}

/* I(n) = z - 1 for each prime n, and no other n has so few coefficients but 1. */
static void primes(void) {
    for (size_t n = 1; n <= 65535; n++) {
        const uint8_t shelf[] = {0xC9, 0x50, 2, 1, (uint8_t)n, (uint8_t)(n >> 8), 2, 0, 0, 0, 0xFF, 1};
        size_t d = 2;
        while (d * d <= n && n % d != 0)
            d++;
        const int prime = n > 1 && d * d > n;
        outcome o = {prime ? 12 : 0, !prime, prime ? 2 : 0, {0}, {0, prime ? 0 : 12}};
        memcpy(o.bytes, shelf, 12);
        rescued(shelf, 12, &o, 12, 2, o.most);
    }
}

/* A record among the coefficients of another that reads, of each width and at each place: it is found, since the search
 * goes on one byte behind the other's start. The other counts for the entries; but not where its last byte is gone, or
 * its last coefficient is the lowest of its width. */
static void hidden(void) {
    static const struct {
        size_t width, n, count;
    } fakes[] = {{1, 17, 17}, {2, 15, 9}, {4, 5, 5}, {8, 3, 3}};
    for (size_t i = 0; i < COUNT(fakes); i++)
        for (size_t before = 0; before + 13 < fakes[i].width * fakes[i].count; before++) {
            const size_t width = fakes[i].width, count = fakes[i].count, rest = width * count - before - 13;
            uint8_t shelf[60];
            const size_t len = put(shelf, 1, fakes[i].n, width, count, 0);
            memset(shelf + 10, 1, len - 10);
            memcpy(shelf + 10 + before, PARTS[0].bytes, 13);
            outcome o = {13, 2, count, {F6_BYTES}, {0, 10 + before, 23 + before, rest}};
            for (size_t entries = 0; entries <= count + 1; entries++) {
                rescued(shelf, len, &o, 13, 4, entries);
                rescued(shelf, len, &o, len, 2 * (len / 11 + 1), entries);
            }
            o.most = 3;
            if (rest >= width) {
                memset(shelf + len - width, 0, width);
                shelf[len - 1] = 0x80;
                rescued(shelf, len, &o, 13, 4, 3);
                rescued(shelf, len, &o, 13, 4, 2);
            }
            o.list[3] = rest - 1;
            if (rest == 1)
                o.stretches = 1, o.list[2] = 0;
            rescued(shelf, len - 1, &o, 13, 4, 3);
            rescued(shelf, len - 1, &o, 13, 4, 2);
        }
}

/* Polynomials of every sort in as much room as they need, and in one less of each; with the last coefficient another;
 * and rooms above 2^32. */
static void long_rescues(void) {
    static uint8_t shelf[1 + 10 + 2 * 65536 + 13], kept[sizeof shelf];
    for (size_t i = 0; i < COUNT(POLYNOMIALS) + 2; i++) {
        /* the last two are in two bytes each */
        static const polynomial_case wide[] = {{1, 40755, 17280, 0, 0, 0, 0, 0}, {2, 62205, 35325, 0, 0, 0, 0, 0}};
        const polynomial_case *p = i < COUNT(POLYNOMIALS) ? &POLYNOMIALS[i] : &wide[i - COUNT(POLYNOMIALS)];
        const size_t width = i < COUNT(POLYNOMIALS) ? 1 : 2, count = p->degree + 1, size = 10 + width * count;
        HOLD(bv_polynomial(p->kind, p->n, NONE, NONE, buf, 65536).code == BV_DONE);
        shelf[0] = 7;
        HOLD(wrote(bv_write(p->kind, p->n, buf, count, shelf + 1, size), BV_DONE, p->degree, size));
        memcpy(shelf + 1 + size, PARTS[0].bytes, 13);
        for (size_t less = 0; less < 6; less++) {
            /* no less, a byte, a number, an entry; then the last coefficient another, and that with an entry less */
            const size_t room = size + 13 - (less == 1), slots = 2 - (less == 2);
            const size_t enough = count > 3 ? count : 3, entries = enough - (less == 3) - (less == 5);
            uint64_t told[3] = {77, 77, 77};
            memset(kept, 7, sizeof kept);
            fresh();
            shelf[size] = (uint8_t)(shelf[size] + (less >= 4));
            bv_rescued a = bv_rescue(shelf, 1 + size + 13, kept, room, told, slots, buf, entries);
            shelf[size] = (uint8_t)(shelf[size] - (less >= 4));
            HOLD(a.code == (less == 0 || less == 4 ? BV_DONE : BV_REFUSED_SHORT) && zero_to(entries - 1) &&
                 untouched_from(entries) && told[2] == 77 && kept[size + 13] == 7);
            if (less == 0)
                HOLD(a.kept == size + 13 && a.stretches == 1 && told[0] == 0 && told[1] == 1 &&
                     memcmp(kept, shelf + 1, size + 13) == 0);
            else if (less == 4)
                HOLD(a.kept == 13 && a.stretches == 1 && told[0] == 0 && told[1] == 1 + size &&
                     memcmp(kept, PARTS[0].bytes, 13) == 0 && kept[13] == 7);
            else
                HOLD(a.kept == 0 && a.stretches == 0 && told[0] == 77 && told[1] == 77 && kept[0] == 7);
        }
    }

    const size_t far = (size_t)1 << 32, page = 65536;
    const int any = MAP_PRIVATE | MAP_ANONYMOUS | MAP_NORESERVE;
    uint8_t *wide = mmap(NULL, far + page, PROT_READ | PROT_WRITE, any, -1, 0);
    uint64_t *list = mmap(NULL, far * 8 + page, PROT_READ | PROT_WRITE, any, -1, 0);
    if (wide == MAP_FAILED || (void *)list == MAP_FAILED) {
        printf("edges.c: there is no room for 2^32 bytes and as many numbers\n");
        exit(1);
    }
    shelf[0] = 7;
    memcpy(shelf + 1, PARTS[0].bytes, 13);
    for (size_t more = 0; more < 2; more++) { /* so many are 0 or 1 in 32 bits */
        memset(wide, 7, 16);
        list[0] = list[1] = list[2] = 77;
        for (size_t i = 0; i < 4; i++)
            work[i] = 77;
        bv_rescued a = bv_rescue(shelf, 14, wide, far + more, list, far + more, work, 3);
        HOLD(a.code == BV_DONE && a.kept == 13 && a.stretches == 1);
        HOLD(memcmp(wide, shelf + 1, 13) == 0 && wide[13] == 7 && list[0] == 0 && list[1] == 1 && list[2] == 77);
        HOLD(work[0] == 0 && work[1] == 0 && work[2] == 0 && work[3] == 77);
    }
    munmap(wide, far + page);
    munmap(list, far * 8 + page);
    /* more to work in than any record needs */
    fresh_scratch();
    uint64_t told[2];
    bv_rescued a = bv_rescue(shelf, 14, kept, 13, told, 2, scratch, 131086);
    HOLD(a.code == BV_DONE && a.kept == 13 && a.stretches == 1 && scratch_holds(131086, 0));
    fresh_scratch();
    a = bv_rescue(shelf, 14, kept, 12, told, 2, scratch, 131086);
    HOLD(a.code == BV_REFUSED_SHORT && a.kept == 0 && a.stretches == 0 && scratch_holds(131086, 0));
}

static void rescues(void) {
    const outcome none = {0, 0, 0, {0}, {0}};
    part before[COUNT(PARTS)];
    memcpy(before, PARTS, sizeof PARTS);
    rescued(PARTS[0].bytes, 0, &none, 0, 0, 0);
    rescued(PARTS[0].bytes, 0, &none, sizeof out, 40, 40);
    all_parts();
    changed_bytes();
    primes();
    hidden();
    long_rescues();
    HOLD(memcmp(before, PARTS, sizeof PARTS) == 0);
}

/* The parts of a point at their edges, as bits: from -1 to 1, and outside. */
static const uint64_t EDGES[] = {
    0x0000000000000000, 0x8000000000000000, /* 0 and -0 */
    0x3FF0000000000000, 0xBFF0000000000000, /* 1 and -1 */
    0x3FEFFFFFFFFFFFFF, 0xBFEFFFFFFFFFFFFF, /* next to them, inside */
    0x3FF0000000000001, 0xBFF0000000000001, /* and outside */
    0x3FE0000000000000, 0xBFE0000000000001, /* about a half */
    0x3FB999999999999A, 0xBFD5555555555555, /* a tenth, a third */
    0x3FE6A09E667F3BCD, 0xBFE6A09E667F3BCC, /* root of a half, from both sides */
    0x0000000000000001, 0x8000000000000001, /* the least */
    0x000FFFFFFFFFFFFF, 0x800FFFFFFFFFFFFF, /* the largest subnormal */
    0x0010000000000000, 0x8010000000000000, /* the least normal */
    0x1E60000000000000, 0x9E50000000000000, /* 2^-537, -2^-538: their squares are about the least */
    0x3CA0000000000000, 0xBC90000000000001, /* 2^-53, about -2^-54 */
    0x4000000000000000, 0xC000000000000000, /* 2 and -2 */
    0x7FEFFFFFFFFFFFFF, 0xFFEFFFFFFFFFFFFF, /* the largest */
    0x7FF0000000000000, 0xFFF0000000000000, /* infinite */
    0x7FF8000000000000, 0xFFF8000000000000, /* not a number, quiet */
    0x7FF0000000000001, 0xFFF7FFFFFFFFFFFF, /* and signalling */
};

/* The point with two of these parts. */
static bv_point point_of(size_t real, size_t imag) {
    bv_point point;
    memcpy(&point.real, &EDGES[real], sizeof point.real);
    memcpy(&point.imag, &EDGES[imag], sizeof point.imag);
    return point;
}

/* The same bits, or no number both. */
static int same_part(double a, double b) {
    return memcmp(&a, &b, sizeof a) == 0 || (a != a && b != b);
}

/* The sequence that the header tells, as plain C. The Makefile has it compiled with no operation fused. */
static bv_value evaluated(const int64_t *coeffs, size_t count, bv_point at) {
    bv_value v = {BV_DONE, 0, 0};
    if (!(at.real >= -1 && at.real <= 1 && at.imag >= -1 && at.imag <= 1))
        v.code = BV_REFUSED_POINT;
    for (size_t i = 0; i < count && v.code == BV_DONE; i++)
        if (coeffs[i] > INT64_C(1) << 53 || coeffs[i] < -(INT64_C(1) << 53))
            v.code = BV_REFUSED_COARSE;
    for (size_t i = count; i > 0 && v.code == BV_DONE; i--) {
        const double real = (v.real * at.real - v.imag * at.imag) + (double)coeffs[i - 1];
        v.imag = v.real * at.imag + v.imag * at.real;
        v.real = real;
    }
    return v;
}

static bv_value responded(const int64_t *coeffs, size_t count, bv_point at) {
    const bv_value right = evaluated(coeffs, count, at), v = bv_response(count == 0 ? NULL : coeffs, count, at);
    HOLD(v.code == right.code && same_part(v.real, right.real) && same_part(v.imag, right.imag));
    return v;
}

/* Lists of up to three coefficients at every edge, at points with every pair of parts; of three at some. */
static void small_responses(void) {
    const int64_t most = INT64_C(1) << 53;
    const int64_t edges[] = {0,        1,        -1,        3,         most,      -most,
                             most - 1, most + 1, -most - 1, INT64_MAX, INT64_MIN, INT64_MIN + 1};
    const size_t many = COUNT(edges), all = COUNT(EDGES);
    for (size_t at = 0; at < all * all; at++)
        responded(NULL, 0, point_of(at % all, at / all));
    for (size_t k = 0; k < many * many * many; k++) {
        const int64_t coeffs[] = {edges[k % many], edges[k / many % many], edges[k / many / many]};
        const size_t count = k < many ? 1 : k < many * many ? 2 : 3, step = count < 3 ? 1 : 7;
        for (size_t at = k % step; at < all * all; at += step)
            responded(coeffs, count, point_of(at % all, at / all));
    }
}

/* At 1, i, -1 and -i, with either sign of the part that is 0, the answer is the whole number: the magnitudes of these
 * coefficients add up to at most 2^53. */
static void whole_responses(const int64_t *coeffs, size_t count) {
    for (size_t turn = 0; turn < 4; turn++)
        for (int sign = 0; sign < 2; sign++) {
            const double zero = sign ? -0.0 : 0.0, one = turn < 2 ? 1 : -1;
            int64_t value[4] = {0, 0, 0, 0}; /* of 1, i, -1 and -i */
            for (size_t i = 0; i < count; i++)
                value[i * turn % 4] += coeffs[i];
            bv_value v = responded(coeffs, count, turn % 2 ? (bv_point){zero, one} : (bv_point){one, zero});
            HOLD(v.code == BV_DONE && v.real == (double)(value[0] - value[2]) &&
                 v.imag == (double)(value[1] - value[3]));
        }
}

static void responses(void) {
    const int64_t half = INT64_C(1) << 52;
    const int64_t sums[][4] = {
        {half, half, 0, 0},       {half, 0, half, 0},      {-half, half, 0, 0},
        {half, 0, -half, 0},      {2 * half, 0, 0, 0},     {0, 0, 0, -2 * half},
        {2 * half - 1, -1, 0, 0}, {1, 0, 0, 1 - 2 * half}, {half / 2, -half / 2, half / 2, half / 2}};
    small_responses();
    for (size_t i = 0; i < COUNT(sums); i++)
        whole_responses(sums[i], 4);
    for (size_t i = 0; i < COUNT(POLYNOMIALS); i++) {
        const polynomial_case *p = &POLYNOMIALS[i];
        const size_t count = p->degree + 1;
        HOLD(bv_polynomial(p->kind, p->n, NONE, NONE, buf, 65536).code == BV_DONE);
        HOLD(bv_response(buf, count, (bv_point){1, 0}).real == (double)p->gain);
        whole_responses(buf, count);
        for (size_t at = 0; at < 16; at++)
            responded(buf, count, point_of(at, (5 * at + 3) % 16));
    }
    /* about where the parts become infinite, and then no number; a coefficient above 2^53 at either end of many */
    for (size_t i = 0; i < 65536; i++)
        buf[i] = 2 * half;
    for (size_t count = 1900; count < 2100; count++)
        for (size_t corner = 0; corner < 4; corner++)
            responded(buf, count, (bv_point){corner % 2 ? 1 : -1, corner / 2 ? 1 : -1});
    for (size_t i = 0; i < 4; i++) {
        static const size_t places[] = {0, 1, 40000, 65535};
        buf[places[i]]++;
        HOLD(responded(buf, 65536, (bv_point){0.5, -0.5}).code == BV_REFUSED_COARSE);
        buf[places[i]]--;
    }
    HOLD(responded(buf, 65536, (bv_point){0.5, -0.5}).code == BV_DONE);

    /* more than 2^32 coefficients, which in 32 bits are one: refused from whichever end they are looked at */
    const size_t far = (size_t)1 << 32, bytes = 8 * (far + 1);
    int64_t *wide = mmap(NULL, bytes, PROT_READ | PROT_WRITE, MAP_PRIVATE | MAP_ANONYMOUS | MAP_NORESERVE, -1, 0);
    if ((void *)wide == MAP_FAILED) {
        printf("edges.c: there is no room for 2^32 coefficients\n");
        exit(1);
    }
    wide[1] = wide[far] = 2 * half + 1;
    HOLD(bv_response(wide, far + 1, (bv_point){1, 1}).code == BV_REFUSED_COARSE);
    HOLD(bv_response(wide, far + 1, (bv_point){2, 1}).code == BV_REFUSED_POINT);
    munmap(wide, bytes);
}

/* F(n) of a product of distinct primes, lowest degree first, and its degree: F(m), with z^p for z, divided by F(m), for
 * the largest prime p of n = mp. */
static size_t divided(size_t n, int32_t *f) {
    if (n == 1) {
        f[0] = -1, f[1] = 1;
        return 1;
    }
    size_t p = 2;
    for (size_t rest = n; rest > p; p += rest > p)
        if (rest % p == 0)
            rest /= p;
    int32_t by[4096], spread[4096] = {0};
    const size_t low = divided(n / p, by), top = low * (p - 1);
    for (size_t i = 0; i * p <= top; i++)
        spread[i * p] = by[i];
    for (size_t i = 0; i <= top; i++) {
        int32_t c = spread[i];
        for (size_t j = 1; j <= low && j <= i; j++)
            c -= f[i - j] * by[j];
        f[i] = c * by[0];
    }
    return top;
}

/* The height of each F(n), and the additions that are told of it. */
static uint64_t heights[4096], added[4096];

static void make_heights(void) {
    static int32_t f[4096];
    for (size_t n = 1; n < 4096; n++) {
        size_t m = 1, r = 1, phi = 1; /* the products of its primes and of its odd primes */
        for (size_t p = 2, rest = n; rest > 1; p++)
            if (rest % p == 0) {
                m *= p, r *= p == 2 ? 1 : p, phi *= p - 1;
                while (rest % p == 0)
                    rest /= p;
            }
        if (m < n) { /* F(n) is F(m) with a power of z for z */
            heights[n] = heights[m], added[n] = added[m];
            continue;
        }
        const size_t top = divided(n, f);
        for (size_t i = 0; i <= top; i++)
            if (heights[n] < (uint64_t)(f[i] < 0 ? -f[i] : f[i]))
                heights[n] = (uint64_t)(f[i] < 0 ? -f[i] : f[i]);
        for (size_t d = 1; d < r && d <= phi / 2; d++)
            if (r % d == 0)
                added[n] += phi / 2 + 1 - d;
    }
}

/* The rows from a to b, a height after another, each looked for from a on; how many they are. */
static size_t put_rows(size_t a, size_t b, uint64_t *to, uint64_t *additions) {
    size_t many = 0;
    *additions = 0;
    for (size_t n = a; n <= b; n++)
        *additions += added[n];
    for (uint64_t height = 1; height < 64; height++) {
        uint64_t count = 0;
        for (size_t n = b; n >= a; n--)
            if (heights[n] == height) {
                to[3 * many] = height, to[3 * many + 1] = n;
                count++;
            }
        if (count > 0)
            to[3 * many++ + 2] = count;
    }
    return many;
}

/* A census in so many numbers and entries, of any contents, held to what it must answer and leave. */
static void counted(uint64_t a, uint64_t b, size_t slots, size_t entries) {
    static const int64_t each[] = {77, 0, -1, INT64_MIN, INT64_MAX - 9999};
    static uint64_t rows[300], left[300];
    static int64_t used[5008], cleared[5008];
    for (size_t i = 0; i < COUNT(rows); i++)
        rows[i] = left[i] = UINT64_MAX - i;
    for (size_t i = 0; i < COUNT(used); i++)
        used[i] = cleared[i] = each[calls % 5] + (int64_t)i;

    bv_counted right = {BV_DONE, 0, 0};
    uint64_t put[3 * 64], additions = 0;
    if (a < 1 || a > b || b > BV_CENSUS_MOST)
        right.code = BV_REFUSED_RANGE;
    else if (entries < BV_CENSUS_ENTRIES)
        right.code = BV_REFUSED_SHORT;
    else {
        const size_t many = put_rows(a, b, put, &additions);
        memset(cleared, 0, BV_CENSUS_ENTRIES * sizeof *cleared);
        if (slots < 3 * many)
            right.code = BV_REFUSED_ROWS;
        else {
            right.rows = many, right.additions = additions;
            memcpy(left, put, 3 * many * sizeof *left);
        }
    }
    bv_counted told = bv_census(a, b, slots == 0 ? NULL : rows, slots, entries == 0 ? NULL : used, entries);
    HOLD(told.code == right.code && told.rows == right.rows && told.additions == right.additions);
    HOLD(memcmp(rows, left, sizeof rows) == 0 && memcmp(used, cleared, sizeof used) == 0);
}

/* Numbers and entries above 2^32: so many are 2 and 1 in 32 bits. */
static void wide_censuses(void) {
    const size_t far = (size_t)1 << 32, bytes = 8 * far + 65536;
    const int any = MAP_PRIVATE | MAP_ANONYMOUS | MAP_NORESERVE;
    uint64_t *rows = mmap(NULL, bytes, PROT_READ | PROT_WRITE, any, -1, 0);
    int64_t *used = mmap(NULL, bytes, PROT_READ | PROT_WRITE, any, -1, 0);
    if ((void *)rows == MAP_FAILED || (void *)used == MAP_FAILED) {
        printf("edges.c: there is no room for 2^32 numbers and as many entries\n");
        exit(1);
    }
    for (size_t i = 0; i < 4100; i++)
        rows[i] = 77, used[i] = 77;
    bv_counted a = bv_census(1, 105, rows, far + 2, used, far + 1);
    HOLD(a.code == BV_DONE && a.rows == 2 && rows[0] == 1 && rows[3] == 2 && rows[6] == 77);
    HOLD(used[0] == 0 && used[4095] == 0 && used[4096] == 77);
    HOLD(bv_census(1, 105, rows, far + 2, used, 4095).code == BV_REFUSED_SHORT);
    HOLD(bv_census(1, 105, rows, 5, used, far + 1).code == BV_REFUSED_ROWS && used[4096] == 77);
    munmap(rows, bytes);
    munmap(used, bytes);
}

static void censuses(void) {
    const uint64_t far = UINT64_C(1) << 32;
    const uint64_t bounds[] = {0,    1,    2,     104,   105, 4094,    4095,      4096,      4097,
                               8191, 8192, 65535, 65536, far, far + 1, far + 105, far << 31, UINT64_MAX};
    /* of one height, of some, with the tallest first or last, and all */
    static const uint64_t ranges[][2] = {{1, 1},       {1, 104},     {104, 105},   {105, 106},
                                         {385, 390},   {385, 420},   {1365, 1785}, {2805, 3135},
                                         {3135, 3136}, {3135, 4095}, {4095, 4095}, {1, 4095}};
    make_heights();
    for (size_t i = 0; i < COUNT(bounds) * COUNT(bounds); i++) {
        const uint64_t a = bounds[i % COUNT(bounds)], b = bounds[i / COUNT(bounds)];
        counted(a, b, 192, 4096);
        counted(a, b, 0, 0);
        counted(a, b, 0, 4096);
        counted(a, b, 192, 4095);
    }
    for (size_t i = 0; i < COUNT(ranges); i++)
        for (size_t slots = 0; slots < 28; slots++)
            for (size_t entries = 4094; entries < 4099; entries++)
                counted(ranges[i][0], ranges[i][1], slots, entries);
    for (size_t i = 0; i < COUNT(ranges); i++) {
        static const size_t lent[] = {0, 1, 2, 64, 4000, 5000};
        for (size_t at = 0; at < COUNT(lent); at++) {
            counted(ranges[i][0], ranges[i][1], 21, lent[at]);
            counted(ranges[i][0], ranges[i][1], 0, lent[at]);
        }
    }
    /* every index alone, with the next one, and with the next sixteen; then from the first and to the last */
    for (size_t n = 1; n <= 4095; n++) {
        counted(n, n, 3, 4096);
        counted(n, n + 1, 3 * (1 + n % 3), 4096 + n % 2);
        counted(n, n + 16, 21, 4096);
    }
    for (size_t n = 35; n <= 4095; n += 35) {
        counted(1, n, 21 - n % 3, 4096);
        counted(n, 4095, 21, 4096 + n % 5);
    }
    wide_censuses();
}

/* Each code has its name, those of the census apart, and no other number has one. */
static void names(void) {
    static const char *const of[] = {"DONE",   "KIND",   "INDEX", "LIMIT",  "SHORT",  "OVER",  "TALL",
                                     "STEP",   "CUT",    "MARK",  "?",      "WIDTH",  "RKIND", "RWIDTH",
                                     "RINDEX", "RCOUNT", "LIST",  "ABSENT", "UNEVEN", "POINT", "COARSE",
                                     "RANGE",  "ROWS",   "?",     "?"};
    for (size_t code = 0; code < COUNT(of); code++)
        if (code != BV_REFUSED_RANGE && code != BV_REFUSED_ROWS)
            HOLD(strcmp(bv_name(code), of[code]) == 0);
    HOLD(strcmp(bv_name(UINT64_MAX), "?") == 0);
    HOLD(strcmp(bv_name((UINT64_C(1) << 32) + BV_REFUSED_KIND), "?") == 0);
}

int main(void) {
    fresh();
    polynomial();
    partial();
    one_step(bv_comb, 1);
    one_step(bv_accumulate, -1);
    limits();
    record();
    no_cascades();
    cascades();
    no_seconds();
    seconds();
    shelves();
    halves();
    rescues();
    responses();
    names();
    printf("%d outcomes, all as told in bonvedrick.h\n", calls);
    calls = 0;
    censuses();
    HOLD(strcmp(bv_name(BV_REFUSED_RANGE), "RANGE") == 0);
    HOLD(strcmp(bv_name(BV_REFUSED_ROWS), "ROWS") == 0);
    printf("%d outcomes of the census, all as told there\n", calls);
    return 0;
}
