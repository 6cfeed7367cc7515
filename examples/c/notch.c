/*
 * A mains notch in C. At 5250 samples a second 50 Hz is one turn in 105 samples, so F(105) as a filter stops 50 Hz (and
 * 100, 200, 400 Hz and the other multiples k * 50 Hz where k shares no factor above 1 with 105), and lets a steady level
 * through times its gain. It asks for the stage, filters a level with a hum on it, writes the stage as a record and
 * reads it back. Then it asks which registers of a chip the steps of a larger stage fit.
 */
#include <inttypes.h>
#include <math.h>
#include <stdio.h>
#include <string.h>

#include "bonvedrick.h"

enum { RATE = 5250, MAINS = 50, N = RATE / MAINS, ROOM = 64, BYTES = 128, LARGE = 15015, MUCH = 9256 };

static const double PI = 3.14159265358979323846;

/* What comes out of the stage at sample t: a level of 1000 with a hum of 300 went in. */
static double out(const int64_t *stage, uint64_t degree, int t) {
    double sum = 0;
    for (uint64_t i = 0; i <= degree; i++)
        sum += (double)stage[i] * (1000 + 300 * sin(2 * PI * (double)MAINS * (t - (double)i) / (double)RATE));
    return sum;
}

/* I(15015), if no step on the way needs more than a register of so many bits, sign included. */
static bv_answer in_registers(int bits) {
    static int64_t large[MUCH];
    return bv_polynomial(BV_I, LARGE, BV_NO_LIMIT, INT64_MAX >> (64 - bits), large, MUCH);
}

int main(void) {
    int64_t stage[ROOM] = {0}, again[ROOM] = {0};
    uint8_t bytes[BYTES] = {0};

    printf("notch for %d Hz at %d samples a second: F(%d)\n", MAINS, RATE, N);

    bv_answer need = bv_polynomial(BV_F, N, 1, BV_NO_LIMIT, NULL, 0);
    printf("no room:      %s, degree %" PRIu64 "\n", bv_name(need.code), need.degree);
    bv_answer tall = bv_polynomial(BV_F, N, 1, BV_NO_LIMIT, stage, ROOM);
    printf("height 1:     %s, degree %" PRIu64 "\n", bv_name(tall.code), tall.degree);
    bv_answer a = bv_polynomial(BV_F, N, 2, BV_NO_LIMIT, stage, ROOM);
    printf("height 2:     %s, degree %" PRIu64 ", %" PRIu64 " additions, height %" PRIu64 " at degree %" PRIu64
           ", gain %" PRId64 "\n",
           bv_name(a.code), a.degree, a.additions, a.height, a.peak, a.gain);
    if (a.code != BV_DONE)
        return 1;

    double low = out(stage, a.degree, 0), high = low;
    for (int t = 1; t < RATE; t++) {
        low = fmin(low, out(stage, a.degree, t));
        high = fmax(high, out(stage, a.degree, t));
    }
    printf("level 1000 with a hum of 300 comes out from %.6f to %.6f\n", low, high);

    bv_written w = bv_write(BV_F, N, stage, a.degree + 1, bytes, BYTES);
    printf("written:      %s, %" PRIu64 " bytes:", bv_name(w.code), w.used);
    for (uint64_t i = 0; i < 16 && i < w.used; i++)
        printf(" %02X", (unsigned)bytes[i]);
    printf(" ..\n");

    bv_record cut = bv_read(bytes, w.used - 1, again, ROOM);
    printf("a byte short: %s\n", bv_name(cut.code));
    bytes[3] = 3;
    bv_record wide = bv_read(bytes, w.used, again, ROOM);
    printf("3 as width:   %s, byte %" PRIu64 "\n", bv_name(wide.code), wide.byte);
    bytes[3] = 1;
    bv_record r = bv_read(bytes, w.used, again, ROOM);
    printf("read:         %s, %s(%" PRIu64 "), degree %" PRIu64 ", %s\n", bv_name(r.code), r.kind == BV_F ? "F" : "I",
           r.n, r.degree, memcmp(stage, again, sizeof stage) == 0 ? "the same coefficients" : "OTHER COEFFICIENTS");

    int bits = 20;
    bv_answer in = in_registers(bits);
    printf("registers:    I(%d) in %d bits: %s, degree %" PRIu64 "\n", LARGE, bits, bv_name(in.code), in.degree);
    while (in.code == BV_REFUSED_OVER)
        in = in_registers(++bits);
    printf("              I(%d) in %d bits: %s, height %" PRIu64 " at degree %" PRIu64 "\n", LARGE, bits,
           bv_name(in.code), in.height, in.peak);
    return r.code != BV_DONE || in.code != BV_DONE;
}
