/*
 * The response of a notch, in C. At 1050 samples a second 50 Hz is one turn in 21 samples, so F(21) stops it, and this
 * prints what comes through of frequencies from 0 to half the rate, for a plot: a frequency is a point of the unit
 * circle. Cosine and sine are rounded, so what is stopped comes out as some 1e-15. At 1, -1, i and -i the value is
 * exact: the gain, and notches that are 0. A point outside is refused, and so is a coefficient above 2^53.
 */
#include <inttypes.h>
#include <math.h>
#include <stdio.h>

#include "bonvedrick.h"

enum { RATE = 1050, MAINS = 50, STEP = 25, ROOM = 32 };

static const double PI = 3.14159265358979323846;

static int64_t coeffs[ROOM];

/* F(n), and how many coefficients it has: none where it is refused. */
static size_t ask(uint64_t n) {
    bv_answer a = bv_polynomial(BV_F, n, BV_NO_LIMIT, BV_NO_LIMIT, coeffs, ROOM);
    return a.code == BV_DONE ? a.degree + 1 : 0;
}

/* The value at one of the four points, which is a whole number in each part. */
static void exactly(uint64_t n, const char *name, double real, double imag) {
    bv_value v = bv_response(coeffs, ask(n), (bv_point){real, imag});
    printf("F(%" PRIu64 ") at %s: %" PRId64 ", %" PRId64 "\n", n, name, (int64_t)v.real, (int64_t)v.imag);
}

int main(void) {
    const size_t count = ask(RATE / MAINS);

    printf("F(%d) at %d samples a second\n", RATE / MAINS, RATE);
    for (int hz = 0; hz <= RATE / 2; hz += STEP) {
        const double angle = 2 * PI * hz / RATE;
        bv_value v = bv_response(coeffs, count, (bv_point){cos(angle), sin(angle)});
        if (v.code != BV_DONE)
            return 1;
        printf("%4d Hz: %.3f\n", hz, hypot(v.real, v.imag));
    }
    exactly(RATE / MAINS, "1", 1, 0);
    exactly(9, "1", 1, 0);
    exactly(1, "1", 1, 0);
    exactly(2, "-1", -1, 0);
    exactly(4, "i", 0, 1);
    exactly(4, "-i", 0, -1);
    exactly(3, "i", 0, 1);

    const int64_t large[] = {1, INT64_C(1) << 53, (INT64_C(1) << 53) + 1};
    printf("at 1.5: %s\n", bv_name(bv_response(large, 3, (bv_point){1.5, 0}).code));
    printf("2^53 as a coefficient: %s\n", bv_name(bv_response(large, 2, (bv_point){0.5, 0}).code));
    printf("2^53 + 1: %s\n", bv_name(bv_response(large, 3, (bv_point){0.5, 0}).code));
    return 0;
}
