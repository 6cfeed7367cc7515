/*
 * A decimator by 8 with a notch for the hum of the mains, in C. F(2) F(4) F(8) = 1 + z + .. + z^7 adds up eight samples
 * and so stops what would fold onto a steady level when only every 8th sample is kept. At 1800 samples a second 60 Hz is
 * one turn in 30 samples, so F(30) stops it. The cascade of the four is one filter: this asks for it, prints it and says
 * how wide the registers of a chip must be for it.
 */
#include <inttypes.h>
#include <math.h>
#include <stdio.h>

#include "bonvedrick.h"

enum { RATE = 1800, MAINS = 60, BY = 8, BITS = 16, ROOM = 32, COUNT = 4 };

static const uint64_t INDICES[COUNT] = {2, 4, 8, RATE / MAINS};
static const double PI = 3.14159265358979323846;

static int64_t filter[ROOM], scratch[ROOM];

/* The cascade, no taller than h, in so many entries. */
static bv_answer ask(int64_t h, size_t room) {
    bv_answer a = bv_cascade(INDICES, COUNT, h, filter, room, scratch, room);
    printf("height %" PRId64 ", room %2zu: %s, degree %" PRIu64 "\n", h, room, bv_name(a.code), a.degree);
    return a;
}

/* How much of a frequency comes through. */
static double response(uint64_t degree, double hz) {
    double real = 0, imag = 0;
    for (uint64_t i = 0; i <= degree; i++) {
        real += (double)filter[i] * cos(2 * PI * hz * (double)i / RATE);
        imag += (double)filter[i] * sin(2 * PI * hz * (double)i / RATE);
    }
    return hypot(real, imag);
}

/* How many bits hold the numbers from 0 to below so many. */
static int bits_for(uint64_t many) {
    int bits = 0;
    while (UINT64_C(1) << bits < many)
        bits++;
    return bits;
}

int main(void) {
    static const int hz[] = {0, 20, MAINS, RATE / 8, RATE / 4, 3 * RATE / 8, RATE / 2};
    uint64_t sum = 0;

    printf("decimator by %d with a notch for %d Hz, at %d samples a second: F(2) F(4) F(8) F(%d)\n", BY, MAINS, RATE,
           RATE / MAINS);
    ask(1, 0);
    ask(1, ROOM);
    bv_answer a = ask(2, ROOM);
    if (a.code != BV_DONE)
        return 1;
    printf("height %" PRIu64 " at degree %" PRIu64 ", gain %" PRId64 "\n", a.height, a.peak, a.gain);
    for (uint64_t i = 0; i <= a.degree; i++) {
        printf("%" PRId64 "%c", filter[i], i < a.degree ? ' ' : '\n');
        sum += (uint64_t)(filter[i] < 0 ? -filter[i] : filter[i]);
    }
    for (size_t i = 0; i < sizeof hz / sizeof *hz; i++)
        printf("%4d Hz: %.3f\n", hz[i], response(a.degree, hz[i]));
    printf("the magnitudes add up to %" PRIu64 ": samples of %d bits come out in %d + %d = %d bits\n", sum, BITS, BITS,
           bits_for(sum), BITS + bits_for(sum));
    return 0;
}
