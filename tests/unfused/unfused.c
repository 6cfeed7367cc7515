/*
 * Holds bv_response to the plain loop in C (bench/response.c, compiled with no operation fused) on random coefficients
 * at random points, bit by bit. At the first difference it says so and ends with status 1.
 */
#include <stdio.h>
#include <string.h>

#include "bonvedrick.h"

enum { INPUTS = 20000, MOST = 64 };

bv_point RESPONSE(const int64_t *coeffs, size_t count, bv_point at);

static int same(double a, double b) {
    return memcmp(&a, &b, sizeof a) == 0;
}

static uint64_t state = 1;

static uint64_t any(void) {
    state = state * UINT64_C(6364136223846793005) + UINT64_C(1442695040888963407);
    return state >> 10; /* 54 bits */
}

/* From -1 to 1. */
static double part(void) {
    return (double)any() / (double)(UINT64_C(1) << 53) - 1;
}

int main(void) {
    for (int input = 0; input < INPUTS; input++) {
        int64_t coeffs[MOST];
        const size_t count = any() % (MOST + 1);
        const unsigned narrower = any() % 53;
        for (size_t i = 0; i < count; i++)
            coeffs[i] = (int64_t)(any() >> narrower) - (INT64_C(1) << 53 >> narrower);
        const bv_point at = {part(), part()}, right = RESPONSE(coeffs, count, at);
        const bv_value told = bv_response(coeffs, count, at);
        if (told.code != BV_DONE || !same(told.real, right.real) || !same(told.imag, right.imag)) {
            printf("input %d of %zu coefficients: %a %a, not %a %a\n", input, count, told.real, told.imag, right.real,
                   right.imag);
            return 1;
        }
    }
    printf("%d inputs, no difference\n", INPUTS);
    return 0;
}
