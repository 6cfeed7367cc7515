/*
 * A census of heights, in C. A stage whose coefficients are all -1, 0 or 1 only adds and subtracts; one of a larger
 * height takes multipliers, and coefficients of more bits. This prints, for some ranges of n, which heights F(n) has,
 * how many n have each, which is the first, and the bits that such a coefficient takes, sign included. Then the
 * refusals: too few rows, too few entries to work in, and a range that is none.
 */
#include <inttypes.h>
#include <stdio.h>

#include "bonvedrick.h"

enum { ROWS = 64 };

static uint64_t rows[3 * ROWS];
static int64_t work[BV_CENSUS_ENTRIES];

/* The registers that hold a coefficient of this magnitude, with its sign. */
static int bits(uint64_t height) {
    int least = 2;
    while (height > (UINT64_C(1) << (least - 1)) - 1)
        least++;
    return least;
}

static void show(uint64_t a, uint64_t b, size_t slots, size_t entries) {
    bv_counted told = bv_census(a, b, rows, slots, work, entries);

    printf("F(%" PRIu64 ") to F(%" PRIu64 "): %s", a, b, bv_name(told.code));
    if (told.code == BV_DONE)
        printf(", %" PRIu64 " additions", told.additions);
    printf("\n");
    for (uint64_t i = 0; i < told.rows; i++) {
        const uint64_t *row = rows + 3 * i;
        printf("  height %" PRIu64 ": %4" PRIu64 " of them, F(%" PRIu64 ") first, %d bits\n", row[0], row[2], row[1],
               bits(row[0]));
    }
}

int main(void) {
    show(1, 104, 3 * ROWS, BV_CENSUS_ENTRIES);
    show(1, BV_CENSUS_MOST, 3 * ROWS, BV_CENSUS_ENTRIES);
    show(385, 420, 3 * ROWS, BV_CENSUS_ENTRIES);
    show(3135, 3135, 3, BV_CENSUS_ENTRIES);
    printf("in two rows, in one entry less, and past the end:\n");
    show(385, 420, 3 * 2, BV_CENSUS_ENTRIES);
    show(385, 420, 3 * ROWS, BV_CENSUS_ENTRIES - 1);
    show(385, BV_CENSUS_MOST + 1, 3 * ROWS, BV_CENSUS_ENTRIES);
    return 0;
}
