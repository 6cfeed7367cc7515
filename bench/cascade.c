/*
 * Cascades: the library beside FLINT (cyclotomic and mul; -DFLINT) and two designs in plain C, modulo 2^64 and
 * untested: a factor at a time by its steps on the product so far, and multiplied out. All are held to be equal first,
 * where the library delivers; then they take turns, and the median of each is printed in milliseconds.
 */
#include <stdint.h>
#include <stdio.h>
#include <stdlib.h>
#include <string.h>
#include <time.h>

#include "bonvedrick.h"
#ifdef FLINT
#include <flint/fmpz_poly.h>
#endif

enum { MOST = 65536, ROUNDS = 9 };

typedef struct list {
    const char *name;
    uint64_t indices[8];
    size_t count;
} list;

static const list LISTS[] = {
    {"8191 eight times", {8191, 8191, 8191, 8191, 8191, 8191, 8191, 8191}, 8},
    {"8191 four times", {8191, 8191, 8191, 8191}, 4},
    {"15015 four times", {15015, 15015, 15015, 15015}, 4},
    {"9009 10395 12375 15015 15015 20475 8085 11025", {9009, 10395, 12375, 15015, 15015, 20475, 8085, 11025}, 8},
    {"32767 65535", {32767, 65535}, 2},
    {"105 eight times", {105, 105, 105, 105, 105, 105, 105, 105}, 8},
    {"2 4 8 16 32 64 105 1155", {2, 4, 8, 16, 32, 64, 105, 1155}, 8},
    {"13982 six times, then 210", {13982, 13982, 13982, 13982, 13982, 13982, 210}, 7},
};

static int64_t buf[MOST], scratch[MOST];
static uint64_t product[MOST], factor[MOST];
static bv_answer told;
/* the entries of the list's largest factor: so many are lent as scratch, which is cleared as long as it is */
static size_t longest;

static void ours(const list *l) {
    told = bv_cascade(l->indices, l->count, BV_NO_LIMIT, buf, MOST, scratch, longest);
}

/* The distinct primes of n, and how many. */
static size_t primes_of(uint64_t n, uint64_t *primes) {
    size_t count = 0;
    for (uint64_t p = 2; n > 1; p++) {
        if (p * p > n)
            p = n;
        if (n % p == 0)
            primes[count++] = p;
        while (n % p == 0)
            n /= p;
    }
    return count;
}

static size_t phi(uint64_t n) {
    uint64_t primes[8], found = n;
    for (size_t k = primes_of(n, primes); k > 0; k--)
        found -= found / primes[k - 1];
    return (size_t)found;
}

static void comb(uint64_t *a, size_t len, size_t d) {
    for (size_t i = len; i-- > d;)
        a[i] -= a[i - d];
}

static void accumulate(uint64_t *a, size_t len, size_t d) {
    for (size_t i = d; i < len; i++)
        a[i] += a[i - d];
}

/* Times F(n), cut to the length: 1 - z^(n/d) to the power mu(d), for each product d of some of n's primes. */
static void by_steps(uint64_t *a, size_t len, uint64_t n) {
    uint64_t primes[8];
    size_t k = primes_of(n, primes);
    for (size_t mask = 0; mask < (size_t)1 << k; mask++) {
        uint64_t d = n;
        int odd = 0;
        for (size_t i = 0; i < k; i++)
            if (mask >> i & 1) {
                d /= primes[i];
                odd = !odd;
            }
        if (odd)
            accumulate(a, len, (size_t)d);
        else
            comb(a, len, (size_t)d);
    }
    for (size_t i = 0; n == 1 && i < len; i++)
        a[i] = -a[i];
}

static void plain_by_steps(const list *l) {
    size_t len = 1;
    product[0] = 1;
    for (size_t i = 0; i < l->count; i++) {
        size_t more = phi(l->indices[i]);
        memset(product + len, 0, more * sizeof *product);
        by_steps(product, len += more, l->indices[i]);
    }
}

/* In place, from the top down: each new coefficient needs old ones at its place and below. */
static void plain_product(const list *l) {
    size_t len = 1;
    product[0] = 1;
    for (size_t i = 0; i < l->count; i++) {
        size_t more = phi(l->indices[i]);
        memset(factor, 0, (more + 1) * sizeof *factor);
        factor[0] = 1;
        by_steps(factor, more + 1, l->indices[i]);
        memset(product + len, 0, more * sizeof *product);
        len += more;
        for (size_t at = len; at-- > 0;) {
            uint64_t sum = 0;
            for (size_t k = 0; k <= more && k <= at; k++)
                sum += factor[k] * product[at - k];
            product[at] = sum;
        }
    }
}

static int plain_agrees(void) {
    return memcmp(product, buf, ((size_t)told.degree + 1) * sizeof *buf) == 0;
}

#ifdef FLINT
static fmpz_poly_t made, one;

static void flint(const list *l) {
    fmpz_poly_cyclotomic(made, l->indices[0]);
    for (size_t i = 1; i < l->count; i++) {
        fmpz_poly_cyclotomic(one, l->indices[i]);
        fmpz_poly_mul(made, made, one);
    }
}

static int flint_agrees(void) {
    for (uint64_t i = 0; i <= told.degree; i++)
        if (fmpz_cmp_si(fmpz_poly_get_coeff_ptr(made, (slong)i), buf[i]) != 0)
            return 0;
    return fmpz_poly_degree(made) == (slong)told.degree;
}
#endif

static double now(void) {
    struct timespec t;
    clock_gettime(CLOCK_MONOTONIC, &t);
    return (double)t.tv_sec * 1e3 + (double)t.tv_nsec / 1e6;
}

typedef struct way {
    const char *name;
    void (*run)(const list *);
    size_t rounds;
    double times[ROUNDS];
} way;

/* One turn: often enough for the clock. */
static double turn(const way *w, const list *l, int often) {
    double start = now();
    for (int i = 0; i < often; i++)
        w->run(l);
    return (now() - start) / often;
}

static int ascending(const void *a, const void *b) {
    double x = *(const double *)a, y = *(const double *)b;
    return (x > y) - (x < y);
}

static void hold(int right, const list *l, const char *what) {
    if (!right) {
        fprintf(stderr, "%s: %s differs\n", l->name, what);
        exit(1);
    }
}

static void check(const list *l) {
    longest = 0;
    for (size_t i = 0; i < l->count; i++)
        if (phi(l->indices[i]) >= longest)
            longest = phi(l->indices[i]) + 1;
    ours(l);
    if (told.code != BV_DONE)
        return;
    plain_by_steps(l);
    hold(plain_agrees(), l, "plain C by steps");
    plain_product(l);
    hold(plain_agrees(), l, "plain C multiplied out");
#ifdef FLINT
    flint(l);
    hold(flint_agrees(), l, "FLINT");
#endif
}

int main(void) {
    way ways[] = {
        {"Bonvedrick", ours, 0, {0}},
#ifdef FLINT
        {"FLINT", flint, 0, {0}},
#endif
        {"by steps", plain_by_steps, 0, {0}},
        {"multiplied out", plain_product, 0, {0}},
    };
    const size_t count = sizeof ways / sizeof *ways;
#ifdef FLINT
    fmpz_poly_init(made);
    fmpz_poly_init(one);
#endif
    printf("milliseconds, medians of up to %d turns; 'by steps' and 'multiplied out' are plain C, untested\n", ROUNDS);
    printf("%-46s %6s %6s", "cascade", "degree", "code");
    for (size_t w = 0; w < count; w++)
        printf(" %14s", ways[w].name);
    printf("  Bonvedrick to each other\n");
    for (size_t i = 0; i < sizeof LISTS / sizeof *LISTS; i++) {
        const list *l = &LISTS[i];
        int often[sizeof ways / sizeof *ways];
        check(l);
        for (size_t w = 0; w < count; w++) {
            double once = turn(&ways[w], l, 1);
            often[w] = once < 4 ? (int)(4 / (once + 1e-4)) + 1 : 1;
            ways[w].rounds = once > 300 ? 3 : ROUNDS;
        }
        for (size_t round = 0; round < ROUNDS; round++)
            for (size_t w = 0; w < count; w++)
                if (round < ways[w].rounds)
                    ways[w].times[round] = turn(&ways[w], l, often[w]);
        printf("%-46s %6zu %6s", l->name, (size_t)told.degree, bv_name(told.code));
        for (size_t w = 0; w < count; w++) {
            qsort(ways[w].times, ways[w].rounds, sizeof(double), ascending);
            printf(" %14.4f", ways[w].times[ways[w].rounds / 2]);
        }
        for (size_t w = 1; w < count; w++)
            printf(" %8.3f", ways[0].times[ways[0].rounds / 2] / ways[w].times[ways[w].rounds / 2]);
        printf("\n");
        fflush(stdout);
    }
    return 0;
}
