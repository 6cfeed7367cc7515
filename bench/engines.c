/* Both engines at every index, both kinds: the plain request and the second engine's take turns, and the scratch's
 * clearing, which the second one owes, is timed alone. Printed are the sums of a round by kind and by number of odd
 * primes, medians of the rounds, and the ratio. */
#include "bonvedrick.h"

#include <stdio.h>
#include <stdlib.h>
#include <string.h>
#include <time.h>

enum { LAST = 65535, ROUNDS = 5, PRIMES = 6 };

static int64_t buf[LAST + 1], other[LAST + 1], scratch[2 * LAST + 16];

static double now(void) {
    struct timespec t;
    clock_gettime(CLOCK_MONOTONIC, &t);
    return t.tv_sec * 1e3 + t.tv_nsec / 1e6;
}

static int odd_primes(unsigned n) {
    int count = 0;
    while (n % 2 == 0)
        n /= 2;
    for (unsigned p = 3; p * p <= n; p += 2)
        if (n % p == 0) {
            ++count;
            while (n % p == 0)
                n /= p;
        }
    return count + (n > 1);
}

static int by_size(const void *a, const void *b) {
    double x = *(const double *)a, y = *(const double *)b;
    return (x > y) - (x < y);
}

static double median(double *a) {
    qsort(a, ROUNDS, sizeof *a, by_size);
    return a[ROUNDS / 2];
}

/* What is compared: [kind][primes][who][round], in milliseconds. */
static double spent[3][PRIMES][3][ROUNDS];

static void one(int kind, unsigned n, int round) {
    int class = odd_primes(n);
    size_t room = 2 * (size_t)n + 16;
    double start = now();
    bv_answer a = bv_polynomial(kind, n, INT64_MAX, INT64_MAX, buf, LAST + 1);
    double plain = now();
    bv_answer b = bv_second(kind, n, INT64_MAX, other, LAST + 1, scratch, room);
    double second = now();
    memset(scratch, 0, room * sizeof *scratch);
    double cleared = now();
    spent[kind][class][0][round] += plain - start;
    spent[kind][class][1][round] += second - plain;
    spent[kind][class][2][round] += cleared - second;
    if (a.code != b.code || a.degree != b.degree || memcmp(buf, other, (a.degree + 1) * sizeof *buf) != 0) {
        printf("kind %d, n %u: the engines differ\n", kind, n);
        exit(1);
    }
}

static void row(const char *kind, const char *primes, int low_kind, int high_kind, int low, int high) {
    double sums[3][ROUNDS] = {{0}};
    for (int k = low_kind; k <= high_kind; ++k)
        for (int p = low; p <= high; ++p)
            for (int who = 0; who < 3; ++who)
                for (int r = 0; r < ROUNDS; ++r)
                    sums[who][r] += spent[k][p][who][r];
    double plain = median(sums[0]), second = median(sums[1]), cleared = median(sums[2]);
    printf("%-6s %-6s %10.1f %10.1f %8.2f %10.1f %8.2f\n", kind, primes, plain, second, second / plain, cleared,
           (second - cleared) / plain);
}

int main(void) {
    for (int round = 0; round < ROUNDS; ++round)
        for (int kind = 1; kind <= 2; ++kind)
            for (unsigned n = 1; n <= LAST; ++n)
                one(kind, n, round);
    printf("%-6s %-6s %10s %10s %8s %10s %8s\n", "kind", "primes", "plain ms", "second ms", "ratio", "clear ms",
           "without");
    const char *names[] = {"", "F", "I"};
    for (int kind = 1; kind <= 2; ++kind)
        for (int p = 0; p < PRIMES; ++p)
            row(names[kind], (char[]){(char)('0' + p), 0}, kind, kind, p, p);
    row("F", "all", 1, 1, 0, PRIMES - 1);
    row("I", "all", 2, 2, 0, PRIMES - 1);
    row("both", "all", 1, 2, 0, PRIMES - 1);
    return 0;
}
