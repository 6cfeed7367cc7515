/*
 * How large the values on the way grow: every odd squarefree r from 3 to 65535, both kinds, every stop.
 *
 * Asks the library for each stop at the largest working limit and holds the kept half that it delivers to one made here by another road.
 * Then asks for all steps under a limit of the largest magnitude met, which must be delivered, and under one less, which must be refused.
 * Ends with a message and status 1 at the first difference; else prints, as rows of tables, the largest by number of primes, and those of
 * every index with five odd primes.
 */
#include <stdio.h>
#include <stdlib.h>
#include <string.h>

#include "bonvedrick.h"

#define MOST 65535
#define STOPS 32

static unsigned prime_of[MOST + 1]; /* the least prime of each number */

/* The largest magnitude at any stop of r, the first stop that has it, and the number of r's primes (0: r is not odd and squarefree). */
static struct { uint64_t largest; unsigned first; } met[2][MOST + 1];
static unsigned primes_in[MOST + 1];

static int64_t room[2][MOST], lent[MOST];
static int64_t *half = room[0]; /* the kept half by the road of this program */
static int64_t *spare = room[1];

static void differs(int kind, unsigned r, unsigned j, const char *what) {
    printf("%c %u, stop %u: %s\n", "FI"[kind - 1], r, j, what);
    exit(1);
}

static void find_primes(void) {
    for (unsigned p = 2; p <= MOST; p++)
        for (unsigned n = p; n <= MOST; n += p)
            if (prime_of[n] == 0) prime_of[n] = p;
}

/* How many primes an odd squarefree number has; 0 for any other. */
static unsigned count_primes(unsigned n) {
    unsigned found = 0;
    for (unsigned last = 2; n > 1; found++) {
        if (prime_of[n] == last) return 0;
        last = prime_of[n];
        n /= last;
    }
    return found;
}

/* Of an odd squarefree number. */
static unsigned phi(unsigned r) { return r == 1 ? 1 : (prime_of[r] - 1) * phi(r / prime_of[r]); }

static int mu(unsigned r) { return r == 1 ? 1 : -mu(r / prime_of[r]); }

/* The divisors of r below r, ascending; how many. */
static unsigned divisors_below(unsigned r, unsigned found[STOPS]) {
    unsigned count = 0, low;
    for (unsigned d = 1; d * d < r; d++)
        if (r % d == 0) found[count++] = d;
    for (low = count; low > 1; low--) found[count++] = r / found[low - 1];
    return count;
}

static uint64_t height(const int64_t *a, size_t count) {
    int64_t top = 0, bottom = 0;
    for (size_t i = 0; i < count; i++) {
        top = a[i] > top ? a[i] : top;
        bottom = a[i] < bottom ? a[i] : bottom;
    }
    return top > -bottom ? (uint64_t)top : (uint64_t)-bottom;
}

/* half times 1 + z^d or 1 - z^d, cut after its last degree. */
static void times(int sign, size_t d, size_t count) {
    int64_t *old = half;
    memcpy(spare, old, d * sizeof *old);
    if (sign > 0)
        for (size_t i = d; i < count; i++) spare[i] = old[i] + old[i - d];
    else
        for (size_t i = d; i < count; i++) spare[i] = old[i] - old[i - d];
    half = spare;
    spare = old;
}

/*
 * half times the term of d: 1 - z^d, or 1 + z^d + z^(2d) + .., which up to the last degree is (1 + z^d) (1 + z^(2d)) (1 + z^(4d)) ..,
 * since every number is a sum of different powers of two in one way. No value passes the largest so far times the number of the
 * term's terms, which is seen to fit.
 */
static int take_term(int comb, size_t d, size_t count, uint64_t largest) {
    if (largest > INT64_MAX / (2 * (count / d + 1))) return 0;
    if (comb) {
        if (d < count) times(-1, d, count);
        return 1;
    }
    for (size_t e = d; e < count; e *= 2) times(1, e, count);
    return 1;
}

/* The library's stop at j is half. */
static void compare(int kind, unsigned r, unsigned j, unsigned all, size_t count) {
    memset(lent, 0x5a, (count + 1) * sizeof *lent);
    int64_t past = lent[count];
    bv_stop told = bv_partial(kind, r, j, BV_NO_LIMIT, lent, count);
    if (told.code != BV_DONE) differs(kind, r, j, "not delivered at the largest working limit");
    if (told.degree != count - 1 || told.due != all - j) differs(kind, r, j, "another degree or number of divisors due");
    if (memcmp(lent, half, count * sizeof *half) != 0) differs(kind, r, j, "another kept half");
    if (lent[count] != past) differs(kind, r, j, "an entry past the kept half is changed");
}

static void see(int kind, unsigned r, unsigned j, uint64_t here) {
    if (here <= met[kind - 1][r].largest) return;
    met[kind - 1][r].largest = here;
    met[kind - 1][r].first = j;
}

/* The least working limit that delivers all steps is the largest magnitude met. */
static void limits(int kind, unsigned r, unsigned all, size_t count) {
    int64_t largest = (int64_t)met[kind - 1][r].largest;
    if (bv_partial(kind, r, all, largest, lent, count).code != BV_DONE) differs(kind, r, all, "not delivered at the largest magnitude met");
    uint64_t refusal = largest == 1 ? BV_REFUSED_LIMIT : BV_REFUSED_OVER;
    if (bv_partial(kind, r, all, largest - 1, lent, count).code != refusal) differs(kind, r, all, "delivered one below the largest met");
}

/* Every stop of r; how many. */
static unsigned stops(int kind, unsigned r) {
    unsigned d[STOPS], all = divisors_below(r, d);
    size_t count = (kind == 1 ? phi(r) : r - phi(r)) / 2 + 1;
    memset(half, 0, count * sizeof *half);
    half[0] = kind == 1 ? 1 : -1;
    compare(kind, r, 0, all, count);
    see(kind, r, 0, 1);
    for (unsigned j = 1; j <= all; j++) {
        int comb = (mu(r / d[j - 1]) == 1) == (kind == 1);
        if (!take_term(comb, d[j - 1], count, met[kind - 1][r].largest)) differs(kind, r, j, "the reference does not fit 64 bits");
        compare(kind, r, j, all, count);
        see(kind, r, j, height(half, count));
    }
    limits(kind, r, all, count);
    return all + 1;
}

/* A number with a comma before each three digits. */
static const char *grouped(uint64_t n) {
    static char text[4][32];
    static int turn;
    char *at = text[turn = (turn + 1) % 4] + 31;
    for (int digits = 0; digits == 0 || n > 0; digits++, n /= 10) {
        if (digits > 0 && digits % 3 == 0) *--at = ',';
        *--at = (char)('0' + n % 10);
    }
    return at;
}

/* The least register, its sign included, that holds every value up to this magnitude. */
static unsigned bits(uint64_t largest) {
    unsigned b = 1;
    while ((UINT64_C(1) << (b - 1)) - 1 < largest) b++;
    return b;
}

/* Of all r with so many primes: how many there are, and the first with the largest magnitude. */
static void class_row(int kind, unsigned primes) {
    unsigned count = 0, at = 0;
    for (unsigned r = 3; r <= MOST; r++) {
        if (primes_in[r] != primes) continue;
        count++;
        if (at == 0 || met[kind - 1][r].largest > met[kind - 1][at].largest) at = r;
    }
    uint64_t largest = met[kind - 1][at].largest;
    printf("| %u | %s | %c | %s | ", primes, grouped(count), "FI"[kind - 1], grouped(largest));
    printf("%s | %u | %u |\n", grouped(at), met[kind - 1][at].first, bits(largest));
}

/* r of n: the product of its distinct odd primes. */
static unsigned odd_part(unsigned n) {
    unsigned r = 1;
    for (unsigned last = 2; n > 1; n /= last)
        if (prime_of[n] != last) r *= last = prime_of[n];
    return r;
}

static void index_row(unsigned n, unsigned r) {
    printf("| %s | %s | ", grouped(n), grouped(r));
    for (unsigned rest = r; rest > 1; rest /= prime_of[rest]) printf("%u%s", prime_of[rest], rest == prime_of[rest] ? "" : ", ");
    for (int k = 0; k < 2; k++) printf(" | %s | %u | %u", grouped(met[k][r].largest), met[k][r].first, bits(met[k][r].largest));
    printf(" |\n");
}

int main(void) {
    unsigned tried = 0, numbers = 0;
    find_primes();
    for (unsigned r = 3; r <= MOST; r++) {
        primes_in[r] = count_primes(r);
        if (primes_in[r] == 0) continue;
        numbers++;
        tried += stops(1, r) + stops(2, r);
    }
    printf("%s r, ", grouped(numbers));
    printf("%s stops of both kinds, no difference\n\n", grouped(tried));
    printf("| Odd primes | How many r | Kind | Largest magnitude | at r | after divisors | Bits |\n|---|---|---|---|---|---|---|\n");
    for (unsigned primes = 1; primes <= 5; primes++)
        for (int kind = 1; kind <= 2; kind++) class_row(kind, primes);
    printf("\n| n | r | Primes | F: largest | after divisors | bits | I: largest | after divisors | bits |\n|---|---|---|---|---|---|---|---|---|\n");
    for (unsigned n = 3; n <= MOST; n++)
        if (primes_in[odd_part(n)] == 5) index_row(n, odd_part(n));
    return 0;
}
