"""F(n) and I(n) by exact division.

F(1) = z - 1. For a prime p that doesn't divide n, F(np) = F(n)(z^p) / F(n); for one that does,
F(np) = F(n)(z^p). I(n) = (z^n - 1) / F(n). No combs, no accumulators, no halves, no mirror.
"""

from functools import lru_cache

from whole import phi, primes
from polynomials import quotient, spread


@lru_cache(256)
def cyclotomic(n):
    if n == 1:
        return [-1, 1]
    p = primes(n)[-1]
    smaller = cyclotomic(n // p)
    larger = spread(smaller, p)
    found = larger if (n // p) % p == 0 else quotient(larger, smaller)
    assert len(found) == phi(n) + 1 and found[-1] == 1
    return found


@lru_cache(256)
def inverse(n):
    return quotient([-1] + [0] * (n - 1) + [1], cyclotomic(n))


def polynomial(kind, n):
    return cyclotomic(n) if kind == 1 else inverse(n)
