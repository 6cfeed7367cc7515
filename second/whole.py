"""Facts on whole numbers, each by its own definition: counting, trial division, greatest common divisor."""

from functools import lru_cache
from math import gcd


@lru_cache(None)
def phi(n):
    """How many numbers from 1 to n share no factor above 1 with n."""
    return sum(1 for k in range(1, n + 1) if gcd(k, n) == 1)


@lru_cache(None)
def primes(n):
    """The distinct primes of n, ascending."""
    found = []
    p = 2
    while n > 1:
        if p * p > n:
            p = n
        if n % p == 0:
            found.append(p)
        while n % p == 0:
            n //= p
        p += 1
    return tuple(found)


def odd_part(n):
    """r: the product of n's distinct odd primes."""
    r = 1
    for p in primes(n):
        if p != 2:
            r *= p
    return r


@lru_cache(None)
def divisors_below(r):
    """The divisors of r below r, ascending."""
    return tuple(d for d in range(1, r) if r % d == 0)


def mu(m):
    """Of a product of distinct primes: +1 for an even number of them, -1 for an odd number."""
    return -1 if len(primes(m)) % 2 else 1
