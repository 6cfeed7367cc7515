"""The kept half of demand 3: the first j terms multiplied out as polynomials, cut after degree D.

A term is written out from its definition, 1 - z^d or 1 + z^d + z^(2d) + .., and the product is
that of polynomials.py. The divisors come from trial division.
"""

from functools import lru_cache

from polynomials import product
from whole import divisors_below, mu, phi


def degree(kind, n):
    return phi(n) if kind == 1 else n - phi(n)


def half_degree(kind, r):
    return degree(kind, r) // 2


def is_comb(kind, r, d):
    return (mu(r // d) == 1) == (kind == 1)


def term(kind, r, d):
    """The term of d, cut after degree D."""
    most = half_degree(kind, r)
    if is_comb(kind, r, d):
        return [1] + [-1 if i == d else 0 for i in range(1, most + 1)]
    return [1 if i % d == 0 else 0 for i in range(most + 1)]


@lru_cache(4)
def stops(kind, r):
    """The kept half after 0, 1, 2, .. divisors."""
    most = half_degree(kind, r)
    now = [1 if kind == 1 else -1] + [0] * most
    found = [now]
    for d in divisors_below(r):
        if d <= most:
            now = product(now, term(kind, r, d))[: most + 1]
        found.append(now)
    return found


def additions(kind, r, j):
    """Of the first j steps; a divisor above D counts nothing."""
    most = half_degree(kind, r)
    return sum(most + 1 - d for d in divisors_below(r)[:j] if d <= most)


def bound(kind, r):
    """No kept half passes this: each term multiplies the largest magnitude by at most the sum of its own."""
    most = half_degree(kind, r)
    total = 1
    for d in divisors_below(r):
        if d <= most:
            total *= 2 if is_comb(kind, r, d) else most // d + 1
    return total


@lru_cache(None)
def met(kind, r):
    """For each step the largest magnitude among its new values, those from place d on; 0 where there are none."""
    return [max(map(abs, now[d:]), default=0) for d, now in zip(divisors_below(r), stops(kind, r)[1:])]


def least_limit(kind, r):
    """The least working limit under which every step can be taken."""
    return max(1, *met(kind, r))


def over_after(kind, r, w):
    """How many steps can be taken before one makes a value above w in magnitude; None where all can."""
    if bound(kind, r) <= w:
        return None
    for taken, largest in enumerate(met(kind, r)):
        if largest > w:
            return taken
    return None
