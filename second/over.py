"""How large the values on the way grow: what the trial asks of every index with five odd primes, both kinds, every stop.

The kept halves are those of kept.py. r decides, so an index with the r of another gets the same figures.
`python3 second/over.py` prints for each kind and index the largest magnitude and the first stop that has it.
"""

from functools import lru_cache

from choice import FILLING, LARGEST_LIMIT, five_odd_primes
from kept import half_degree, stops
from polynomials import height
from whole import divisors_below, odd_part


@lru_cache(None)
def largest(kind, r):
    """The largest magnitude at any stop, and the first stop that has it."""
    heights = [height(half) for half in stops(kind, r)]
    return max(heights), heights.index(max(heights))


def kinds_and_indices():
    """Those of one r side by side."""
    for n in sorted(five_odd_primes(), key=lambda n: (odd_part(n), n)):
        for kind in (1, 2):
            yield kind, n, odd_part(n)


def cases():
    """Every stop at the largest working limit; the stop of the largest magnitude under a limit of that magnitude, and all
    divisors under one less."""
    for kind, n, r in kinds_and_indices():
        last = len(divisors_below(r))
        met, first = largest(kind, r)
        asked = [(j, LARGEST_LIMIT) for j in range(last + 1)] + [(first, met), (last, met - 1)]
        for j, w in asked:
            yield "partial", (kind, n, j, w), ([FILLING] * (half_degree(kind, r) + 4),)


if __name__ == "__main__":
    for kind, n, r in kinds_and_indices():
        print(kind, n, *largest(kind, r))
