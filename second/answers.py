"""What each request answers and writes, refusals too, read off docs/RULES.md.

A request gives its answer and the list of entries that it writes at the start of the buffer;
an empty list is an untouched buffer.
"""

from cascades import products
from cyclotomic import polynomial as made
from kept import additions, degree, half_degree, over_after, stops
from polynomials import height
from whole import divisors_below, odd_part, phi

DONE, KIND, INDEX, LIMIT, SHORT, OVER, TALL, STEP = range(8)
LIST = 16
MOST_INDEX = 65535
MOST_FACTORS = 8
MOST_DEGREE = 65535


def polynomial(kind, n, h, w, room):
    """(code, degree, additions, height, peak, gain), entries."""
    if kind not in (1, 2):
        return (KIND, 0, 0, 0, 0, 0), []
    if not 1 <= n <= MOST_INDEX:
        return (INDEX, 0, 0, 0, 0, 0), []
    if h < 1 or w < 1:
        return (LIMIT, 0, 0, 0, 0, 0), []
    top = degree(kind, n)
    if room < top + 1:
        return (SHORT, top, 0, 0, 0, 0), []
    r = odd_part(n)
    if over_after(kind, r, w) is not None:
        return (OVER, top, 0, 0, 0, 0), [0] * (top + 1)
    coefficients = made(kind, n)
    assert len(coefficients) == top + 1
    tallest = height(coefficients)
    if tallest > h:
        return (TALL, top, 0, 0, 0, 0), [0] * (top + 1)
    count = additions(kind, r, len(divisors_below(r)))
    peak = [abs(c) for c in coefficients].index(tallest)
    return (DONE, top, count, tallest, peak, sum(coefficients)), coefficients


def partial(kind, n, j, w, room):
    """(code, degree, additions, divisors due), entries."""
    if kind not in (1, 2):
        return (KIND, 0, 0, 0), []
    if not 1 <= n <= MOST_INDEX or odd_part(n) == 1:
        return (INDEX, 0, 0, 0), []
    r = odd_part(n)
    divisors = divisors_below(r)
    if j > len(divisors):
        return (STEP, 0, 0, 0), []
    if w < 1:
        return (LIMIT, 0, 0, 0), []
    top = half_degree(kind, r)
    if room < top + 1:
        return (SHORT, top, 0, 0), []
    taken = over_after(kind, r, w)
    if taken is not None and taken < j:
        return (OVER, top, 0, 0), [0] * (top + 1)
    return (DONE, top, additions(kind, r, j), len(divisors) - j), stops(kind, r)[j]


def cascade(indices, h, room, scratch):
    """(code, degree, additions, height, peak, gain), entries. The scratch is all zero wherever entries are written."""
    if not 1 <= len(indices) <= MOST_FACTORS:
        return (LIST, 0, 0, 0, 0, 0), []
    if not all(1 <= n <= MOST_INDEX for n in indices):
        return (INDEX, 0, 0, 0, 0, 0), []
    top = sum(map(phi, indices))
    if top > MOST_DEGREE:
        return (LIST, 0, 0, 0, 0, 0), []
    if h < 1:
        return (LIMIT, 0, 0, 0, 0, 0), []
    if room < top + 1 or scratch < max(map(phi, indices)) + 1:
        return (SHORT, top, 0, 0, 0, 0), []
    coefficients = products(tuple(indices))
    if coefficients is None:
        return (OVER, top, 0, 0, 0, 0), [0] * (top + 1)
    assert len(coefficients) == top + 1
    tallest = height(coefficients)
    if tallest > h:
        return (TALL, top, 0, 0, 0, 0), [0] * (top + 1)
    peak = [abs(c) for c in coefficients].index(tallest)
    return (DONE, top, 0, tallest, peak, sum(coefficients)), coefficients


def second(kind, n, h, room, scratch):
    """(code, degree, additions, height, peak, gain), entries. The scratch is all zero wherever entries are written. The
    polynomial is made by exact division, not by that engine's products, so nothing here can be out of range."""
    if kind not in (1, 2):
        return (KIND, 0, 0, 0, 0, 0), []
    if not 1 <= n <= MOST_INDEX:
        return (INDEX, 0, 0, 0, 0, 0), []
    if h < 1:
        return (LIMIT, 0, 0, 0, 0, 0), []
    top = degree(kind, n)
    if room < top + 1 or scratch < 2 * n + 16:
        return (SHORT, top, 0, 0, 0, 0), []
    coefficients = made(kind, n)
    assert len(coefficients) == top + 1
    tallest = height(coefficients)
    if tallest > h:
        return (TALL, top, 0, 0, 0, 0), [0] * (top + 1)
    peak = [abs(c) for c in coefficients].index(tallest)
    return (DONE, top, 0, tallest, peak, sum(coefficients)), coefficients
