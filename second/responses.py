"""The response at a point, by whole numbers: each operation exactly, then rounded once; and what the trial asks of it.

Every finite binary64 number is a whole multiple of 2^-1074. So a number here is a sign and that whole number, and no
float of the machine's is used: sums and products are python's, and `rounded` is the only rounding. An infinity is a
sign and INFINITE, the multiple that 2^1024 would be, and NAN is its own.

python3 second/responses.py holds the three operations to the machine's.
"""

import random
import struct

from cyclotomic import polynomial

UNIT = 1074
INFINITE = 1 << (1024 + UNIT)
NAN = None
ZERO = (0, 0)
ONE = 1 << UNIT
EXACT = 2**53  # the largest magnitude of a coefficient


def decoded(pattern):
    """The number of a 64-bit pattern."""
    sign, exponent, fraction = pattern >> 63, pattern >> 52 & 2047, pattern & (1 << 52) - 1
    if exponent == 2047:
        return NAN if fraction else (sign, INFINITE)
    return sign, fraction if exponent == 0 else (1 << 52 | fraction) << exponent - 1


def encoded(number):
    """Its pattern; that of every NAN is one."""
    if number is NAN:
        return 0x7FF8 << 48
    sign, whole = number
    exponent = max(0, whole.bit_length() - 53)  # a subnormal's is that of the least normal one
    return sign << 63 | (exponent << 52) + (whole >> exponent)


def rounded(exact, finer):
    """The number nearest to a magnitude that is a multiple of 2^-(1074 + finer): of two, the even one."""
    dropped = max(exact.bit_length() - 53, finer)
    kept = exact >> dropped
    twice, one = 2 * (exact - (kept << dropped)), 1 << dropped
    kept += twice > one or twice == one and kept % 2
    return min(kept << dropped - finer, INFINITE)


def total(a, b):
    if a is NAN or b is NAN:
        return NAN
    (sign, whole), (other, more) = a, b
    if INFINITE in (whole, more):
        return NAN if whole == more and sign != other else a if whole == INFINITE else b
    exact = (-whole if sign else whole) + (-more if other else more)
    if exact == 0:
        return sign & other, 0  # -0 where both are
    return int(exact < 0), rounded(abs(exact), 0)


def difference(a, b):
    return total(a, b and (1 - b[0], b[1]))


def product(a, b):
    if a is NAN or b is NAN:
        return NAN
    (sign, whole), (other, more) = a, b
    if INFINITE in (whole, more):
        return (sign ^ other, INFINITE) if whole and more else NAN
    return sign ^ other, rounded(whole * more, UNIT)


def within(part):
    return part is not NAN and part[1] <= ONE


def response(coeffs, real, imag):
    """(code, pattern of the real part, and of the imaginary one) at the point of two patterns"""
    x, y = decoded(real), decoded(imag)
    if not (within(x) and within(y)):
        return 19, 0, 0
    if any(abs(c) > EXACT for c in coeffs):
        return 20, 0, 0
    a, b = ZERO, ZERO
    for c in reversed(coeffs):
        turned = difference(product(a, x), product(b, y))
        a, b = total(turned, (int(c < 0), abs(c) << UNIT)), total(product(a, y), product(b, x))
    return 0, encoded(a), encoded(b)


# What the trial asks: patterns of parts, by name.
MINUS = 1 << 63
P_ONE, P_HALF = encoded((0, ONE)), encoded((0, ONE >> 1))
BELOW_ONE, ABOVE_ONE = P_ONE - 1, P_ONE + 1
LEAST_NORMAL = 1 << 52
P_INFINITE = 0x7FF << 52
NANS = (0x7FF8 << 48, 0xFFF8 << 48, P_INFINITE | 1, MINUS | P_INFINITE | 1, 2**64 - 1, 2**63 - 1)
OUTSIDE = (ABOVE_ONE, MINUS | ABOVE_ONE, 1 << 62, P_INFINITE - 1, P_INFINITE, MINUS | P_INFINITE, *NANS)
UNITS = ((P_ONE, 0), (MINUS | P_ONE, 0), (0, P_ONE), (0, MINUS | P_ONE))
ZEROS = (0, MINUS)
LEAST = -(2**63)


def power(k):
    """The pattern of 2^k."""
    return encoded((0, 1 << k + UNIT))


def asking(coeffs, real, imag):
    return "response", (real, imag), (list(coeffs),)


def refused():
    """Each part outside with the other inside, on its edge or outside; coefficients at the edge at each place; POINT
    before COARSE; and no coefficient."""
    inside = (0, MINUS, P_ONE, MINUS | P_ONE, BELOW_ONE, MINUS | BELOW_ONE, 1, P_HALF)
    for i, part in enumerate(OUTSIDE):
        other = inside[i % len(inside)]
        for coeffs in ([], [1, -1, 1], [EXACT + 1, 2]):
            yield asking(coeffs, part, other)
            yield asking(coeffs, other, part)
        yield asking([5, LEAST], part, OUTSIDE[-1 - i])
        yield asking([5], part, part)
    for part in inside:
        for other in inside:
            yield asking([], part, other)
        yield asking([7, -3], part, inside[3])
        yield asking([7, -3, 2], inside[2], part)
    for edge in (EXACT, EXACT + 1, EXACT + 2, 2**54, 2**62, 2**63 - 1):
        for c in (edge, -edge, -edge - 1):
            for coeffs in ([c], [c, 1, 2], [1, c, 2], [1, 2, c], [c, -c if c != LEAST else 0]):
                yield asking(coeffs, P_HALF, P_ONE)
    for many in (3, 2048, 65535, 65536):
        yield asking([EXACT + 1] * many, P_ONE, P_ONE)
        yield asking([EXACT + 1] * many, ABOVE_ONE, P_ONE)


def zeros():
    """Signs of zero: coefficients of 0 and some that cancel, at points with parts of 0 and -0."""
    slices = ([0], [0, 0], [0, 0, 0], [5], [-5], [0, 5], [0, -5], [0, 0, -1], [-1, 1], [1, -1, 1, -1], [0, 3, 0])
    points = [(x, y) for x in (*ZEROS, P_ONE, MINUS | P_ONE) for y in (*ZEROS, P_HALF, MINUS | P_HALF)]
    points += [(x, y) for x in (P_HALF, MINUS | P_HALF) for y in ZEROS]
    for coeffs in slices:
        for point in points:
            yield asking(coeffs, *point)


def tiny():
    """Subnormal parts, and products that become subnormal, by a tie or not, or 0."""
    parts = (1, 2, 3, LEAST_NORMAL - 1, LEAST_NORMAL, LEAST_NORMAL + 1, power(-537), power(-538), power(-512) + 1)
    for i, part in enumerate(parts):
        for coeffs in ([0, 1], [0, -3], [0, 0, EXACT], [1, 1], [0, 5, EXACT - 1]):
            yield asking(coeffs, part, 0)
            yield asking(coeffs, MINUS | part, parts[-1 - i])
            yield asking(coeffs, P_HALF, part)
    for c in range(1, 13):  # in quarters of the least number
        yield asking([0, 0, c], power(-538), 0)
        yield asking([0, 0, -c], 0, power(-538))
        yield asking([0, 0, 0, c], power(-358), MINUS | power(-359))
    for c in (EXACT - 1, EXACT - 2, EXACT - 3, 2**52 + 1, 3 * 2**51 + 2):  # rounded to a subnormal
        yield asking([0, 0, c], power(-562), 0)
        yield asking([0, 0, 0, c], power(-375), power(-376))


def ties():
    """Sums and products that end half way between two numbers, and next to it."""
    ends = (1, 2, 3, 5, -1, -3, EXACT - 1, -EXACT, 0)
    for high in (EXACT, EXACT - 1, EXACT - 2, -EXACT, 2**52 + 1):
        for low in ends:
            yield asking([low, high], P_ONE, 0)
        yield asking([3, 1, high], P_ONE, P_ONE)
        yield asking([high, 3, -5, high], MINUS | P_ONE, P_ONE)
        yield asking([1, high, 1, high], BELOW_ONE, MINUS | BELOW_ONE)
        yield asking([7, high, -high], P_HALF + 1, P_HALF | 1 << 51)
    half = 2**52
    for coeffs in ([half, half], [half // 2, -half // 2, half], [1, EXACT - 1], [EXACT, 0], [-EXACT], [half, 0, -half]):
        for point in UNITS:
            yield asking(coeffs, *point)


def whole():
    """Polynomials at 1, -1, i and -i, of which some are zeros of theirs; and with -0 for 0."""
    for n in (1, 2, 3, 4, 5, 6, 8, 9, 12, 15, 16, 30, 36, 105, 210):
        for kind in (1, 2):
            for real, imag in UNITS:
                yield asking(polynomial(kind, n), real, imag)
            if n < 10:
                yield asking(polynomial(kind, n), real | MINUS, imag)
    for many in (2, 3, 1000, 65535, 65536):
        for point in UNITS:
            yield asking([1 + many % 2] * many, *point)


def sine(angle, digits):
    """The sine of angle / 2^digits, as a multiple of 2^-digits, a little off."""
    term, found, k = angle, 0, 1
    while term:
        found, term, k = found + term, -(term * angle >> digits) * angle // (k + 1) // (k + 2) >> digits, k + 2
    return found


def quarter(digits):
    """A quarter of a turn, as `sine` takes it: pi / 2 = 2 (4 arc tan 1/5 - arc tan 1/239)"""
    def arc(q):
        return sum((-1) ** k * (1 << digits) // ((2 * k + 1) * q ** (2 * k + 1)) for k in range(digits // 4))

    return 2 * (4 * arc(5) - arc(239))


def turned(k, n, digits=256):
    """The patterns of the numbers nearest to cosine and sine of k/n of a turn."""
    def part(quarters):
        """Of so many n-ths of a quarter turn."""
        quarters %= 4 * n
        sign, quarters = int(quarters >= 2 * n), quarters % (2 * n)
        value = sine(quarter(digits) * min(quarters, 2 * n - quarters) // n, digits)
        return encoded((sign if value else 0, rounded(value << UNIT - digits, 0)))

    return part(4 * k + n), part(4 * k)


def circle():
    """Points of the unit circle: F(n) at its zeros and between, and I(n)."""
    for n in (3, 5, 7, 12, 15, 21, 30, 105):
        for k in (1, 2, 3, n // 2, n - 1):
            yield asking(polynomial(1, n), *turned(k, n))
            yield asking(polynomial(1, n), *turned(2 * k + 1, 2 * n))
            yield asking(polynomial(2, n), *turned(k, n))
    for many in (21, 1050, 65536):
        for k in (1, 50, 149):
            yield asking([1] * many, *turned(k, 1050))


def infinite():
    """Lengths at which the parts pass the largest number, one and then the other, and what becomes of infinities."""
    for real in (P_ONE, MINUS | P_ONE):
        for imag in (P_ONE, MINUS | P_ONE):
            for many in range(1938, 1948):
                yield asking([EXACT] * many, real, imag)
                yield asking([-EXACT] * many, real, imag)
    for point in ((P_ONE, BELOW_ONE), (BELOW_ONE, P_ONE), (BELOW_ONE, MINUS | BELOW_ONE), (P_ONE, P_ONE - 2**46)):
        for many in range(1940, 1950):
            yield asking([EXACT - 1] * many, *point)
    for many in (2046, 2047, 2048, 2049, 2050, 65536):
        yield asking([1] * many, P_ONE, P_ONE)
        yield asking([-1] * many, MINUS | P_ONE, P_ONE)
        yield asking([EXACT] * many, P_ONE, 0)


def mixed():
    """Any coefficients at any point, as a row of made-up numbers has it."""
    state = 1

    def below(end):
        nonlocal state
        state = (state * 0xDA942042E4DD58B5 + 1) % 2**128
        return (state >> 64) % end

    for _ in range(9):
        below(1)  # the first ones are small

    def part():
        sort = below(8)
        if sort == 0:
            return (P_ONE, MINUS | P_ONE, 0, MINUS, BELOW_ONE, ABOVE_ONE, 1, P_HALF)[below(8)]
        exponent = 1022 - below(4) if sort > 2 else 1022 - below(60) if sort == 2 else below(1023)
        return below(2) << 63 | exponent << 52 | below(1 << 52)

    for _ in range(220):
        bits = (2, 4, 10, 31, 53)[below(5)]
        coeffs = [below(1 << bits + 1) - (1 << bits) for _ in range(1 + below(12))]
        if below(12) == 0:
            coeffs[below(len(coeffs))] = (EXACT + 1, -EXACT - 1, EXACT, LEAST)[below(4)]
        yield asking(coeffs, part(), part())


def cases():
    for part in (refused, zeros, tiny, ties, whole, circle, infinite, mixed):
        yield from part()


def told(pattern):
    """The machine's number of a pattern."""
    return struct.unpack("<d", struct.pack("<Q", pattern))[0]


def pattern_of(machine):
    return encoded(decoded(struct.unpack("<Q", struct.pack("<d", machine))[0]))


def any_pattern(some):
    """A number of one of these sorts: at an edge, any, near 1, with few bits, of products about the least."""
    edges = (0, 1, LEAST_NORMAL, BELOW_ONE, P_ONE, power(53), power(1023), P_INFINITE - 1, P_INFINITE, NANS[0])
    few = some.getrandbits(4) << some.randrange(49)
    sorts = (some.choice(edges), some.getrandbits(63), some.randrange(1000, 1050) << 52 | some.getrandbits(52),
             some.getrandbits(some.randrange(1, 54)), some.randrange(490, 540) << 52 | few)
    return some.choice(sorts) | some.getrandbits(1) << 63


def held(rounds):
    """Sums, differences and products of so many pairs, some of which are next to each other."""
    some = random.Random(1)
    for _ in range(rounds):
        a = any_pattern(some)
        b = some.choice((any_pattern(some), (a ^ MINUS) + some.randrange(-1, 2) & 2**64 - 1))
        x, y = told(a), told(b)
        for ours, machine in ((total, x + y), (difference, x - y), (product, x * y)):
            assert encoded(ours(decoded(a), decoded(b))) == pattern_of(machine), (ours.__name__, x.hex(), y.hex())
    return 3 * rounds


if __name__ == "__main__":
    print(held(100000), "operations, no difference")
