"""Whole-number polynomials as lists, lowest degree first: product and exact division, checked.

A polynomial is packed into one whole number by putting 2^w for z (Kronecker), so python's own
integers do the work. Nothing is believed of w: a quotient is multiplied back, in slots that are
wide enough by a bound, and w doubles until the product is right.
"""

from array import array

TYPES = {8: "B", 16: "H", 32: "I", 64: "Q"}
WIDTHS = (*TYPES, 128)
WORD = (1 << 64) - 1


def slots(values, width):
    """Values from 0 on, each below 2^width, side by side as one whole number."""
    if width == 128:
        values, width = [part for v in values for part in (v & WORD, v >> 64)], 64
    return int.from_bytes(array(TYPES[width], values).tobytes(), "little")


def packed(coefficients, width):
    """The value at z = 2^width; every coefficient lies below 2^width in magnitude."""
    above = slots([c if c > 0 else 0 for c in coefficients], width)
    return above - slots([-c if c < 0 else 0 for c in coefficients], width)


def unpacked(value, count, width):
    """The count coefficients, each from -2^(width-1) to 2^(width-1) - 1, whose value this is."""
    half = 1 << (width - 1)
    value += packed([half] * count, width)
    digits = array(TYPES[min(width, 64)])
    digits.frombytes(value.to_bytes(count * width // 8, "little"))
    if width == 128:
        digits = [low + (high << 64) for low, high in zip(digits[::2], digits[1::2])]
    return [digit - half for digit in digits]


def height(coefficients):
    return max(abs(c) for c in coefficients)


def width_for(bound):
    """The least width whose slots hold every number up to the bound in magnitude."""
    for width in WIDTHS:
        if bound < 1 << (width - 1):
            return width
    raise OverflowError("no slot of 128 bits or fewer holds " + str(bound))


def product(a, b):
    """a times b. No coefficient passes one factor's height times the sum of the other's magnitudes."""
    bound = min(height(a) * sum(map(abs, b)), height(b) * sum(map(abs, a)))
    width = width_for(max(bound, height(a), height(b)))
    return unpacked(packed(a, width) * packed(b, width), len(a) + len(b) - 1, width)


def quotient(a, b):
    """a / b where b divides a; anything else is an error."""
    count = len(a) - len(b) + 1
    width = max(16, width_for(max(height(a), height(b))))
    while width <= 64:
        value, rest = divmod(packed(a, width), packed(b, width))
        if rest == 0:
            try:
                found = unpacked(value, count, width)
            except OverflowError:
                found = [0]
            if product(found, b) == a:
                return found
        width *= 2
    raise ArithmeticError("not an exact division")


def spread(a, t):
    """z^t put for z."""
    out = [0] * ((len(a) - 1) * t + 1)
    out[::t] = a
    return out
