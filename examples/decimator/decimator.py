"""The decimator of decimator.c in Python, to the same output. Usage: decimator.py libbonvedrick.so, with the folder of
bonvedrick.py in PYTHONPATH"""

import cmath
import sys

from bonvedrick import Bonvedrick, Refused

RATE, MAINS, BY, BITS, ROOM = 1800, 60, 8, 16, 32
INDICES = [2, 4, 8, RATE // MAINS]


def ask(h, room):
    """The cascade, no taller than h, in so many entries."""
    try:
        coeffs, answer = bv.cascade(INDICES, h, room, room)
        name, degree = "DONE", answer.degree
    except Refused as why:
        coeffs, answer, name, degree = None, None, why.name, why.degree
    print(f"height {h}, room {room:2}: {name}, degree {degree}")
    return coeffs, answer


def response(coeffs, hz):
    """How much of a frequency comes through."""
    z = cmath.exp(2j * cmath.pi * hz / RATE)
    return abs(sum(c * z**i for i, c in enumerate(coeffs)))


bv = Bonvedrick(sys.argv[1])
print(f"decimator by {BY} with a notch for {MAINS} Hz, at {RATE} samples a second: F(2) F(4) F(8) F({RATE // MAINS})")
ask(1, 0)
ask(1, ROOM)
coeffs, a = ask(2, ROOM)
print(f"height {a.height} at degree {a.peak}, gain {a.gain}")
print(*coeffs)
for hz in 0, 20, MAINS, RATE // 8, RATE // 4, 3 * RATE // 8, RATE // 2:
    print(f"{hz:4} Hz: {response(coeffs, hz):.3f}")
total = sum(map(abs, coeffs))
more = (total - 1).bit_length()  # how many bits hold the numbers from 0 to below so many
print(f"the magnitudes add up to {total}: samples of {BITS} bits come out in {BITS} + {more} = {BITS + more} bits")
