"""The response of response.c in Python, to the same output. Usage: response.py libbonvedrick.so, with the folder of
bonvedrick.py in PYTHONPATH"""

import cmath
import sys

from bonvedrick import F, Bonvedrick, Refused

RATE, MAINS, STEP = 1050, 50, 25


def exactly(n, name, point):
    """The value at one of the four points, which is a whole number in each part."""
    value = bv.response(bv.polynomial(F, n)[0], point)
    print(f"F({n}) at {name}: {int(value.real)}, {int(value.imag)}")


def code(coeffs, point):
    try:
        bv.response(coeffs, point)
        return "DONE"
    except Refused as why:
        return why.name


bv = Bonvedrick(sys.argv[1])
coeffs, _ = bv.polynomial(F, RATE // MAINS)
print(f"F({RATE // MAINS}) at {RATE} samples a second")
for hz in range(0, RATE // 2 + 1, STEP):
    print(f"{hz:4} Hz: {abs(bv.response(coeffs, cmath.exp(2j * cmath.pi * hz / RATE))):.3f}")
exactly(RATE // MAINS, "1", 1)
exactly(9, "1", 1)
exactly(1, "1", 1)
exactly(2, "-1", -1)
exactly(4, "i", 1j)
exactly(4, "-i", -1j)
exactly(3, "i", 1j)

large = [1, 2**53, 2**53 + 1]
print("at 1.5:", code(large, 1.5))
print("2^53 as a coefficient:", code(large[:2], 0.5))
print("2^53 + 1:", code(large, 0.5))
