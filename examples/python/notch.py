"""A mains notch in Python. At 1050 samples a second 50 Hz is one turn in 21 samples, so F(21) stops it and I(21) is
what it leaves over: the two together are the plain comb z^21 - 1. At the end, a larger one: which registers of a chip
its steps fit, and which step is the first that does not. Usage: notch.py libbonvedrick.so"""

import cmath
import sys

from bonvedrick import F, I, Bonvedrick, Refused, registers

RATE, MAINS = 1050, 50
N = RATE // MAINS
LARGE, BITS = 15015, 20


def product(a, b):
    c = [0] * (len(a) + len(b) - 1)
    for i, x in enumerate(a):
        for j, y in enumerate(b):
            c[i + j] += x * y
    return c


def response(coeffs, hz):
    """How much of a frequency comes through."""
    z = cmath.exp(-2j * cmath.pi * hz / RATE)
    return abs(sum(c * z**i for i, c in enumerate(coeffs)))


def told(ask, *arguments, **named):
    try:
        return ask(*arguments, **named)
    except (Refused, OverflowError) as why:
        return why


def fits(ask, *arguments, bits):
    """Whether all that the steps make fits such registers."""
    outcome = told(ask, *arguments, w=registers(bits))
    return not isinstance(outcome, Refused) or outcome.name != "OVER"


bv = Bonvedrick(sys.argv[1])
f, a = bv.polynomial(F, N)
print(f"notch for {MAINS} Hz at {RATE} samples a second: F({N}), {a.additions} additions, gain {a.gain}")
print(*f)
for hz in 0, 50, 100, 150, 200:
    print(f"{hz:4} Hz: {response(f, hz):.3f}")
i, _ = bv.polynomial(I, N)
print(f"F({N}) I({N}) = z^{N} - 1:", product(f, i) == [-1] + [0] * (N - 1) + [1])
print(f"F({N}) by the second engine, the same:", bv.second(F, N)[0] == f)
nine, b = bv.polynomial(F, 9)
print(f"F(9): {' '.join(map(str, nine))}, gain {b.gain}")
tall, c = bv.polynomial(F, 105)
print(f"F(105): height {c.height}, first at degree {c.peak}, where {tall[c.peak]} stands")
half, stop = bv.partial(F, N, 1)
print(f"lower half after 1 divisor, {stop.due} due:", *half)
print("comb of size 2:      ", *bv.comb(2, [1, 2, 3, 4, 5]))
print("accumulate of size 2:", *bv.accumulate(2, bv.comb(2, [1, 2, 3, 4, 5])))
record = bv.write(F, N, f)
print("record:", record.hex(" "))
print("read back:", bv.read(record) == (F, N, f, len(record)))
half, _ = bv.to_half(record)
print("half record:", half.hex(" "))
print("rebuilt:", bv.read_half(half) == (F, N, f, len(half)))
print("converted back:", bv.to_whole(half)[0] == record)
print("kind 3:", told(bv.polynomial, 3, N))
print("F(0):", told(bv.polynomial, F, 0))
print("F(2^64 + 21):", told(bv.polynomial, F, 2**64 + 21))
print("F(105) of height 1:", told(bv.polynomial, F, 105, 1))
print("a step of size 0:", told(bv.comb, 0, []))
print("a comb on nothing:", bv.comb(1, []))
print("a record that was cut:", told(bv.read, record[:15]))
print("a half record, read as a whole one:", told(bv.read, half))
print("2 as its last coefficient, halved:", told(bv.to_half, record[:-1] + b"\2"))
kept, skipped = bv.rescue(record + record[:-1] + b"\2" + record + record[:15])
print(f"a shelf with that one and a cut one, rescued: {len(kept)} bytes, skipped {skipped}")
for at, byte in (2, 3), (3, 0), (4, 0), (6, 12):
    print(f"{byte} at byte {at}:", told(bv.read, record[:at] + bytes([byte]) + record[at + 1:]))
print("a coefficient too few:", told(bv.write, F, N, f[1:]))
print("a comb past a working limit of 4:", told(bv.comb, 1, [100, 1, 4], w=4))
print("the old entries may be past it:", *bv.comb(1, [100, 101, 102], w=4))
print(f"I({LARGE}) in registers of {BITS} bits:", told(bv.polynomial, I, LARGE, w=registers(BITS)))
first = next(j for j in range(1, 32) if not fits(bv.partial, I, LARGE, j, bits=BITS))
print("the first step that doesn't fit:", first)
least = next(bits for bits in range(2, 65) if fits(bv.polynomial, I, LARGE, bits=bits))
print("the least registers that do:", least, "bits")
