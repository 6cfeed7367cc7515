"""The shelves of shelf.c in Python, to the same output. Usage: shelf.py libbonvedrick.so, with the folder of
bonvedrick.py in PYTHONPATH"""

import cmath
import mmap
import sys
import tempfile

from bonvedrick import F, I, OWN, Bonvedrick, Refused

RATE, MAINS = 1050, 50
N = RATE // MAINS


def mapped(*factors):
    """A file of these factors, each coefficient times a number, and mapped: what is changed there doesn't reach it."""
    with tempfile.TemporaryFile() as file:
        for kind, n, times in factors:
            file.write(bv.write(kind, n, [times * c for c in bv.polynomial(kind, n)[0]]))
        file.flush()
        return mmap.mmap(file.fileno(), 0, access=mmap.ACCESS_COPY)


def letter(kind):
    return "F" if kind == F else "I"


def browse(shelf):
    """Each record of a shelf, up to its end or one that doesn't read."""
    at = 0
    try:
        for e in bv.records(shelf):
            print(f"  byte {e.start:5}: {letter(e.kind)}({e.n}), degree {e.degree}, {len(e.record)} bytes")
            at = e.start + len(e.record)
        print(f"  byte {at:5}: the end")
    except Refused as why:
        print(f"  byte {why.byte:5}: {why.name}")


def response(coeffs, hz):
    """How much of a frequency comes through."""
    z = cmath.exp(2j * cmath.pi * hz / RATE)
    return abs(sum(c * z**i for i, c in enumerate(coeffs)))


def name(shelf):
    return "own" if shelf == OWN else "house"


def find(kind, n, own, house):
    """Finds a factor, and uses its coefficients."""
    print(f"{letter(kind)}({n}): ", end="")
    try:
        record, f = bv.lookup(kind, n, own, house)
        _, _, coeffs, _ = bv.read(record)
        level, hum = response(coeffs, 0), response(coeffs, MAINS)
        print(f"{name(f.from_)} shelf, byte {f.start}: level times {level:.3f}, hum times {hum:.3f}")
    except Refused as why:
        where = f" at byte {why.byte} of the {name(why.shelf)} shelf" if why.shelf else ""
        print(why.name + where)


bv = Bonvedrick(sys.argv[1])
house = mapped((F, 7, 1), (F, N, 1), (I, N, 1), (F, 40755, 1), (F, 105, 1))
own = mapped((F, N, 4))

print("the house shelf:")
browse(house)
print(f"notch for {MAINS} Hz at {RATE} samples a second, with no shelf of one's own:")
find(F, N, b"", house)
print("with one's own:")
find(F, N, own, house)
find(I, N, own, house)
find(F, 11, own, house)

house[20] = 3
print(f"3 as the width of the house's F({N}):")
browse(house)
find(F, 7, own, house)
find(F, 105, own, house)
try:
    bv.read(memoryview(house)[17:])
except Refused as why:
    print(f"read from there: {why.name}, byte {why.byte} of the record")

print("one's own a byte short:")
find(F, 7, memoryview(own)[:-1], house)
