"""The rescued shelf of rescue.c in Python, to the same output. Usage: rescue.py libbonvedrick.so, with the folder of
bonvedrick.py in PYTHONPATH"""

import sys
import tempfile

from bonvedrick import F, I, Bonvedrick, Refused

LOST = 100


def factor(kind, n):
    return bv.write(kind, n, bv.polynomial(kind, n)[0])


def filed(*records):
    """What a file of these records holds."""
    with tempfile.TemporaryFile() as file:
        for record in records:
            file.write(record)
        file.seek(0)
        return bytearray(file.read())


def browse(shelf):
    """Goes through a shelf, to its end or to a record that doesn't read."""
    try:
        for e in bv.records(shelf):
            print(f"  byte {e.start:5}: {'F' if e.kind == F else 'I'}({e.n}), {len(e.record)} bytes")
        print(f"  byte {len(shelf):5}: the end")
    except Refused as why:
        print(f"  byte {why.byte:5}: {why.name}")


def rescued(shelf):
    """The good records of a shelf in a file of their own; what is skipped is told."""
    kept, skipped = bv.rescue(shelf)
    print(f"rescued: {len(kept)} bytes kept, {len(skipped)} stretches skipped")
    for start, length in skipped:
        print(f"  byte {start:5}: {length} bytes")
    print(f"kept and skipped: {len(kept) + sum(length for _, length in skipped)} bytes")
    return filed(kept)


bv = Bonvedrick(sys.argv[1])
asked = (F, 7), (F, 21), (I, 21), (F, 15), (F, 105), (F, 40755), (F, 30)
records = {one: factor(*one) for one in asked}
starts = {one: sum(len(records[other]) for other in asked[:i]) for i, one in enumerate(asked)}
shelf = filed(*records.values())
print(f"a shelf of {len(shelf)} bytes")

shelf[starts[F, 21] + 12] ^= 4
shelf[starts[F, 15] + 2 : starts[F, 15] + 8] = b"\xaa" * 6
del shelf[starts[F, 40755] + 5000 : starts[F, 40755] + 5000 + LOST]
print(f"damaged: {len(shelf)} bytes")
browse(shelf)
try:
    bv.lookup(F, 105, shelf)
except Refused as why:
    print(f"F(105): {why.name} at byte {why.byte}")

try:
    bv.rescue(shelf, room=0, slots=0)
except Refused as why:
    print("rescued with no room:", why.name)
good = rescued(shelf)
browse(good)
record, found = bv.lookup(F, 105, good)
print(f"F(105): DONE, at byte {found.start}")
again = rescued(good)
print("the same:", "yes" if again == good else "no")
