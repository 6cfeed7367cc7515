"""The halved shelf of halves.c in Python, to the same output. Usage: halves.py libbonvedrick.so, with the folder of
bonvedrick.py in PYTHONPATH"""

import mmap
import sys
import tempfile

from bonvedrick import F, I, Bonvedrick, Refused


def factor(kind, n, slip=0):
    """The record of a factor, with a number added to its last coefficient."""
    coeffs, _ = bv.polynomial(kind, n)
    coeffs[-1] += slip
    return bv.write(kind, n, coeffs)


def filed(records):
    """A file of these records, mapped."""
    with tempfile.TemporaryFile() as file:
        for record in records:
            file.write(record)
        file.flush()
        return mmap.mmap(file.fileno(), 0, access=mmap.ACCESS_READ)


def halved(shelf):
    """Each record as a half record, or as it is where its halves don't match."""
    for e in bv.records(shelf):
        print(f"  {'F' if e.kind == F else 'I'}({e.n}): {len(e.record)} bytes, ", end="")
        try:
            half, a = bv.to_half(e.record)
            print(f"halved {a.written}")
            yield half
        except Refused as why:
            print(f"{why.name}: kept as it is")
            yield e.record


def restored(shelf):
    """Each record as a whole one."""
    with memoryview(shelf) as view:
        at = 0
        while at < len(view):
            try:
                record, a = bv.to_whole(view[at:])
                at += a.read
            except Refused as why:
                if why.name != "MARK":
                    raise
                record = next(bv.records(view[at:])).record  # it is one that was kept
                at += len(record)
            yield record


bv = Bonvedrick(sys.argv[1])
shelf = filed([factor(F, 21), factor(I, 21), factor(F, 15, 1), factor(F, 40755), factor(F, 105)])
print(f"a shelf of {len(shelf)} bytes:")
half = filed(halved(shelf))
print(f"halved: {len(half)} bytes, {len(shelf) - len(half)} spared")

try:
    bv.read(half)
except Refused as why:
    print("its first record, read as a whole one:", why.name)
_, n, coeffs, _ = bv.read_half(half)
print(f"read as a half record: F({n}):", *coeffs)

again = filed(restored(half))
print(f"restored: {len(again)} bytes, the same: {'yes' if again[:] == shelf[:] else 'no'}")
