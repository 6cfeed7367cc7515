"""Shelves, which are records one after another: what stands at a place of one, the first record of a kind and an index
in two, and what the trial asks of both.

A record reads where it is what shelf.py would write of the coefficients it holds. A shelf is taken apart into all its
records, up to its end or the first that doesn't read; then they are looked through.
"""

from itertools import permutations

from cyclotomic import polynomial
from kept import degree
from shelf import MARK, VALUES, changed, coefficients, write

OWN, HOUSE = 1, 2
TOP = 2**64 - 1


def standing(data):
    """(code, length, kind, n, degree) of the record that some bytes start with"""
    if len(data) < 10:
        return 8, 0, 0, 0, 0
    kind, width, n, count = data[2], data[3], int.from_bytes(data[4:6], "little"), int.from_bytes(data[6:10], "little")
    right = {
        9: data.startswith(MARK),
        12: kind in (1, 2),
        13: width in (1, 2, 4, 8),
        14: n > 0,
        15: kind in (1, 2) and n > 0 and count == degree(kind, n) + 1,
        8: len(data) >= 10 + count * width,
    }
    for code, good in right.items():
        if not good:
            return code, 0, 0, 0, 0
    record = data[:10 + count * width]
    held = [int.from_bytes(record[i:i + width], "little", signed=True) for i in range(10, len(record), width)]
    (code, *_), again = write(kind, n, held, bytes(len(record)))
    if code != 0 or again != record:
        return 11, 0, 0, 0, 0
    return 0, len(record), kind, n, count - 1


def browse(shelf, at):
    """(code, start, length, kind, n, degree) of what stands at a place"""
    if at >= len(shelf):
        return 0, len(shelf), 0, 0, 0, 0
    code, *told = standing(shelf[at:])
    return (code, at, *told)


def taken_apart(shelf):
    """(start, length, kind, n) of each record, and the code and the start of one that doesn't read."""
    records, at = [], 0
    while at < len(shelf):
        code, length, kind, n, _ = standing(shelf[at:])
        if code != 0:
            return records, [(code, at)]
        records.append((at, length, kind, n))
        at += length
    return records, []


def lookup(kind, n, own, house):
    """(code, byte, shelf, from, start, length)"""
    if kind not in (1, 2):
        return 1, 0, 0, 0, 0, 0
    if not 1 <= n <= 65535:
        return 2, 0, 0, 0, 0, 0
    for which, shelf in ((OWN, own), (HOUSE, house)):
        records, broken = taken_apart(shelf)
        found = [(start, length) for start, length, *asked in records if asked == [kind, n]]
        if found:
            return (0, 0, 0, which, *found[0])
        if broken:
            return (*broken[0], which, 0, 0, 0)
    return 17, 0, 0, 0, 0, 0


def record(kind, n, coeffs):
    (code, _, used, _), left = write(kind, n, coeffs, bytes(10 + 8 * len(coeffs)))
    assert code == 0
    return left[:used]


def stored(kind, n, width, coeffs):
    """A record of any width, right or not."""
    return (MARK + bytes([kind, width]) + n.to_bytes(2, "little") + len(coeffs).to_bytes(4, "little")
            + b"".join(c.to_bytes(width, "little", signed=True) for c in coeffs))


F6, I6, F15 = record(1, 6, [1, -1, 1]), record(2, 6, [-1, -1, 0, 1, 300]), record(1, 15, polynomial(1, 15))
F1, I1, OTHER = record(1, 1, [2**31 - 1, 0]), record(2, 1, [1 - 2**63]), record(1, 6, [5, 5, -128])
# 262 has the low byte of 6; F(13) holds F(6)'s record as its coefficients
F262, F13 = record(1, 262, polynomial(1, 262)), record(1, 13, [b - 256 * (b > 127) for b in F6])
GOOD = (I6, F6, F262, F1, OTHER, I1, F13)
ASKED = ((2, 6), (1, 6), (1, 262), (1, 1), (2, 1), (1, 13), (2, 13), (2, 262))

# F(6)'s record that doesn't read, in every way but that it is cut.
BROKEN = [changed(F6, *wrong) for wrong in (
    ((0, 0xc8),), ((1, 0x51),), ((2, 0),), ((2, 3),), ((3, 0),), ((3, 3),), ((4, 0),), ((4, 7),), ((6, 4),), ((9, 1),),
    ((10, 128),), ((12, 128),), ((2, 3), (3, 3)), ((3, 3), (4, 0)), ((4, 0), (6, 9)), ((1, 0), (2, 0)))]
BROKEN += [stored(1, 6, 2, [1, -1, 1]), stored(1, 6, 8, [0, 0, 0]), stored(1, 6, 8, [1, -2**63, 1])]


def ends(records):
    """Where each of some records on a shelf starts, and where the last ends."""
    return [sum(map(len, records[:i])) for i in range(len(records) + 1)]


def asking(kind, n, own, house):
    return "lookup", (kind, n, len(own)), (own + house,)


def browsing(shelf, at):
    return "browse", (at,), (shelf,)


def refusing():
    """KIND, then INDEX, before anything on a shelf; and empty shelves, of which more may be asked for than there is."""
    for own, house in ((b"", b""), (F6, I6), (BROKEN[0], F6), (F6[:5], F6[:12])):
        for kind, n in ((0, 6), (3, 0), (257, 6), (2**32 + 1, 6), (TOP, TOP)):
            yield asking(kind, n, own, house)
        for kind, n in ((1, 0), (2, 65536), (1, 65542), (2, 2**32 + 6), (1, TOP)):
            yield asking(kind, n, own, house)
    for m in (0, 1, TOP):
        yield "lookup", (1, 6, m), (b"",)
        yield "lookup", (1, 6, m), (F6,)
        yield "lookup", (2, 6, m), (F6,)
    yield "lookup", (2, 65535, TOP - 12), (I6 + F6,)


def holding():
    """Each record of a shelf, whole and shared out to two at each place where a record ends; and at every byte."""
    shelf = b"".join(GOOD)
    for kind, n in ASKED:
        for m in ends(GOOD):
            yield asking(kind, n, shelf[:m], shelf[m:])
    for m in range(len(F6 + I6 + I1) + 1):
        yield asking(2, 6, (F6 + I6 + I1)[:m], (F6 + I6 + I1)[m:])


def repeating():
    """The first counts: records of one kind and index, and another, in every order, on either shelf."""
    for order in permutations((F6, OTHER, I6, F15), 3):
        for m in ends(order):
            shelf = b"".join(order)
            yield asking(1, 6, shelf[:m], shelf[m:])


def breaking():
    """A record that doesn't read, before and after the one that is asked for, on either shelf; and as that very one."""
    for broken in BROKEN:
        for order in ((broken,), (I6, broken, F15), (F15, broken, I6), (I6, F15, broken)):
            shelf = b"".join(order)
            yield asking(1, 15, shelf, F15)
            yield asking(1, 15, I1, shelf)
        yield asking(1, 15, F15, broken)
        yield asking(1, 15, broken, broken)
        yield asking(1, 6, I6 + broken + F6, F6)
        yield asking(1, 6, I6, broken + F6)
        yield browsing(I6 + broken + F15, len(I6))


def cutting():
    """The last record cut at each length, in each width, on either shelf; and browsed."""
    for place, last in enumerate((F6, I6, F1, I1)):
        for end in range(len(last)):
            shelf = F15 + last[:end]
            yield asking(1, 9, *((shelf, last) if (place + end) % 2 else (F15, shelf)))
            yield browsing(shelf, len(F15))
        yield browsing(F15 + last, len(F15))


def widening():
    """Each value in each width that has room for it, at the first place and at the last, alone among small ones."""
    for width in (1, 2, 4, 8):
        for i, v in enumerate(v for v in VALUES if -2**(8 * width - 1) <= v < 2**(8 * width - 1)):
            one = stored(2, 15, width, [v, 1, -1, 0, 0, 0, 1, 0] if i % 2 else [0, 1, 0, 0, 0, -1, 1, v])
            yield asking(1, 6, *((one + F6, b"") if i % 2 else (I6, one + F6)))
            yield browsing(one, 0)


def placing():
    """Every place of a shelf, and past its end; places that are no place of it when cut to fewer bits."""
    shelf = F13 + F6 + I6
    for at in range(len(shelf) + 2):
        yield browsing(shelf, at)
    for at in ends((F13, F6, I6)):
        yield browsing(shelf[:-1], at)
    for at in (2**32, 2**32 + len(F13), 2**63, TOP - len(I6), TOP):
        yield browsing(shelf, at)
        yield browsing(b"", at)
    yield browsing(b"", 0)


def longer():
    """Polynomials, of which one needs two bytes; and records of some hundred coefficients with one at the end that is
    too large or makes the width right."""
    some = [(1, 105), (2, 1155), (1, 1155), (1, 385)]
    shelf = b"".join(record(kind, n, polynomial(kind, n)) for kind, n in some)
    for kind, n in (*some, (2, 105)):
        yield asking(kind, n, b"", shelf)
        yield asking(kind, n, shelf, b"")
    for width, low, right in ((1, -128, -127), (2, 127, 128), (4, 32767, -32768), (8, -2**63, 2**31)):
        for v in (low, right):
            for count, place in ((241, 240), (241, 0), (241, 117)):
                one = stored(1, 385, width, [v if i == place else i % 2 for i in range(count)])
                yield asking(1, 6, one, F6)


def mixed():
    """Shelves of any records, some damaged, shared out anywhere, by a rule that has no end."""
    state = 1

    def below(end):
        nonlocal state
        state = state * 48271 % 2147483647
        return state // 7 % end

    for _ in range(90):
        parts = []
        for _ in range(below(6)):
            kind, n = 1 + below(2), 1 + below(12)
            one = record(kind, n, coefficients(below(21), degree(kind, n) + 1))
            if below(8) == 0:
                one = changed(one, (below(len(one)), below(256)))
            parts.append(one)
        shelf = b"".join(parts)[:None if below(9) else -1]
        m = ends(parts)[below(len(parts) + 1)] if below(5) else below(len(shelf) + 1)
        yield asking(1 + below(2), 1 + below(12), shelf[:m], shelf[m:])
        yield browsing(shelf, m)


def cases():
    for some in (refusing, holding, repeating, breaking, cutting, widening, placing, longer, mixed):
        yield from some()
