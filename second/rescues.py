"""A damaged shelf rescued: what is kept of it, which stretches are skipped, and what the trial asks of that.

What can be kept is known beforehand: for each kind and index it is one string of bytes, shelf.py's record of the
polynomial that exact division makes. So a shelf is searched for these strings, as wholes; no coefficient of it is read,
and it is not walked. What was found is then taken from left to right, and what lies between is what was skipped.

python3 second/rescues.py < SHELF writes what the program `rescue` must.
"""

import re
import sys
from functools import lru_cache

from cyclotomic import polynomial
from halves import FILLING, HALF, MOST_ROOM, TOP, both
from kept import degree
from shelf import changed, coefficients
from shelves import record, standing, stored

MARKED = re.compile(rb"(?=\xc9\x50)")
LISTED, ENTRY = 170, 77  # what each number of the list holds, and of the scratch
MOST_INPUT = 2000000  # bytes that the program holds


@lru_cache(None)
def right(kind, n):
    """The one record of a kind and an index that is kept."""
    return record(kind, n, polynomial(kind, n))


def marks(shelf):
    """Each place at which a record could start."""
    return [found.start() for found in MARKED.finditer(shelf)]


def keepable(shelf):
    """(start, end) of each place at which the shelf has the very bytes of such a record."""
    for at in marks(shelf):
        kind, n = shelf[at + 2:at + 3], int.from_bytes(shelf[at + 4:at + 6], "little")
        if kind in (b"\1", b"\2") and n > 0 and len(shelf) - at > 10 + degree(kind[0], n):
            if shelf.startswith(right(kind[0], n), at):
                yield at, at + len(right(kind[0], n))


def taken(shelf):
    """(start, end) of each record that is kept: of those that overlap, the first."""
    kept = []
    for start, end in keepable(shelf):
        if not kept or start >= kept[-1][1]:
            kept.append((start, end))
    return kept


def between(shelf, kept):
    """(start, length) of each stretch that is not kept."""
    ends, starts = [0] + [end for _, end in kept], [start for start, _ in kept] + [len(shelf)]
    return [(end, start - end) for end, start in zip(ends, starts) if start > end]


def most_tried(shelf, kept):
    """The most coefficients of a record that reads and starts anywhere but inside a kept one."""
    inside = {at for start, end in kept for at in range(start + 1, end)}
    reads = [standing(shelf[at:]) for at in marks(shelf) if at not in inside]
    return max((told[4] + 1 for told in reads if told[0] == 0), default=0)


def rescue(shelf, room, slots, scratch):
    """(code, kept, stretches), and what stands in the bytes lent and in the list, 65,536 at most, and in the scratch"""
    out, numbers = FILLING * min(room, MOST_ROOM), [LISTED] * min(slots, MOST_ROOM)
    kept = taken(shelf)
    records, skipped = b"".join(shelf[start:end] for start, end in kept), between(shelf, kept)
    told = [number for stretch in skipped for number in stretch]
    cleared = [0] * len(scratch)
    if len(out) < len(records) or len(numbers) < len(told) or len(scratch) < most_tried(shelf, kept):
        return (4, 0, 0), out, numbers, cleared
    return (0, len(records), len(skipped)), records + out[len(records):], told + numbers[len(told):], cleared


def program(shelf):
    """What the program `rescue` writes to standard output, and to standard error"""
    if len(shelf) > MOST_INPUT:
        return b"", b"rescue: more than %d bytes, nothing is written\n" % MOST_INPUT
    kept = taken(shelf)
    skipped = between(shelf, kept)
    return b"".join(shelf[a:b] for a, b in kept), b"".join(b"%d %d\n" % stretch for stretch in skipped)


def needed(shelf):
    """The bytes, the numbers and the entries that are just enough."""
    kept = taken(shelf)
    return sum(end - start for start, end in kept), 2 * len(between(shelf, kept)), most_tried(shelf, kept)


def asking(shelf, room=0, slots=0, entries=0):
    """With so many more than are just enough, or fewer."""
    enough = needed(shelf)
    room, slots, entries = (max(0, a + b) for a, b in zip(enough, (room, slots, entries)))
    return "rescue", (room, slots), ([ENTRY] * entries, shelf)


def header(kind, n, width):
    return stored(kind, n, width, [0] * (degree(kind, n) + 1))[:10]


F1, I1, F2, I2 = right(1, 1), right(2, 1), right(1, 2), right(2, 2)
F6, I6, F15, I15 = right(1, 6), right(2, 6), right(1, 15), right(2, 15)
SMALL = (I1, F1, F2, I2, F6, I6)

# A record that reads and is none that is kept, since its coefficients are others; F(6)'s own stand in that of F(13).
OTHERS = [record(1, 6, [1, -1, 2]), record(1, 6, [-1, 1, -1]), record(1, 6, [0, 0, 0]), record(2, 1, [-1]),
          record(1, 1, [1, -1]), record(2, 6, [1, 1, 0, -1, -1]), header(1, 13, 1) + F6]
# Wide ones: alike in their low bytes, or where only the first, the last or one in the midst is another.
OTHERS += [record(1, 6, coeffs) for width in (2, 4, 8) for low in [2**(4 * width)] for coeffs in (
    [1, low - 1, 1], [1 + low, -1, 1], [1, -1, 1 - low], [1 - low, -1 - low, 1 + low])]

# A record that doesn't read, with the right coefficients or without.
UNREAD = [changed(F6, wrong) for wrong in (
    (0, 0xc8), (1, 0x51), (2, 0), (2, 3), (3, 0), (3, 3), (3, 16), (4, 0), (4, 7), (5, 1), (6, 4), (7, 1), (9, 1),
    (10, 128), (12, 128))]
UNREAD += [stored(kind, n, width, polynomial(kind, n)) for kind, n in ((1, 6), (2, 1), (1, 1)) for width in (2, 4, 8)]
UNREAD += [stored(1, 6, width, [1, -2**(8 * width - 1), 1]) for width in (1, 2, 4, 8)]
UNREAD += [stored(1, 6, 8, [0, 2**31 - 1, 0]), stored(1, 6, 4, [0, 0, 0])]


def empty():
    """Nothing, and less than a header has, with rooms and with none."""
    for shelf in (b"", b"\xc9", b"\xc9\x50", b"\0", F6[:9], I1[:10], b"\xc9\x50" * 4):
        for room, slots, entries in ((0, 0, 0), (3, 0, 2), (0, 1, 0), (1, 3, 1), (2, -1, 0), (0, -2, 9)):
            yield asking(shelf, room, slots, entries)


def whole():
    """Nothing to be skipped: each small record by itself, all of them, and one that comes again."""
    shelves = [right(kind, n) for n in (1, 2, 3, 4, 5, 8, 9, 12, 15, 30) for kind in (1, 2)]
    for shelf in shelves:
        yield asking(shelf)
        yield asking(shelf, 1, 3, 2)
        yield asking(shelf, room=-1)
        yield asking(shelf, entries=-1)
    for shelf in (b"".join(SMALL), F6 * 3, I1 * 5, I15 + F15 + I15):
        yield asking(shelf)
        yield asking(shelf, room=-1)
        yield asking(shelf, entries=-1)
        yield asking(shelf, 2, 1, 70)


def rooms():
    """Each of the three rooms: none, one less, just enough, and more; of the list two less too. In all combinations."""
    some = [
        b"\7" + F6 + b"\7\7" + I1 + b"\7",  # three stretches
        I6 + b"\xc9\x50" + F2,  # one, in the midst
        OTHERS[6] + b"\7" + F1,  # the record that is tried first has most coefficients, and is skipped
        b"\7" * 5,  # all
        F6 + OTHERS[0] + F15,  # the last has most, and is kept
    ]
    for shelf in some:
        room, slots, entries = needed(shelf)
        for more in sorted({-room, -1, 0, 2}):
            for also in sorted({-slots, -2, -1, 0, 3}):
                for besides in sorted({-entries, -1, 0, 2}):
                    yield asking(shelf, more, also, besides)
    shelf = F6 + b"\7" + I6
    yield "rescue", (TOP, TOP), ([ENTRY] * 5, shelf)
    yield "rescue", (28, 2**32 + 2), ([ENTRY] * 65536, shelf)
    yield "rescue", (27, 2**32 + 1), ([ENTRY] * 65536, shelf)
    yield "rescue", (28, 65537), ([ENTRY] * 4, shelf)


def holes():
    """Bytes over others, lost and put in between: at the start, in the midst and at the end, of each length."""
    shelf = I6 + F6 + F15
    for length in (1, 2, 10, 14, 30):
        for at in (0, 1, len(I6) - 1, len(I6), len(I6) + 5, len(I6 + F6), len(shelf) - 1):
            for byte in (0, 0xc9):
                hole = bytes([byte]) * length
                yield asking(shelf[:at] + hole + shelf[at + length:], 0, 2 * (at % 2), at % 3)
                yield asking(shelf[:at] + hole + shelf[at:], at % 2)
            yield asking(shelf[:at] + shelf[at + length:])


def flipped():
    """Each byte of a small record another, between two that are good; the rooms as they would be if it were good."""
    for one in (F6, I1):
        for at in range(len(one)):
            for bits in (1, 0x80, 0xff):
                shelf = I6 + changed(one, (at, one[at] ^ bits)) + F2
                yield asking(shelf)
                yield "rescue", (len(I6 + F2), 2), ([ENTRY] * 5, shelf)


def cutting():
    """Cut at each place, from either end."""
    shelf = I1 + F6 + I6
    for at in range(len(shelf)):
        yield asking(shelf[:at])
        yield asking(shelf[at:], 1, 1, 1)


def inside():
    """Records in what was skipped: as the coefficients of one that reads and is another, of each width, at each place;
    with the entries for it, and with too few; one in another; and in what a header promises that is cut."""
    for width, n in ((1, 17), (2, 15), (4, 5), (8, 3)):
        size = width * (degree(1, n) + 1)
        for before in range(4):
            fake = header(1, n, width) + (b"\1" * before + F6).ljust(size, b"\1")
            yield asking(I1 + fake + I1)
            yield asking(I1 + fake + I1, entries=-1)
            yield asking(fake[:-width] + bytes(width - 1) + b"\x80" + I1)  # and it doesn't read
            yield asking(fake[:-1])
            yield asking(fake[:10 + before + len(F6)] + I1, entries=-1)
    twice = header(1, 23, 1) + OTHERS[6]
    for shelf in (twice, twice + F6, I6 + twice + twice, twice[:-1] + F6, OTHERS[6][:10] + F6 + F6):
        yield asking(shelf)
        yield asking(shelf, entries=-1)
    for kind, n in ((1, 65521), (2, 65520), (1, 65535), (1, 17), (2, 30)):
        head = header(kind, n, 1)
        yield asking(head + F6)
        yield asking(head + I6 + head + F6 + head)


def others():
    """A record that reads and is another, before, between and after those that are kept, with entries for it and
    without; and where one that is kept has more."""
    for i, other in enumerate(OTHERS):
        shelf = (other, I1 + other + I1, other + other + F1, I1 + other)[i % 4]
        yield asking(shelf)
        yield asking(shelf, entries=-1)
        yield "rescue", (9, 9), ([], other)
        yield asking(F15 + other + F15)
        yield asking(F15 + other + F15, entries=-1)


def unread():
    """A record that doesn't read, with no entries and with some, alone and between others; too wide ones among them."""
    for one in UNREAD:
        for shelf in (one, I1 + one + I1, one + I6):
            yield asking(shelf)
        yield asking(one + I6, entries=-1)
        yield asking(one + one, 1, 1, 2)


def marking():
    """Marks over and over, in part, one into the other, and right before a record."""
    many = b"\xc9\x50" * 100
    for shelf in (many, b"\xc9" * 60, b"\x50\xc9" * 30, F6[:4] * 20, F6[:10] * 12, I1[:10] * 9, many[:80] + F6):
        yield asking(shelf)
        yield asking(shelf + I1, slots=-1)
    for front in (b"\xc9", b"\x50", b"\xc9\x50", b"\xc9\x50\1", F6[:6], I1[:10], b"\xc9\xc9", b"\xc9\x50\xc9"):
        for shelf in (front + F6, F6 + front, F6 + front + I6, front * 3 + I1):
            yield asking(shelf)


def halved():
    """Half records, which are skipped; and one that has a mark of the other form, or the other's length."""
    for kind, n in ((1, 1), (2, 1), (1, 2), (1, 6), (2, 6), (1, 15)):
        one, half = both(kind, n, polynomial(kind, n))
        for shelf in (half, one + half + one, half + half, half + one, HALF + one[2:] + I1, one[:2] + half[2:]):
            yield asking(shelf)
        yield asking(one[:2] + half[2:] + b"\1" * 20)


def longer():
    """Long ones, kept, and with a coefficient changed at either end and in the midst; one of two bytes each."""
    for kind, n in ((1, 105), (2, 105), (1, 385), (2, 1155)):
        one = right(kind, n)
        shelf = F6 + one + I6
        yield asking(shelf)
        for more, also, besides in ((-1, 0, 0), (0, 0, -1), (0, 3, 65536 - degree(kind, n) - 1)):
            yield asking(shelf, more, also, besides)
        for at in (10, 11, len(one) // 2, len(one) - 1):
            yield asking(F6 + changed(one, (at, one[at] ^ 2)) + I6)
        yield asking(F6 + one[:-1] + I6, entries=-1)
    yield asking(b"\xc9" + right(1, 40755) + F6[:5])


def amply():
    """Rooms in which nothing can be refused, for some of the shelves of the others; and at the edge of that."""
    parts = (empty, whole, holes, flipped, cutting, inside, others, unread, marking, halved)
    shelves = dict.fromkeys(shelf for part in parts for _, _, (_, shelf) in part())
    for shelf in [*shelves][::6]:
        yield "rescue", (len(shelf), 2 * (len(shelf) // 11 + 1)), ([ENTRY] * 65536, shelf)
    for shelf in (b"\7", b"\7" * 10, b"\7" * 12, (b"\7" + I1) * 4 + b"\7", F15 + I6, I1 * 3, OTHERS[6] + F6):
        slots = 2 * (len(shelf) // 11 + 1)
        for less, fewer, entries in ((0, 0, 65535), (1, 0, 65536), (0, 1, 65536), (0, 2, 65536), (-2, -3, 65536)):
            yield "rescue", (len(shelf) - less, slots - fewer), ([ENTRY] * entries, shelf)
        yield "rescue", (len(shelf), slots), ([ENTRY] * max(0, most_tried(shelf, taken(shelf)) - 1), shelf)


def mixed():
    """Shelves of any records, some of them others, damaged or halved, in rooms about as large as needed, as a row of
    made-up numbers has it."""
    state = 1

    def below(end):
        nonlocal state
        state = state * 48271 % 2147483647
        return state // 7 % end

    for _ in range(120):
        parts = []
        for _ in range(1 + below(5)):
            kind, n = 1 + below(2), 1 + below(12)
            one = right(kind, n)
            if below(6) == 0:
                one = record(kind, n, coefficients(below(21), degree(kind, n) + 1))
            if below(8) == 0:
                one = UNREAD[below(len(UNREAD))]
            if below(4) == 0:
                one = changed(one, (below(len(one)), below(256)))
            if below(6) == 0:
                one = one[below(len(one)):]
            if below(6) == 0:
                one = one[:below(len(one) + 1)]
            if below(9) == 0:
                one = HALF + one[2:]
            parts.append(one)
        yield asking(b"".join(parts), *((0, -1, 1, 0, 2)[below(5)] if below(3) == 0 else 0 for _ in range(3)))


def damaged():
    """The shelf that the program is run on: all of these, one after another, and a long record."""
    return b"".join(shelf for _, _, (_, shelf) in mixed()) + right(2, 1155) + F6[:-1]


def cases():
    parts = (empty, whole, rooms, holes, flipped, cutting, inside, others, unread, marking, halved, longer, amply,
             mixed)
    for part in parts:
        yield from part()


if __name__ == "__main__":
    written, said = program(sys.stdin.buffer.read())
    sys.stdout.buffer.write(written)
    sys.stderr.buffer.write(said)
