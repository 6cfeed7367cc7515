"""A census of heights: which heights F has from one index to another, and what the trial asks of that.

The heights are those of the polynomials that exact division makes. For a prime that divides n, F(np) = F(n)(z^p) has
the coefficients of F(n), so an index has the height of the product of its primes. All of them are known before one is
counted; then each height is taken by itself, with every index that has it.

python3 second/censuses.py < INPUT prints what the program `census` must.
"""

import re
import sys
from functools import lru_cache
from math import prod

from cyclotomic import cyclotomic
from kept import additions
from polynomials import height
from whole import divisors_below, odd_part, primes

DONE, SHORT, RANGE, ROWS = 0, 4, 21, 22
LAST, ENTRIES = 4095, 4096
LISTED, ENTRY = 170, 77  # what each number of the rows holds, and of the entries
MOST_SLOTS = 65536  # that are lent
TOP, LEAST = 2**64 - 1, -(2**63)
LINE = re.compile(rb"([0-9]{1,9}) ([0-9]{1,9})")
LENT = 3 * 64  # by the program
INPUT = b"1 4095\n"  # that the program is run on


@lru_cache(None)
def squarefree_height(m):
    return height(cyclotomic(m))


@lru_cache(None)
def height_of(n):
    return squarefree_height(prod(primes(n)))


@lru_cache(None)
def additions_of(n):
    """What a request for F(n) answers as its additions."""
    r = odd_part(n)
    return additions(1, r, len(divisors_below(r)))


def rows_of(a, b):
    """(height, smallest index, how many indices), by ascending height."""
    having = {n: height_of(n) for n in range(a, b + 1)}
    groups = [(tall, [n for n in having if having[n] == tall]) for tall in sorted(set(having.values()))]
    return [(tall, min(group), len(group)) for tall, group in groups]


def census(a, b, slots, work):
    """(code, rows, additions), and what stands in the numbers lent for the rows, 65,536 at most, and in the entries"""
    numbers = [LISTED] * min(slots, MOST_SLOTS)
    if not 1 <= a <= b <= LAST:
        return (RANGE, 0, 0), numbers, work
    if len(work) < ENTRIES:
        return (SHORT, 0, 0), numbers, work
    cleared = [0] * ENTRIES + work[ENTRIES:]
    told = [number for row in rows_of(a, b) for number in row]
    if len(numbers) < len(told):
        return (ROWS, 0, 0), numbers, cleared
    total = sum(map(additions_of, range(a, b + 1)))
    return (DONE, len(told) // 3, total), told + numbers[len(told):], cleared


def program(text):
    """What the program `census` prints."""
    good = LINE.fullmatch(text.split(b"\n")[0])
    if not good:
        return "?\n"
    a, b = map(int, good.groups())
    (code, count, _), numbers, _ = census(a, b, LENT, [0] * ENTRIES)
    if code != DONE:
        return "%d\n" % code
    rows = ["%d %d %d\n" % (*numbers[3 * i:3 * i + 3],) for i in range(count)]
    return "".join(["heights %d %d\n" % (a, b), *rows])


def needed(a, b):
    return 3 * len(rows_of(a, b))


def asking(a, b, more=0, entries=ENTRIES, entry=ENTRY):
    """With so many numbers more than are just enough, or fewer."""
    slots = max(0, needed(a, b) + more) if 1 <= a <= b <= LAST else 21 + more
    return "census", (a, b, slots), ([entry] * entries,)


# One index: every height, the least and the largest index of some, primes, powers, and the ends.
SINGLE = (1, 2, 3, 4, 6, 64, 104, 105, 106, 210, 315, 384, 385, 386, 770, 1024, 1155, 1364, 1365, 1366, 1785, 1995,
          2048, 2145, 2187, 2310, 2415, 2730, 2805, 3003, 3135, 3465, 3570, 3990, 4080, 4090, 4091, 4092, 4093, 4094,
          4095)

# Both ends, and just outside; 2^32 and 2^64 and a good number more.
BOUNDS = (0, 1, 2, 385, 4094, 4095, 4096, 4097, 65535, 2**32, 2**32 + 1, 2**63, TOP)

# Ranges in which heights are not met in ascending order, ones with one height, with some and with all.
RANGES = ((1, 104), (1, 105), (2, 105), (104, 105), (105, 106), (105, 105), (106, 164), (105, 384), (106, 385),
          (385, 385), (385, 386), (385, 419), (385, 420), (385, 1365), (770, 1155), (1155, 1365), (1364, 1366),
          (1365, 1785), (1365, 2805), (1366, 3135), (1785, 1785), (1785, 4095), (1995, 2805), (2805, 2805),
          (2805, 3135), (3135, 3136), (2806, 3134), (2806, 3135), (3135, 4095), (3136, 4095), (3465, 3466),
          (4090, 4095), (2, 4094), (1, 4095))


def bounds():
    """Each pair of them, in room enough; and those that are refused also where nothing else is good."""
    for a in BOUNDS:
        for b in BOUNDS:
            yield asking(a, b)
            if not 1 <= a <= b <= LAST:
                yield "census", (a, b, 0), ([],)
    for a, b in ((4096, 4095), (0, 0), (3, 2), (1, 4096)):
        for slots, entries in ((0, 4096), (2, 5000), (192, 4095), (192, 0), (TOP, 4097)):
            yield "census", (a, b, slots), ([ENTRY] * entries,)


def lent():
    """None, one less, just enough and more of the entries, and of the numbers, in all combinations; whatever the
    entries hold."""
    for a, b in ((1, 1), (105, 106), (385, 390), (1, 4095)):
        enough = needed(a, b)
        for entries in (0, 1, 4095, 4096, 4097, 4160, 65536):
            for slots in sorted({0, 1, 2, 3, enough - 3, enough - 1, enough, enough + 1, enough + 3, 192}):
                yield "census", (a, b, slots), ([ENTRY] * entries,)
    for entry in (0, 1, -1, 170, 2**63 - 1, LEAST):
        for more in (-1, 0, 2):
            yield asking(380, 390, more, 4098, entry)
    for a, b, slots, count in ((385, 1365, 14, 4098), (385, 1365, 11, 4098), (5, 4, 12, 4096), (385, 1365, 12, 4095)):
        yield "census", (a, b, slots), ([i % 10 for i in range(count)],)


def rooms():
    """Every number of numbers lent up to some more than are needed; and very many."""
    for a, b in ((1, 104), (104, 105), (385, 420), (1365, 1785), (1365, 3135), (1, 4095)):
        for slots in range(needed(a, b) + 7):
            yield "census", (a, b, slots), ([ENTRY] * 4096,)
    for slots in (63, 64, 65, 191, 65535, 65536, 65537, 2**32, 2**32 + 3, 2**63, TOP):
        yield "census", (380, 390, slots), ([ENTRY] * 4097,)


def singles():
    for n in SINGLE:
        yield asking(n, n, n % 4)
        yield asking(n, n, -1, 4096 + n % 3)


def ranges():
    for a, b in RANGES:
        yield asking(a, b)
        yield asking(a, b, -1)
        yield asking(a, b, 1 + a % 5, 4096 + b % 7)


def drawn():
    """Ranges as a row of made-up numbers has them, short ones and long ones, in rooms about as large as needed."""
    state = 1

    def below(end):
        nonlocal state
        state = state * 48271 % 2147483647
        return state // 7 % end

    for _ in range(300):
        most = (10, 100, 1000, LAST)[below(4)]
        length = 1 + below(most)
        a = 1 + below(LAST + 1 - length)
        more = (0, 0, 0, 1, 2, 3, 40, -1, -2, -3)[below(10)]
        yield asking(a, a + length - 1, more, 4096 + below(4) * below(30), below(1000) - 500)


def cases():
    for part in (bounds, lent, rooms, singles, ranges, drawn):
        yield from part()


if __name__ == "__main__":
    sys.stdout.write(program(sys.stdin.buffer.read()))
