"""Cascades: the product of several F, multiplied out as polynomials, and what the trial asks of them.

The factors are those of cyclotomic.py, and each product is one of python's whole numbers (polynomials.py). All first
factors count: their product is looked at before the next factor comes.
"""

from functools import lru_cache
from itertools import permutations

from choice import FILLING
from cyclotomic import cyclotomic
from polynomials import height, product
from whole import phi

MOST = 2**63 - 1
MOST_ENTRIES = 65536  # that a line can lend


@lru_cache(64)
def products(indices):
    """The product of F over the indices; None where that of some first ones has a coefficient or a gain out of range.
    (A factor alone that is OVER would count too, but none is.)"""
    if len(indices) == 1:
        made = cyclotomic(indices[0])
    else:
        before = products(indices[:-1])
        if before is None:
            return None
        made = product(before, cyclotomic(indices[-1]))
    return made if max(height(made), abs(sum(made))) <= MOST else None


def need(indices):
    """How many entries the buffer and the scratch must have."""
    return sum(map(phi, indices)) + 1, max(map(phi, indices)) + 1


# One index: 1 and 2, primes and their powers, products of up to six primes, the largest degree, the tallest.
SINGLE = (*range(1, 17), 30, 49, 64, 105, 210, 243, 385, 561, 1155, 1024, 2310, 2401, 4489, 6561, 15015, 30030, 32768)
SINGLE += (40755, 51051, 60060, 62205, 65025, 65519, 65521, 65535)

LISTS = (
    # a decimator by 8, and with a notch
    (2, 4, 8),
    (2, 4, 8, 15),
    (2, 4, 8, 160),
    (2, 4, 8, 16, 32, 64, 128, 256),
    (2, 2, 2, 4, 4, 4, 8, 8),
    # long ones
    (2, 4, 8, 16, 32, 64, 105, 1155),
    (9009, 10395, 12375, 15015, 15015, 20475, 8085, 11025),
    (15015,) * 4,
    (32767, 65535),
    (65519, 17, 1),
    (1, 65519, 17),
    (8191,) * 4,
    (8191,) * 8,
    # sums of products that leave 64 bits on their way, though their end does not
    (13982,) * 6 + (210,),
    (2998,) * 7 + (210,),
    (2974,) * 7 + (330,),
    (2902,) * 7 + (390,),
    (2998,) * 7 + (2310,),
    # products in range, which the height so far times the sum of the factor's magnitudes does not show
    (2998,) * 7 + (90,),
    (1874, 1006, 1402, 2458, 2638, 898, 926, 1365),
    (1126,) * 7 + (839,),
    (1142,) * 7 + (821,),
    (1774,) * 7 + (123,),
    (1366, 1186, 1438, 1018, 1234, 1018, 1322, 491),
    # and such ones whose height is next to 2^63, below and above, of either sign
    (1082,) * 7 + (1514,),
    (1594, 1042, 1766, 302, 1538, 1226, 1174, 1726),
    (1346, 1454, 1294, 1646, 1642, 218, 1306, 1754),
    (1138,) * 8,
    (1082,) * 7 + (1706,),
    (1366, 1042, 1774, 1706, 1486, 1594, 1574, 226),
    (15015,) * 6,
    # gains next to 2^63, below and above, where no coefficient is near it
    (157, 179, 179, 277, 277, 277, 281, 307),
    (163, 199, 229, 233, 233, 251, 293, 311),
    (239,) * 8,
    # coefficients of both signs next to 2^63, below and above, where the gain is 1
    (866, 922, 926, 1082, 1094, 1126, 1198, 7214),
    (926, 926, 998, 1018, 1042, 1082, 1202, 7214),
)

# Taken so often, as far as the degree goes: powers of z - 1 and z + 1; gains that grow; factors of height 1, 2 and 3;
# all signs alternating, so that the height grows and the gain does not.
REPEATED = (1, 2, 3, 5, 7, 12, 15, 16, 105, 210, 211, 385, 422, 1009, 1155, 2003, 2018, 4006, 4620, 8191)


def repeats():
    for n in REPEATED:
        for count in range(2, 9):
            if count * phi(n) <= 65535:
                yield (n,) * count


def orders():
    """All orders of some lists, and a factor z - 1 or z + 1 at each place of a list: which of the orders are refused is
    told by what their first factors make."""
    for some in ((1, 2, 3), (1, 3, 9, 105), (6, 10, 15, 30), (2, 2, 5, 5)):
        yield from dict.fromkeys(permutations(some))
    growing = ((13099, 5, 1), (2003, 7, 1), (2003, 6, 2), (4006, 7, 2), (4006, 6, 1), (569, 7, 1), (1138, 7, 2))
    for n, count, one in growing:
        for place in range(count + 1):
            yield (n,) * place + (one,) + (n,) * (count - place)


def mixed():
    """Lists of every length, of indices far from each other, by a rule that has no end."""
    state = 1
    for size in range(1, 9):
        for _ in range(12):
            found = ()
            for _ in range(size):
                state = state * 48271 % 2147483647
                found += (1 + state % (30, 300, 3000, 65535 // size)[state // 65536 % 4],)
            if sum(map(phi, found)) <= 65535:
                yield found


def lent(room):
    """Entries to be lent, all different where they are few."""
    return [FILLING + i for i in range(room)] if room <= 64 else [FILLING] * room


def asked(indices, h, room, scratch):
    return "cascade", (h,), (tuple(indices), lent(room), lent(scratch))


def limits(indices):
    """No limit, the height and one less; where nothing is delivered, 1."""
    made = products(indices)
    return [MOST, 1] if made is None else dict.fromkeys([MOST, height(made), max(1, height(made) - 1)])


def cases():
    """Each list in a few entries more than needed, where a line can lend them; some under several limits."""
    singles = [(n,) for n in SINGLE]
    for indices in dict.fromkeys((*singles, *LISTS, *repeats(), *orders(), *mixed())):
        room, scratch = need(indices)
        for h in limits(indices) if indices in LISTS or len(set(indices)) == 1 else [MOST]:
            yield asked(indices, h, min(room + 3, MOST_ENTRIES), min(scratch + len(indices) - 1, MOST_ENTRIES))
