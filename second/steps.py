"""Single steps, from their definition in docs/RULES.md and python's whole numbers, and what the trial asks of them.

A comb's new entry is a(i) - a(i - d). An accumulate's is the sum of a(i), a(i - d), a(i - 2 d), ..: no pass, no order of
places, no undoing.
"""

MOST = 2**63 - 1
NONE = -(2**63)


def step(sort, d, w, a):
    """(code, count), and what stands in the slice afterwards, under the working limit w."""
    if d < 1 or d > 65535:
        return (7, 0), a
    if w < 1:
        return (3, 0), a
    if sort == "C":
        new = [a[i] - a[i - d] if i >= d else a[i] for i in range(len(a))]
    else:
        new = [sum(a[i::-d]) for i in range(len(a))]
    if any(abs(new[i]) > w for i in range(d, len(a))):
        return (5, 0), a
    return (0, max(len(a) - d, 0)), new


SLICES = [
    [1, 2, 3, 4, 5, 6, 7, 8],
    [],
    [MOST, NONE, 0, -1, 1, MOST, -MOST, 5],
    [NONE] * 8,
    [-1, 0, NONE, 0, -1, NONE, 1, NONE],
    [1, 0, NONE, 1, 0, MOST, 0, NONE],
    [0, 2**62, 2**62 - 1, 0, 0, -(2**62), -(2**62), 0],
    # old entries above the small limits
    [3, -2, 5, 100, -100, 4, -4, 1],
]

SIZES = (0, 1, 2, 3, 7, 8, 9, 65535, 65536, 2**64 - 1)

LIMITS = (NONE, 0, 1, 4, 2**62 - 1, 2**62, MOST)

LONG_SLICES = [
    [(7 * i * i + 13 * i) % 101 - 50 for i in range(60)],
    # of an odd size every sum is in the largest range, and half of the old entries are -2^63
    [MOST, NONE] * 30,
    # one late value that passes the limit, where other chains are finished and others not begun
    [1] * 57 + [999, 1, 1],
]

# Sizes whose chains fill groups of every width, with more left over, or have two entries at most.
WIDTHS = (1, 2, 3, 4, 5, 6, 7, 8, 9, 11, 15, 16, 17, 19, 25, 29, 31, 59)

# Slices that are told by a sum.
LONGEST = [[1] * 1000, [-7] * 65536, [(7 * i * i + 13 * i) % 101 - 50 for i in range(3000)]]


def cases():
    for slices, sizes, limits in (
        (SLICES, SIZES, LIMITS),
        (LONG_SLICES, WIDTHS, (60, 999, MOST)),
        (LONGEST, (999, 1024, 65535), (7, 100, MOST)),
    ):
        for a in slices:
            for d in sizes:
                for w in limits:
                    yield "comb", (d, w), (a,)
                    yield "accumulate", (d, w), (a,)
