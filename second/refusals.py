"""Requests at the edges of docs/RULES.md, 'The codes': each refusal, the order of refusals, and the figures of 'The worked polynomials'."""

from kept import degree, least_limit, over_after
from whole import divisors_below

ROOM = 33000
TOP = 2**64 - 1
LEAST = -(2**63)
MOST = 2**63 - 1

# kind, n, h, w, room
POLYNOMIALS = [
    # KIND, before all else
    (0, 15, 1, MOST, 9),
    (3, 0, 0, MOST, 0),
    (TOP, 65536, LEAST, MOST, 0),
    # INDEX, before LIMIT and SHORT
    (1, 0, 1, MOST, 9),
    (2, 0, 0, MOST, 0),
    (1, 65536, 1, MOST, 33000),
    (2, 65536, LEAST, MOST, 0),
    (1, TOP, 1, MOST, 0),
    # LIMIT, before SHORT
    (1, 15, 0, MOST, 9),
    (2, 15, -1, MOST, 0),
    (1, 65535, LEAST, MOST, 33000),
    # SHORT, before TALL, and the least room that is enough
    (1, 15, 1, MOST, 8),
    (1, 15, 1, MOST, 9),
    (1, 15, 1, MOST, 0),
    (2, 15, 1, MOST, 7),
    (2, 15, 1, MOST, 8),
    (1, 1, 1, MOST, 1),
    (1, 1, 1, MOST, 2),
    (2, 1, 1, MOST, 0),
    (2, 1, 1, MOST, 1),
    (1, 105, 1, MOST, 48),
    (1, 65535, MOST, MOST, 32768),
    (1, 65535, MOST, MOST, 32769),
    (2, 65535, MOST, MOST, 32767),
    (2, 65535, MOST, MOST, 32768),
    (1, 65521, 1, MOST, 33000),
    # TALL, and the least limit that is enough
    (1, 105, 1, MOST, 49),
    (1, 105, 1, MOST, 60),
    (1, 105, 2, MOST, 49),
    (1, 105, 2, MOST, 60),
    (1, 210, 1, MOST, 60),
    (1, 315, 1, MOST, 200),
    (1, 385, 2, MOST, 300),
    (1, 385, 3, MOST, 300),
    (2, 385, 1, MOST, 300),
    (2, 561, 1, MOST, 300),
    (1, 40755, 358, MOST, 33000),
    (1, 40755, 359, MOST, 33000),
    (2, 40755, 201, MOST, 33000),
    (2, 40755, 202, MOST, 33000),
    (1, 15, MOST, MOST, 33000),
    # LIMIT by w, whatever h is: after INDEX, before SHORT
    (1, 0, 1, 0, 9),
    (1, 15, 1, 0, 9),
    (2, 15, 1, -1, 8),
    (1, 65535, MOST, LEAST, 33000),
    (1, 15, 0, 0, 9),
    (2, 105, 1, 0, 0),
    # SHORT, before OVER
    (1, 105, MOST, 1, 48),
    # TALL, under a limit that the steps keep
    (1, 105, 1, 2, 60),
    # no step is taken: the least limit does
    (1, 1024, 1, 1, 33000),
]

# kind, n, j, w, room
PARTIALS = [
    # KIND, before all else
    (0, 105, 0, MOST, 25),
    (3, 0, TOP, MOST, 0),
    # INDEX, also where r is 1, before STEP
    (1, 0, 0, MOST, 25),
    (1, 65536, 0, MOST, 25),
    (2, TOP, TOP, MOST, 0),
    (1, 1, 0, MOST, 25),
    (2, 2, 0, MOST, 25),
    (1, 32768, TOP, MOST, 0),
    # STEP, before SHORT
    (1, 105, 8, MOST, 0),
    (1, 105, 7, MOST, 25),
    (2, 105, TOP, MOST, 100),
    (1, 3, 1, MOST, 2),
    (1, 3, 2, MOST, 2),
    # SHORT, and the least room that is enough
    (1, 105, 0, MOST, 24),
    (1, 105, 0, MOST, 25),
    (1, 105, 3, MOST, 0),
    (2, 105, 4, MOST, 28),
    (2, 105, 4, MOST, 29),
    (1, 65535, 15, MOST, 16384),
    (1, 65535, 15, MOST, 16385),
    # an index that is not r itself
    (1, 210, 5, MOST, 100),
    (2, 420, 5, MOST, 100),
    (1, 11025, 7, MOST, 100),
    # LIMIT: after INDEX and STEP, before SHORT
    (1, 1024, 0, 0, 25),
    (1, 105, 8, -1, 0),
    (1, 105, 0, 0, 25),
    (2, 105, 7, LEAST, 0),
    # SHORT, before OVER
    (1, 105, 4, 1, 24),
    # no step is taken yet: the least limit does
    (1, 105, 0, 1, 25),
]

# indices, h, room of the buffer, room of the scratch
CASCADES = [
    # LIST, none or more than eight: before all else
    ((), 1, 9, 9),
    ((), 0, 0, 0),
    ((3,) * 9, MOST, 30, 9),
    ((3,) * 9, 0, 30, 9),
    ((3,) * 9, 1, 0, 0),
    ((0,) * 9, 1, 30, 9),
    ((3,) * 8 + (TOP,), LEAST, 0, 0),
    ((65521,) * 9, 1, 0, 0),
    ((239,) * 9, 1, 3000, 300),
    ((1,) * 12, MOST, 30, 9),
    # INDEX, before a total degree that is too large
    ((65521, 65521, 0), MOST, 9, 9),
    ((65536, 65521, 65521), 1, 65536, 65536),
    ((0,), 0, 0, 0),
    ((TOP,), LEAST, 9, 9),
    ((65536,) * 8, 0, 0, 0),
    ((239,) * 7 + (0,), 1, 3000, 300),
    ((105, 65536), 1, 60, 50),
    # LIST by the total degree, before LIMIT: one too many, and just enough
    ((65521, 17), MOST, 65536, 65536),
    ((65519, 17, 1, 1), 1, 65536, 65536),
    ((65519, 17, 1, 2), 0, 65536, 65536),
    ((65521, 65521), LEAST, 0, 0),
    ((65521,) * 8, MOST, 65536, 65536),
    ((16381,) * 5, 1, 65536, 65536),
    ((1, 65519, 17), MOST, 65536, 65519),
    ((17, 65519, 2), MOST, 65536, 65519),
    ((1, 65519, 17), MOST, 65535, 65519),
    ((1, 65519, 17), MOST, 65536, 65518),
    ((1, 65519, 17), 0, 65535, 65518),
    # LIMIT, before SHORT, OVER and TALL
    ((3,), 0, 3, 3),
    ((3,), -1, 0, 0),
    ((105, 105), LEAST, 96, 49),
    ((105, 105), 0, 97, 48),
    ((239,) * 8, 0, 1905, 239),
    # SHORT, before OVER and TALL
    ((239,) * 8, MOST, 1904, 239),
    ((239,) * 8, 1, 1905, 238),
    ((105,), 1, 48, 49),
    ((105,), 1, 49, 48),
    ((105,), 1, 0, 0),
    # OVER, before TALL
    ((239,) * 8, 1, 1905, 239),
    ((239,) * 8, MOST, 1905, 239),
]

# Where an index is not good, at each place among good ones, and alone.
CASCADES += [
    (some[:place] + (bad,) + some[place:], MOST, 70, 50)
    for bad in (0, 65536, TOP)
    for some in ((), (3, 105, 8, 2))
    for place in range(len(some) + 1)
]

# One entry less than is needed, just enough, and two more, in the buffer and in the scratch: needed are so many.
CASCADES += [
    (indices, h, room + more, scratch + also)
    for indices, room, scratch in (((1,), 2, 2), ((2, 4, 8), 8, 5), ((105, 3), 51, 49), ((7, 211), 217, 211))
    for h in (MOST, 1)
    for more in (-room, -1, 0, 2)
    for also in (-scratch, -1, 0, 2)
]

# kind, n, h, room of the buffer, room of the scratch
SECONDS = [
    # KIND, before all else
    (0, 15, 1, 9, 46),
    (3, 0, 0, 0, 0),
    (TOP, 65536, LEAST, 0, 0),
    # INDEX, before LIMIT and SHORT
    (1, 0, 1, 9, 46),
    (2, 0, 0, 0, 0),
    (1, 65536, 1, 33000, 131088),
    (2, TOP, LEAST, 0, 0),
    # LIMIT, before SHORT and TALL
    (1, 15, 0, 9, 46),
    (2, 15, -1, 0, 0),
    (1, 105, LEAST, 49, 226),
    (1, 65535, 0, 33000, 131086),
    # SHORT, before TALL: either buffer
    (1, 105, 1, 48, 226),
    (1, 105, 1, 49, 225),
    (1, 105, 1, 48, 225),
    (2, 561, 1, 300, 1137),
    (1, 65535, MOST, 32768, 131086),
    (1, 65535, MOST, 32769, 131085),
    (2, 65535, MOST, 32767, 131086),
    (2, 65535, MOST, 32768, 131085),
    # just enough, and the last index
    (1, 65535, MOST, 32769, 131086),
    (2, 65535, MOST, 32768, 131086),
    (2, 65535, MOST, 32768, 131088),
    # TALL, and the least limit that is enough
    (1, 105, 1, 49, 226),
    (1, 105, 2, 49, 226),
    (1, 210, 1, 60, 440),
    (1, 385, 2, 300, 790),
    (1, 385, 3, 300, 790),
    (2, 385, 1, 300, 790),
    (2, 561, 1, 300, 1138),
    (2, 561, 2, 300, 1138),
    (1, 40755, 358, 33000, 81526),
    (1, 40755, 359, 33000, 81526),
    (2, 40755, 201, 33000, 81526),
    (2, 40755, 202, 33000, 81526),
]

# One entry less than is needed, just enough, and two more, in the buffer and in the scratch.
SECONDS += [
    (kind, n, h, degree(kind, n) + 1 + more, 2 * n + 16 + also)
    for kind in (1, 2)
    for n in (1, 2, 3, 8, 9, 15, 20, 45, 105, 210)
    for h in (MOST, 1)
    for more in (-degree(kind, n) - 1, -1, 0, 2)
    for also in (-2 * n - 16, -1, 0, 2)
]

# OVER, for each number of primes, 1 to 5, and both kinds: kind, r, and an index with m = 2r and, where ROOM has the entries, t > 1.
# The least limit of every r with one or two primes is 1.
REGISTERS = [
    (1, 3, 12),
    (2, 3, 12),
    (1, 35, 140),
    (2, 35, 140),
    (1, 105, 420),
    (2, 1001, 4004),
    (1, 1155, 4620),
    (2, 1155, 4620),
    (1, 15015, 60060),
    (2, 15015, 30030),
]

# The least limit that delivers, and one less: OVER, before TALL; or LIMIT, where it is 0. A stop before the first step that passes the
# limit is delivered.
for kind, r, even in REGISTERS:
    least = least_limit(kind, r)
    steps = len(divisors_below(r))
    POLYNOMIALS += [(kind, r, MOST, least, ROOM), (kind, r, 1, least - 1, ROOM), (kind, even, MOST, least, ROOM)]
    PARTIALS += [(kind, r, steps, least, ROOM), (kind, r, steps, least - 1, ROOM)]
    if least > 1:
        taken = over_after(kind, r, least - 1)
        POLYNOMIALS += [(kind, even, MOST, least - 1, ROOM)]
        PARTIALS += [(kind, even, taken, least - 1, ROOM), (kind, even, taken + 1, least - 1, ROOM)]
