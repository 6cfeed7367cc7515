"""Half records, which hold the first half of a polynomial's coefficients: written, read, and converted from the records
of shelf.py and to them; and what the trial asks of all four.

A half record is shelf.py's record cut after its first half, with a mark of its own. How the halves match is seen from
the polynomial itself, which is made by exact division: its last coefficient is 1, and its first is 1 where the other
half is copied and -1 where it is negated. To convert is to read the one form and to write the other.
"""

import shelf
from cyclotomic import polynomial
from kept import degree
from shelf import MARK, VALUES, changed, coefficients, narrowest

HALF = b"\xc9\x51"
MOST_ROOM = 65536  # what the trial lends at most to convert into
FILLING = b"\xaa"  # and what it holds
TOP = 2**64 - 1
LEAST = -(2**63)


def turned(kind, n, coeffs):
    """The coefficients from the other end, negated where the polynomial's own are."""
    return [polynomial(kind, n)[0] * c for c in reversed(coeffs)]


def even(kind, n, coeffs):
    return turned(kind, n, coeffs) == coeffs


def first(count):
    """How many the first half has, the middle one included."""
    return -(-count // 2)


def rebuilt(kind, n, half):
    """The polynomial of a first half, with whatever stands in its middle."""
    middle = 2 * len(half) - (degree(kind, n) + 1)
    return half + turned(kind, n, half)[middle:]


def write(kind, n, coeffs, lent):
    """(code, degree, used, byte), and what stands in the bytes lent"""
    (code, d, used, byte), whole = shelf.write(kind, n, coeffs, bytes(10 + 8 * len(coeffs)))
    if code != 0:
        return (code, d, used, byte), lent
    if not even(kind, n, coeffs):
        return (18, 0, 0, 0), lent
    record = HALF + whole[2:10 + whole[3] * first(len(coeffs))]
    if len(lent) < len(record):
        return (4, d, 0, 0), lent
    return (0, d, len(record), 0), record + lent[len(record):]


def read(data, lent):
    """(code, degree, used, kind, n, byte), and what stands in the entries lent"""
    if len(data) >= 10 and not data.startswith(HALF):
        return (9, 0, 0, 0, 0, 0), lent
    # a header alone is cut, to shelf.py, where it has nothing wrong
    told, _ = shelf.read(MARK + data[2:10], [])
    if len(data) < 10 or told[0] != 8:
        return told, lent
    kind, w, n, count = data[2], data[3], int.from_bytes(data[4:6], "little"), int.from_bytes(data[6:10], "little")
    end = 10 + w * first(count)
    if len(data) < end:
        return told, lent
    if len(lent) < count:
        return (4, count - 1, 0, 0, 0, 0), lent
    half = [int.from_bytes(data[at:at + w], "little", signed=True) for at in range(10, end, w)]
    if narrowest(half) != w:
        return (11, 0, 0, 0, 0, 0), lent
    whole = rebuilt(kind, n, half)
    if not even(kind, n, whole):
        return (18, 0, 0, 0, 0, 0), lent
    return (0, count - 1, end, kind, n, 0), whole + lent[count:]


def converted(read_one, write_other, data, room):
    """(code, degree, read, written, byte), and what stands in the room lent, at most 65,536 bytes"""
    out = FILLING * min(room, MOST_ROOM)
    (code, d, used, kind, n, byte), coeffs = read_one(data, [0] * 65536)
    if code != 0:
        return (code, 0, 0, 0, byte), out
    (code, d, written, _), out = write_other(kind, n, coeffs[:d + 1], out)
    return (code, d, used if code == 0 else 0, written, 0), out


def to_half(data, room):
    return converted(shelf.read, write, data, room)


def to_whole(data, room):
    return converted(read, shelf.write, data, room)


# Both kinds, with halves that are copied and negated, of 1, 2, an odd and an even number of coefficients.
PLACES = ((1, 1), (2, 1), (1, 2), (2, 2), (1, 5), (2, 4), (2, 6), (1, 9), (2, 15))
FEW = ((1, 1), (2, 1), (1, 6), (2, 4))
# Of shelf.py's values those at the edges of a width.
EDGES = (0, 1, 3, 4, 5, 6, 9, 10, 11, 12, 14, 15, 16, 17, 19, 20)


def some(kind, n, p):
    """Coefficients whose halves match: the first is value p, and the others are among the values to p. Where it would
    not be 0 and has to, the middle is."""
    count = degree(kind, n) + 1
    half = coefficients(p, first(count))
    if count % 2 and polynomial(kind, n)[0] < 0:
        half[-1] = 0
    return rebuilt(kind, n, half)


def storable():
    """(kind, n, coefficients, record, half record) of each place and value that both forms hold."""
    for kind, n in PLACES:
        for p in EDGES:
            coeffs = some(kind, n, p)
            yield (kind, n, coeffs, *both(kind, n, coeffs))


def both(kind, n, coeffs):
    """The record and the half record of some coefficients."""
    room = bytes(10 + 8 * len(coeffs))
    (code, _, used, _), record = shelf.write(kind, n, coeffs, room)
    (also, _, less, _), half = write(kind, n, coeffs, room)
    assert code == also == 0
    return record[:used], half[:less]


def stored(mark, kind, n, width, coeffs):
    """A record of either form and any width, right or not."""
    return (mark + bytes([kind, width]) + n.to_bytes(2, "little") + (degree(kind, n) + 1).to_bytes(4, "little")
            + b"".join(c.to_bytes(width, "little", signed=True) for c in coeffs))


def halved(kind, n, width, half):
    return stored(HALF, kind, n, width, half)


def writing_half(kind, n, coeffs, room):
    return "writehalf", (kind, n), (coeffs, FILLING * room)


def reading_half(entries, data):
    return "readhalf", (), ([77] * entries, data)


def halving(data, room):
    return "tohalf", (room,), (data,)


def making_whole(data, room):
    return "towhole", (room,), (data,)


def there_and_back():
    """Each value at each place, by all four; the room exact, one less, and more, in turns, and bytes after the record."""
    for i, (kind, n, coeffs, record, half) in enumerate(storable()):
        more = (0, 3, -1)[i % 3]
        yield writing_half(kind, n, coeffs, len(half) + more)
        yield reading_half(len(coeffs) + (0, -1, 2)[i % 3], half + b"\xbb" * (i % 4))
        yield halving(record + b"\xbb" * (i % 2), len(half) + more)
        yield making_whole(half + b"\xbb" * (i % 2), len(record) + more)


def rooms():
    """Every room up to what is needed and a little more, in each width."""
    for kind, n, p in ((1, 6, 1), (2, 6, 9), (2, 1, 17)):
        coeffs = some(kind, n, p)
        record, half = both(kind, n, coeffs)
        for room in range(len(half) + 2):
            yield writing_half(kind, n, coeffs, room)
            yield halving(record, room)
        for room in range(len(record) + 2):
            yield making_whole(half, room)
        for entries in range(len(coeffs) + 2):
            yield reading_half(entries, half)
    record, half = both(1, 6, [1, -1, 1])
    yield halving(record, 2**32 + 11)
    yield making_whole(half, TOP)


def unevenly():
    """One coefficient changed at each place of each half, and in the middle; with no room, with a width that is not the
    least, and where another one is -2^63."""
    for kind, n in PLACES:
        for p in (1, 19):
            coeffs = some(kind, n, p)
            _, half = both(kind, n, coeffs)
            for i in range(len(coeffs)):
                other = coeffs[:i] + [coeffs[i] - 1 if coeffs[i] > 0 else coeffs[i] + 1] + coeffs[i + 1:]
                room = 10 + 8 * len(coeffs)
                yield writing_half(kind, n, other, room if i % 2 else 0)
                if narrowest(other) == half[3]:
                    yield halving(stored(MARK, kind, n, half[3], other), 0 if i % 2 else room)
                if half[3] < 8:
                    yield halving(stored(MARK, kind, n, 2 * half[3], other), room)
                if p == 1:
                    yield writing_half(kind, n, coeffs[:i] + [LEAST] + coeffs[i + 1:], room * (i % 2))
                    yield halving(stored(MARK, kind, n, 8, coeffs[:i] + [LEAST] + coeffs[i + 1:]), room)
    for kind, n in FEW:
        # copied for negated, and the other way round
        half = [3, -2, 1, 0][:first(degree(kind, n) + 1)]
        wrong = half + [-c for c in rebuilt(kind, n, half)[len(half):]]
        yield writing_half(kind, n, wrong, 50)
        yield halving(stored(MARK, kind, n, 1, wrong), 50)
    for width, v in ((2, 128), (4, 1 - 2**31), (8, 2**31)):
        # one that needs the width, in one half alone
        for kind, n in ((1, 1), (1, 6), (2, 6)):
            zeros = [0] * degree(kind, n)
            for coeffs in ([v] + zeros, zeros + [v]):
                yield writing_half(kind, n, coeffs, 50)
                yield halving(stored(MARK, kind, n, width, coeffs), 50)


def middles():
    """A middle that is not 0, where it must be and where it need not: in each width, with too little room, and in a
    width that is not the least. No other coefficient is anything but 0."""
    for kind, n in ((2, 4), (2, 6), (1, 5), (2, 1)):
        count = degree(kind, n) + 1
        for width, v in ((1, 1), (1, -127), (1, -128), (2, 1), (2, 256), (2, -32768), (4, -2**31 + 1), (4, 65536), (8, 2**40),
                         (8, LEAST), (8, 256)):
            half = [0] * (first(count) - 1) + [v]
            data = halved(kind, n, width, half)
            yield reading_half(count + 1, data)
            yield reading_half(count - 1, data)
            yield making_whole(data, 10 + width * count)
            yield making_whole(data, 9 + width * count)
            whole = rebuilt(kind, n, half)
            if v > LEAST:
                yield writing_half(kind, n, whole, 90)
            yield halving(stored(MARK, kind, n, width, whole), 90)


def cutting():
    """Cut at each byte, of each form and some widths, with room for it and without."""
    for i, (kind, n) in enumerate(FEW):
        for p in (1, 5, 16, 19)[i:i + 1]:
            coeffs = some(kind, n, p)
            record, half = both(kind, n, coeffs)
            for end in range(len(half)):
                yield reading_half(len(coeffs) * (end % 3 != 0), half[:end])
                yield making_whole(half[:end], 60 * (end % 2))
            for end in range(len(record)):
                yield halving(record[:end], 60 * (end % 2))


def damaging():
    """Each field wrong by itself, and with others after it; the mark of the other form; any byte for each of its two."""
    wrongs = [((j, v),) for j in range(2, 10) for v in ((0, 3) if j < 6 else (9,))]
    wrongs += [((2, 0), (3, 0)), ((3, 5), (4, 0), (5, 0)), ((4, 0), (5, 0), (6, 0)), ((2, 3), (6, 200)), ((3, 9), (9, 1)),
               ((3, 2),), ((3, 8),), ((10, 128),), ((11, 128),)]
    for kind, n, p in ((1, 6, 1), (2, 15, 5)):
        coeffs = some(kind, n, p)
        record, half = both(kind, n, coeffs)
        for wrong in wrongs:
            for mark in ((), ((1, 0x52),)):
                if mark and len(wrong) == 1 and wrong[0][1]:
                    continue
                room = 90 * (len(wrong) % 2)
                yield reading_half(room // 9, changed(half + b"\xaa" * 9, *mark, *wrong))
                yield making_whole(changed(half + b"\xaa" * 9, *mark, *wrong), room)
                yield halving(changed(record + b"\xaa" * 9, *mark, *wrong), room)
        for ask in (lambda data: reading_half(9, data), lambda data: making_whole(data, 90), lambda data: halving(data, 90)):
            yield ask(record)
            yield ask(half)
            yield ask(record[:10])
            yield ask(half[:10])
            yield ask(record[:9])
            yield ask(half[:9])
        for j, right in ((0, 0xc9), (1, 0x51), (1, 0x50)):
            for v in (0, 0x4f, 0x50, 0x51, 0x52, 0xc8, 0xca, 0xd0, 0xff, 0xd1, 0x49, 0x41):
                yield making_whole(changed(half, (j, v)), 90)
                yield reading_half(9, changed(half, (j, v)))
                yield halving(changed(record, (j, v)), 90)
        # what the other readers make of a half record
        yield "read", (), ([77] * 9, half)
        yield "browse", (len(record),), (record + half,)
        yield "lookup", (kind, n, 0), (half + record,)
        yield "lookup", (3 - kind, n, len(record)), (record + half,)


def refusing():
    """KIND, then INDEX, then RCOUNT, then OVER, then UNEVEN, then SHORT, when writing."""
    good, bad, over = [1, -1, 1], [1, -1, 2], [LEAST, 0, 5]
    for coeffs in (good, bad, over, [], [1], [LEAST, LEAST], [1, 2, 3, 4]):
        for room in (12, 11, 0):
            yield writing_half(1, 6, coeffs, room)
        for kind, n in ((0, 6), (3, 0), (257, 6), (2**32 + 1, 6), (TOP, TOP)):
            yield writing_half(kind, n, coeffs, 12)
        for kind, n in ((1, 0), (2, 65536), (1, 65542), (2, 2**32 + 6), (1, TOP)):
            yield writing_half(kind, n, coeffs, 12)
        yield writing_half(2, 6, coeffs, 12)
        yield writing_half(2, 3, coeffs, 12)
        yield writing_half(0, 0, coeffs, 0)
        yield writing_half(1, 65536, coeffs, 0)


def widening():
    """Each value in each width that has room for it, at each place of a first half, alone among small ones."""
    for width in (1, 2, 4, 8):
        for i, v in enumerate(v for v in VALUES if -2**(8 * width - 1) <= v < 2**(8 * width - 1)):
            kind, n = ((2, 15), (1, 15))[i % 2]
            half = [0, 1, -1, 0, 1][:first(degree(kind, n) + 1)]
            half[i % len(half)] = v
            data = halved(kind, n, width, half)
            yield reading_half(9, data)
            yield making_whole(data, 10 + 9 * width)
            whole = [min(c, 2**(8 * width - 1) - 1) for c in rebuilt(kind, n, half)]  # the least has no opposite
            yield halving(stored(MARK, kind, n, width, whole), 10 + 5 * width)


def longer():
    """Polynomials, written, read and converted both ways, exactly and with too little room; and long ones of any
    numbers, with one in the other half that is wrong."""
    for kind, n in ((1, 105), (2, 105), (1, 385), (2, 385), (1, 1155), (2, 1155), (2, 128), (1, 40755)):
        coeffs = polynomial(kind, n)
        record, half = both(kind, n, coeffs)
        for more in (0,) if n == 40755 else (0, 5, -1):
            yield writing_half(kind, n, coeffs, len(half) + more)
            yield reading_half(len(coeffs) + more, half)
            yield halving(record, len(half) + more)
            yield making_whole(half, len(record) + more)
        if n == 40755:
            continue
        for i in (0, len(coeffs) // 2 - 1, len(coeffs) // 2, len(coeffs) - 2, len(coeffs) - 1):
            other = coeffs[:i] + [coeffs[i] + 3] + coeffs[i + 1:]
            yield writing_half(kind, n, other, len(half))
            yield halving(stored(MARK, kind, n, 1, other), len(half))
    for width in (1, 2, 4, 8):
        for kind, n in ((1, 211), (2, 210)):
            count = degree(kind, n) + 1
            half = [(i * i * 2**(8 * width - 5) + i) % 2**(8 * width - 1) * (-1)**i for i in range(first(count))]
            half[-1] *= 1 - count % 2 * (kind - 1)
            coeffs = rebuilt(kind, n, half)
            record, short = both(kind, n, coeffs)
            assert short[3] == width
            yield writing_half(kind, n, coeffs, len(short))
            yield reading_half(count, short)
            yield halving(record, len(short))
            yield making_whole(short, len(record))
            last = bytearray(record)
            last[-1] ^= 1
            yield halving(bytes(last), len(short))


def mixed():
    """Records of both forms, some damaged, in rooms of any size, as a row of made-up numbers has it."""
    state = 1

    def below(end):
        nonlocal state
        state = state * 48271 % 2147483647
        return state // 7 % end

    for _ in range(60):
        kind, n = 1 + below(2), 1 + below(12)
        coeffs = some(kind, n, below(21))
        data = both(kind, n, coeffs)[below(2)]
        if below(2) == 0:
            data = changed(data, (below(len(data)), below(256)))
        if below(5) == 0:
            data = changed(data, (10 + below(len(data) - 10), below(256)))
        if below(9) == 0:
            data = data[:below(len(data))]
        room = below(3 * len(data))
        yield halving(data, room)
        yield making_whole(data, room)
        yield reading_half(below(14), data)


def cases():
    parts = (refusing, there_and_back, rooms, unevenly, middles, cutting, damaging, widening, longer, mixed)
    for part in parts:
        yield from part()
