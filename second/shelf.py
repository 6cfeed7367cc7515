"""Stored records, by python's own int.to_bytes and from_bytes, and what the trial asks of them."""

from cyclotomic import polynomial
from kept import degree

MARK = b"\xc9\x50"

VALUES = [0, 1, -1, 127, -127, 128, -128, 255, -256, 32767, -32767, 32768, -32768, 65536, 2**31 - 1, 1 - 2**31, 2**31, -2**31, 2**32,
          2**63 - 1, 1 - 2**63, -2**63]


def narrowest(coeffs):
    for w in (1, 2, 4, 8):
        try:
            for c in coeffs:
                abs(c).to_bytes(w, "little", signed=True)
            return w
        except OverflowError:
            pass
    return None


def write(kind, n, coeffs, lent):
    """(code, degree, used, byte), and what stands in the bytes lent"""
    if kind not in (1, 2):
        return (1, 0, 0, 0), lent
    if not 1 <= n <= 65535:
        return (2, 0, 0, 0), lent
    d = degree(kind, n)
    if len(coeffs) != d + 1:
        return (15, 0, 0, 6), lent
    w = narrowest(coeffs)
    if w is None:
        return (5, d, 0, 0), lent
    record = (MARK + bytes([kind, w]) + n.to_bytes(2, "little") + len(coeffs).to_bytes(4, "little")
              + b"".join(c.to_bytes(w, "little", signed=True) for c in coeffs))
    if len(lent) < len(record):
        return (4, d, 0, 0), lent
    return (0, d, len(record), 0), record + lent[len(record):]


def read(data, lent):
    """(code, degree, used, kind, n, byte), and what stands in the entries lent"""
    if len(data) < 10:
        return (8, 0, 0, 0, 0, 0), lent
    if data[:2] != MARK:
        return (9, 0, 0, 0, 0, 0), lent
    kind, w, n, count = data[2], data[3], int.from_bytes(data[4:6], "little"), int.from_bytes(data[6:10], "little")
    wrong = [(12, 2)] * (kind not in (1, 2)) + [(13, 3)] * (w not in (1, 2, 4, 8)) + [(14, 4)] * (n == 0)
    if not wrong and count != degree(kind, n) + 1:
        wrong = [(15, 6)]
    if wrong:
        code, byte = min(wrong)
        return (code, 0, 0, 0, 0, byte), lent
    if len(data) < 10 + count * w:
        return (8, 0, 0, 0, 0, 0), lent
    if len(lent) < count:
        return (4, count - 1, 0, 0, 0, 0), lent
    coeffs = [int.from_bytes(data[10 + i * w:10 + i * w + w], "little", signed=True) for i in range(count)]
    if narrowest(coeffs) != w:
        return (11, 0, 0, 0, 0, 0), lent
    return (0, count - 1, 10 + count * w, kind, n, 0), coeffs + lent[count:]


PLACES = ((1, 1), (2, 1), (1, 2), (2, 6), (1, 9), (2, 15))
REFUSED = ((0, 6), (3, 6), (1, 0), (2, 65536))


def coefficients(p, count):
    """The first is value p, and the others are among the values to p: the edges of each width."""
    return [VALUES[min((p + 5 * i) % (p + 1), 21)] for i in range(count)]


def room(p, count):
    """Too much room, just enough for the widest, one byte less, and one byte less than the narrowest takes."""
    return (12 + 8 * count, 10 + 8 * count, 9 + 8 * count, 9 + count)[p % 4]


def writing():
    """Each value at each place, on two fillings; one coefficient too many and one too few."""
    yield "write", (1, 6), ([1, -1, 1], b"\xaa" * 15)
    for kind, n in PLACES + REFUSED:
        count = degree(kind, n) + 1 if n <= 65535 else 1
        for filling in (b"\xaa", b"\x55"):
            for p in range(23):
                yield "write", (kind, n), (coefficients(p, count), filling * room(p, count))
            for other in (count + 1, count - 1):
                yield "write", (kind, n), (coefficients(2, other), filling * 180)


def records():
    """(kind, n, count, the record) of each value at each place that can be stored."""
    for kind, n in PLACES:
        count = degree(kind, n) + 1
        for p in range(21):
            (code, _, used, _), left = write(kind, n, coefficients(p, count), bytes(180))
            assert code == 0
            yield kind, n, count, left[:used]


def reading():
    """Each record with bytes after it into more entries than needed, just enough, and one less; cut at every place."""
    for kind, n, count, record in records():
        for entries in (20, count + 1, count, count - 1):
            yield "read", (), ([77] * entries, record + b"\xaa\xbb\xcc")
        yield "read", (), ([77] * count, record)
        for end in range(len(record)):
            yield "read", (), ([77] * count, record[:end])
            yield "read", (), ([77] * 20, record[:end])


def changed(record, *bytes_at):
    """The record with some bytes changed."""
    data = bytearray(record)
    for j, v in bytes_at:
        data[j] = v
    return bytes(data)


def damaging():
    """Each field wrong by itself and with others after it, in records of each place and width; a width not the least."""
    for kind, n, count, record in records():
        for j in range(2, 12):
            for v in (0, 1, 2, 3, 4, 128) if j < 6 else (0, 128):
                yield "read", (), ([77] * 20, changed(record + b"\xaa\xaa", (j, v)))
        for wrong in (((2, 0), (3, 0)), ((3, 5), (4, 0), (5, 0)), ((4, 0), (5, 0), (6, 0)), ((2, 3), (6, 200)), ((3, 9), (9, 1))):
            yield "read", (), ([77] * 20, changed(record, *wrong))
            yield "read", (), ([77] * 20, changed(record, (1, 0x51), *wrong))
        for w in (2, 4, 8):
            yield "read", (), ([77] * 20, changed(record, (3, w)) + bytes(8 * count))


def marking():
    """Each other byte for each of the first two."""
    for kind, n in PLACES:
        record = write(kind, n, coefficients(1, degree(kind, n) + 1), bytes(180))[1]
        for j in (0, 1):
            for v in range(256):
                if record[j] != v:
                    yield "read", (), ([77] * 3, changed(record[:20], (j, v)))


def storing():
    """Polynomials, written and read back, with too little room too; and long records of three widths."""
    for kind, n in ((1, 105), (2, 105), (1, 385), (1, 1155), (2, 1155), (1, 10465)):
        coeffs = polynomial(kind, n)
        for more in (0, 7, -1):
            size = 10 + len(coeffs) + more
            (code, *_), left = write(kind, n, coeffs, b"\xaa" * size)
            yield "write", (kind, n), (coeffs, b"\xaa" * size)
            yield "read", (), ([77] * (len(coeffs) + 2), left)
        yield "read", (), ([77] * (len(coeffs) - 1), write(kind, n, coeffs, bytes(size + 1))[1])
    for n, v in ((8191, 1), (8191, -128), (2039, 2**63 - 1)):
        yield "write", (1, n), ([v] * n, b"\xaa" * 20000)


def cases():
    for some in (writing, reading, damaging, marking, storing):
        yield from some()
