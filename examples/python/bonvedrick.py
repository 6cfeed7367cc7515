"""The library for Python, by ctypes over a shared object made from the archive (examples/Makefile makes it).

Lists go in and lists come out, and a caller's list is never changed. A refusal is the exception Refused. What each
function does and refuses is told in include/bonvedrick.h.

ctypes would cut a number to 64 bits without a word, so each number and each entry is looked at first: one that does
not fit its C type is an OverflowError, and what is no whole number is a TypeError. Then nothing was asked. A whole
number is what operator.index takes for one: True is 1, numpy's whole numbers are good, 1.0 and "1" are not. A point is
what complex takes for a number, so a real one too, and no text.

Shelves are never copied: C looks at the bytes where they are, those of a file that is mapped too, and what it finds
comes out as a memoryview of them, which can be read and converted as it is. Nobody may write to them during a call.

CPython 3.8 or later; nothing but the standard library.
"""

from __future__ import annotations

import ctypes
import mmap
import operator
import os
from collections.abc import Mapping, Set
from ctypes import POINTER, c_double, c_int, c_int64, c_size_t, c_ssize_t, c_uint8, c_uint64, c_void_p
from typing import Iterable, Iterator, NamedTuple, SupportsComplex, SupportsFloat, SupportsIndex, Union

F, I = 1, 2
OWN, HOUSE = 1, 2  # the shelves of a lookup
NO_LIMIT = 2**63 - 1  # as h or w
MOST_ENTRIES = 65536  # no polynomial has more
MOST_SCRATCH = 131086  # the second engine needs no more
MOST_BYTES = 10 + 8 * MOST_ENTRIES  # no record has more
MOST_COUNTED = 4095  # the largest index of a census
CENSUS_ENTRIES = 4096  # that it works in
SIZE_MAX = 2 ** (8 * ctypes.sizeof(c_size_t)) - 1

# Every code; 10 is given no more.
NAMES = {
    0: "DONE",
    1: "KIND",
    2: "INDEX",
    3: "LIMIT",
    4: "SHORT",
    5: "OVER",
    6: "TALL",
    7: "STEP",
    8: "CUT",
    9: "MARK",
    11: "WIDTH",
    12: "RKIND",
    13: "RWIDTH",
    14: "RINDEX",
    15: "RCOUNT",
    16: "LIST",
    17: "ABSENT",
    18: "UNEVEN",
    19: "POINT",
    20: "COARSE",
    21: "RANGE",
    22: "ROWS",
}
# The codes that tell a degree, where the answer has one.
TELL_DEGREE = {"SHORT", "OVER", "TALL"}
# The codes of a wrong field of a record's header: the field, and what would be right.
FIELDS = {
    "RKIND": ("kind", "1 or 2"),
    "RWIDTH": ("width", "1, 2, 4 or 8"),
    "RINDEX": ("index", "from 1 to 65535"),
    "RCOUNT": ("number of coefficients", "the degree of that kind at that index, plus 1"),
}
# The codes of a record that doesn't read.
UNREAD = {"CUT", "MARK", "WIDTH", *FIELDS}
# The shelf of such a record, by its number: 0 where there is only one.
SHELVES = {0: "shelf", OWN: "own shelf", HOUSE: "house shelf"}

Shelf = Union[bytes, bytearray, memoryview, mmap.mmap]
Number = Union[complex, SupportsComplex, SupportsFloat, SupportsIndex]


class Answer(NamedTuple):
    """What is told of a polynomial, or of a cascade; then, and by the second engine, additions is 0."""

    code: int
    degree: int
    additions: int
    height: int
    peak: int
    gain: int


class Stop(NamedTuple):
    """What is told of a half-built polynomial; the degree is that of its lower half."""

    code: int
    degree: int
    additions: int
    due: int


class Step(NamedTuple):
    code: int
    count: int


class Written(NamedTuple):
    code: int
    degree: int
    used: int
    byte: int


class Record(NamedTuple):
    code: int
    degree: int
    used: int
    kind: int
    n: int
    byte: int


class Found(NamedTuple):
    """Where a lookup found the record: the shelf it is from, and the bytes of that."""

    code: int
    byte: int
    shelf: int
    from_: int
    start: int
    length: int


class Browsed(NamedTuple):
    code: int
    start: int
    length: int
    kind: int
    n: int
    degree: int


class Converted(NamedTuple):
    """What is told of a record that was converted: the degree of its polynomial, and its bytes in both forms."""

    code: int
    degree: int
    read: int
    written: int
    byte: int


class Rescued(NamedTuple):
    code: int
    kept: int
    stretches: int


class Counted(NamedTuple):
    code: int
    rows: int
    additions: int


class Row(NamedTuple):
    """A row of a census: a height, the smallest index that has it, and how many have it."""

    height: int
    smallest: int
    count: int


class Value(NamedTuple):
    code: int
    real: float
    imag: float


class Entry(NamedTuple):
    """A record on a shelf: what its header says, the byte of the shelf at which it starts, and its bytes, a part of
    the shelf itself."""

    kind: int
    n: int
    degree: int
    start: int
    record: memoryview


class _Point(ctypes.Structure):
    """C's point, which is passed as it is."""

    _fields_ = [("real", c_double), ("imag", c_double)]


WORDS = (POINTER(c_int64), c_size_t)
BYTES = (POINTER(c_uint8), c_size_t)
INDICES = (POINTER(c_uint64), c_size_t)
SHELF = (c_void_p, c_size_t)
FUNCTIONS = {  # what each answers and takes
    "bv_polynomial": (Answer, c_uint64, c_uint64, c_int64, c_int64, *WORDS),
    "bv_partial": (Stop, c_uint64, c_uint64, c_uint64, c_int64, *WORDS),
    "bv_comb": (Step, c_uint64, c_int64, *WORDS),
    "bv_accumulate": (Step, c_uint64, c_int64, *WORDS),
    "bv_write": (Written, c_uint64, c_uint64, *WORDS, *BYTES),
    "bv_read": (Record, *SHELF, *WORDS),
    "bv_cascade": (Answer, *INDICES, c_int64, *WORDS, *WORDS),
    "bv_second": (Answer, c_uint64, c_uint64, c_int64, *WORDS, *WORDS),
    "bv_lookup": (Found, c_uint64, c_uint64, *SHELF, *SHELF),
    "bv_browse": (Browsed, *SHELF, c_uint64),
    "bv_write_half": (Written, c_uint64, c_uint64, *WORDS, *BYTES),
    "bv_read_half": (Record, *SHELF, *WORDS),
    "bv_to_half": (Converted, *SHELF, *BYTES),
    "bv_to_whole": (Converted, *SHELF, *BYTES),
    "bv_rescue": (Rescued, *SHELF, *BYTES, *INDICES, *WORDS),
    "bv_response": (Value, *WORDS, _Point),
    "bv_census": (Counted, c_uint64, c_uint64, *INDICES, *WORDS),
}


class Refused(Exception):
    """A refusal: its code and name; the degree where one is told; where a field of a record is wrong, the field, the
    byte at which it starts and what would be right. Where a record on a shelf doesn't read, the byte is that of the
    shelf at which the record starts, and the shelf is OWN or HOUSE, or 0 where there is only one. What is not told is
    None."""

    def __init__(self, code: int, degree: int | None = None, byte: int | None = None, shelf: int | None = None):
        super().__init__(code, degree, byte, shelf)  # what copy and pickle make it from again
        self.code = code
        self.name = NAMES.get(code, "?")
        self.degree = degree
        self.byte = byte
        self.shelf = shelf
        self.field, self.right = FIELDS.get(self.name, (None, None))

    def __str__(self) -> str:
        text = f"{self.name} ({self.code})"
        if self.degree is not None:
            text += f", degree {self.degree}"
        if self.shelf is not None:
            text += f", the record at byte {self.byte} of the {SHELVES[self.shelf]} doesn't read"
            if self.field is not None:
                text += f": its {self.field} is wrong: right is {self.right}"
        elif self.field is not None:
            text += f", the record's {self.field}, at byte {self.byte}, is wrong: right is {self.right}"
        return text


def registers(bits: SupportsIndex) -> int:
    """The working limit of registers of so many bits, 2 to 64, sign included: the largest magnitude they hold."""
    bits = operator.index(bits)
    if not 2 <= bits <= 64:
        raise ValueError("registers have from 2 to 64 bits")
    return 2 ** (bits - 1) - 1


class Bonvedrick:
    """The library at a path. It can be pickled: the other side loads it from the same path."""

    def __init__(self, path: str | os.PathLike):
        self._path = os.fspath(path)
        self._library = ctypes.CDLL(self._path)
        for name, (answer, *arguments) in FUNCTIONS.items():
            function = getattr(self._library, name)
            function.restype, function.argtypes = _struct(answer), arguments

    def __reduce__(self):
        return type(self), (self._path,)

    def polynomial(
        self,
        kind: SupportsIndex,
        n: SupportsIndex,
        h: SupportsIndex = NO_LIMIT,
        w: SupportsIndex = NO_LIMIT,
        room: SupportsIndex = MOST_ENTRIES,
    ) -> tuple[list[int], Answer]:
        """The coefficients, lowest degree first, and the answer. None may be larger in magnitude than h, and no value
        that a step on the way makes larger than w."""
        buf = _room("room", room)
        a = self._ask("bv_polynomial", _u64("kind", kind), _u64("n", n), _i64("h", h), _i64("w", w), buf)
        return buf[: a.degree + 1], a

    def partial(
        self,
        kind: SupportsIndex,
        n: SupportsIndex,
        j: SupportsIndex,
        w: SupportsIndex = NO_LIMIT,
        room: SupportsIndex = MOST_ENTRIES,
    ) -> tuple[list[int], Stop]:
        """The kept half after j divisors, and the answer."""
        buf = _room("room", room)
        a = self._ask("bv_partial", _u64("kind", kind), _u64("n", n), _u64("j", j), _i64("w", w), buf)
        return buf[: a.degree + 1], a

    def comb(
        self, size: SupportsIndex, entries: Iterable[SupportsIndex], w: SupportsIndex = NO_LIMIT
    ) -> list[int]:
        """The entries times 1 - z^size, as many as there were."""
        buf = _words("entries", entries)
        self._ask("bv_comb", _u64("size", size), _i64("w", w), buf)
        return buf[:]

    def accumulate(
        self, size: SupportsIndex, entries: Iterable[SupportsIndex], w: SupportsIndex = NO_LIMIT
    ) -> list[int]:
        """The entries divided by 1 - z^size, as many as there were."""
        buf = _words("entries", entries)
        self._ask("bv_accumulate", _u64("size", size), _i64("w", w), buf)
        return buf[:]

    def write(self, kind: SupportsIndex, n: SupportsIndex, coeffs: Iterable[SupportsIndex]) -> bytes:
        """The record's bytes."""
        return self._write("bv_write", kind, n, coeffs)

    def write_half(self, kind: SupportsIndex, n: SupportsIndex, coeffs: Iterable[SupportsIndex]) -> bytes:
        """The bytes of the half record. The coefficients are those of the whole polynomial."""
        return self._write("bv_write_half", kind, n, coeffs)

    def _write(self, function, kind, n, coeffs):
        words = _words("coeffs", coeffs)
        buf = (c_uint8 * (10 + 8 * len(words)))()
        a = self._ask(function, _u64("kind", kind), _u64("n", n), words, buf)
        return bytes(buf[: a.used])

    def read(self, data: Shelf, room: SupportsIndex = MOST_ENTRIES) -> tuple[int, int, list[int], int]:
        """The kind, the index and the coefficients of the record that the bytes start with, and the bytes it uses."""
        return self._read("bv_read", data, room)

    def read_half(self, data: Shelf, room: SupportsIndex = MOST_ENTRIES) -> tuple[int, int, list[int], int]:
        """The same of the half record that the bytes start with: the coefficients are those of the whole polynomial."""
        return self._read("bv_read_half", data, room)

    def _read(self, function, data, room):
        buf = _room("room", room)
        with _bytes(data) as view:
            a = self._ask(function, *_address(view), buf)
        return a.kind, a.n, buf[: a.degree + 1], a.used

    def to_half(self, data: Shelf, room: SupportsIndex = MOST_BYTES) -> tuple[bytes, Converted]:
        """The half record of the record that the bytes start with, and the answer. `room` is how many bytes are lent to
        write it to."""
        return self._convert("bv_to_half", data, room, 1)

    def to_whole(self, data: Shelf, room: SupportsIndex = MOST_BYTES) -> tuple[bytes, Converted]:
        """The record of the half record that the bytes start with, and the answer. `room` is as for `to_half`."""
        return self._convert("bv_to_whole", data, room, 2)

    def _convert(self, function, data, room, times):
        """What is written is at most so many times as long as what is read: so more is not lent."""
        room = _within("room", room, 0, SIZE_MAX)
        with _bytes(data) as view:
            buf = (c_uint8 * min(room, MOST_BYTES, times * len(view)))()
            a = self._ask(function, *_address(view), buf)
        return bytes(memoryview(buf)[: a.written]), a

    def cascade(
        self,
        indices: Iterable[SupportsIndex],
        h: SupportsIndex = NO_LIMIT,
        room: SupportsIndex = MOST_ENTRIES,
        scratch: SupportsIndex = MOST_ENTRIES,
    ) -> tuple[list[int], Answer]:
        """The coefficients of the product of F over the indices, lowest degree first, and the answer. None may be
        larger in magnitude than h. `scratch` is how many entries are lent to work in."""
        buf = _room("room", room)
        a = self._ask("bv_cascade", _indices(indices), _i64("h", h), buf, _room("scratch", scratch))
        return buf[: a.degree + 1], a

    def second(
        self,
        kind: SupportsIndex,
        n: SupportsIndex,
        h: SupportsIndex = NO_LIMIT,
        room: SupportsIndex = MOST_ENTRIES,
        scratch: SupportsIndex = MOST_SCRATCH,
    ) -> tuple[list[int], Answer]:
        """The polynomial from another road, for reviewers: what `polynomial` gives without w, but for additions, which
        are 0. `scratch` is how many entries are lent to work in: 2 n + 16 are needed."""
        buf, work = _room("room", room), _room("scratch", scratch, MOST_SCRATCH)
        a = self._ask("bv_second", _u64("kind", kind), _u64("n", n), _i64("h", h), buf, work)
        return buf[: a.degree + 1], a

    def lookup(
        self, kind: SupportsIndex, n: SupportsIndex, own: Shelf = b"", house: Shelf = b""
    ) -> tuple[memoryview, Found]:
        """The first record of a kind and an index, in one's own shelf or else in that of the house, and the answer. The
        record is a memoryview of that very stretch of the shelf: while it is there, a bytearray can't be resized nor an
        mmap closed. A record on the way that doesn't read is refused; one after the record found is not seen."""
        numbers = _u64("kind", kind), _u64("n", n)
        with _shelf("own", own) as first, _shelf("house", house) as other:
            a = self._ask("bv_lookup", *numbers, *_address(first), *_address(other))
            held = first if a.from_ == OWN else other
            return held[a.start : a.start + a.length], a

    def records(self, shelf: Shelf) -> Iterator[Entry]:
        """The records of a shelf, one after another: a generator. At a record that doesn't read it raises the refusal,
        and then it is over."""
        return self._records(_shelf("shelf", shelf))

    def _records(self, view):
        with view:
            place, at = _address(view), 0
            while True:
                a = self._ask("bv_browse", *place, at)
                if a.length == 0:
                    return
                at = a.start + a.length
                yield Entry(a.kind, a.n, a.degree, a.start, view[a.start : at])

    def rescue(
        self,
        shelf: Shelf,
        room: SupportsIndex = SIZE_MAX,
        slots: SupportsIndex = SIZE_MAX,
        entries: SupportsIndex = MOST_ENTRIES,
    ) -> tuple[bytes, list[tuple[int, int]]]:
        """The good records of a damaged shelf, one after another, and the start and length of each stretch that is
        skipped. `room` is how many bytes are lent for the records, `slots` how many numbers for the list, two a
        stretch, and `entries` how many are lent to work in: enough of each, where none is said."""
        room, slots = _within("room", room, 0, SIZE_MAX), _within("slots", slots, 0, SIZE_MAX)
        work = _room("entries", entries)
        with _shelf("shelf", shelf) as view:
            # no more than can be needed: a stretch and the record behind it have more than 11 bytes
            out = (c_uint8 * min(room, len(view)))()
            numbers = (c_uint64 * min(slots, 2 * (len(view) // 11 + 1)))()
            a = self._ask("bv_rescue", *_address(view), out, numbers, work)
        told = iter(numbers[: 2 * a.stretches])
        return bytes(memoryview(out)[: a.kept]), list(zip(told, told))

    def response(self, coeffs: Iterable[SupportsIndex], point: Number) -> complex:
        """The value at a point of the polynomial with these coefficients, in floats from the highest degree down, each
        operation rounded once. Each part of the point is from -1 to 1, and no coefficient is above 2^53 in
        magnitude."""
        words, at = _words("coeffs", coeffs), _complex("point", point)
        a = self._ask("bv_response", words, _Point(at.real, at.imag))
        return complex(a.real, a.imag)

    def census(
        self,
        a: SupportsIndex,
        b: SupportsIndex,
        slots: SupportsIndex = SIZE_MAX,
        entries: SupportsIndex = CENSUS_ENTRIES,
    ) -> tuple[list[Row], int]:
        """Which heights F has from index a to index b, at most 4095, a row for each, ascending, and the additions of
        all these polynomials. `slots` is how many numbers are lent for the rows, three a row, and `entries` how many
        are lent to work in: enough of each, where none is said."""
        # no more than can be needed: there are at most as many heights as indices
        numbers = (c_uint64 * min(_within("slots", slots, 0, SIZE_MAX), 3 * MOST_COUNTED))()
        work = _room("entries", entries, CENSUS_ENTRIES)
        told = self._ask("bv_census", _u64("a", a), _u64("b", b), numbers, work)
        each = iter(numbers[: 3 * told.rows])
        return list(map(Row, each, each, each)), told.additions

    def _ask(self, function, *arguments):
        """The answer of a C function, or Refused. An array goes over with its length."""
        passed = []
        for argument in arguments:
            passed.append(argument)
            if isinstance(argument, ctypes.Array):
                passed.append(len(argument))
        told = getattr(self._library, function)(*passed)
        answer = FUNCTIONS[function][0]
        if told.code != 0:
            raise _refusal(answer, told)
        return answer._make(getattr(told, field) for field in answer._fields)


def _refusal(answer, told):
    """The refusal with what the answer tells beside its code."""
    name = NAMES.get(told.code)
    if answer in (Found, Browsed):
        if name not in UNREAD:
            return Refused(told.code)
        byte, shelf = (told.byte, told.shelf) if answer is Found else (told.start, 0)
        return Refused(told.code, None, byte, shelf)
    degree = getattr(told, "degree", None) if name in TELL_DEGREE else None
    return Refused(told.code, degree, told.byte if name in FIELDS else None)


def _struct(answer):
    """The C struct of an answer: 64-bit numbers; the gain alone has a sign, as the coefficients have, and a value's
    parts are doubles."""
    others = {"gain": c_int64, "real": c_double, "imag": c_double}
    types = [(field, others.get(field, c_uint64)) for field in answer._fields]
    return type(answer.__name__, (ctypes.Structure,), {"_fields_": types})


def _within(name, value, low, high):
    """The whole number that value is. One out of range is not shown: it may have any number of digits."""
    number = operator.index(value)
    if not low <= number <= high:
        raise OverflowError(f"{name} is not from {low} to {high}")
    return number


def _u64(name, value):
    return _within(name, value, 0, 2**64 - 1)


def _i64(name, value):
    return _within(name, value, -(2**63), 2**63 - 1)


def _complex(name, value):
    """The complex number that value is; text is none, though complex would read it."""
    if isinstance(value, str):
        raise TypeError(f"{name} is a number, not a str")
    return complex(value)


def _numbers(name, values, low, high):
    """The whole numbers of a list, each looked at."""
    if isinstance(values, (Set, Mapping)):
        raise TypeError(f"{name}: a {type(values).__name__} has no places")
    numbers = [operator.index(value) for value in values]
    for place, number in enumerate(numbers):
        if not low <= number <= high:
            _within(f"{name}[{place}]", number, low, high)
    return numbers


def _words(name, values):
    """A copy of the entries for C."""
    numbers = _numbers(name, values, -(2**63), 2**63 - 1)
    return (c_int64 * len(numbers))(*numbers)


def _indices(values):
    """A copy of the indices for C."""
    numbers = _numbers("indices", values, 0, 2**64 - 1)
    return (c_uint64 * len(numbers))(*numbers)


def _room(name, room, most=MOST_ENTRIES):
    """The entries to lend. No more than any request needs: the others would stand there unused, and memory may not have
    so many."""
    return (c_int64 * min(_within(name, room, 0, SIZE_MAX), most))()


def _bytes(data):
    """A view of the bytes of a record, where they are, or else of a copy."""
    view = _view("a record", data)
    try:
        return view.cast("B")
    except TypeError:
        return memoryview(view.tobytes())


def _shelf(name, data):
    """A view of a shelf's bytes, where they are. A memoryview that leaves some out has none that stand in a row."""
    view = _view(f"{name}: a shelf", data)
    try:
        return view.cast("B")
    except TypeError:
        raise TypeError(f"{name}: the bytes of a shelf stand in a row") from None


def _view(what, data):
    if not isinstance(data, (bytes, bytearray, memoryview, mmap.mmap)):
        raise TypeError(f"{what} is bytes, a bytearray, a memoryview or an mmap, not {type(data).__name__}")
    return memoryview(data)


class _Buffer(ctypes.Structure):
    """C's Py_buffer: where the bytes of an object are."""

    _fields_ = [
        *(("buf", c_void_p), ("obj", c_void_p), ("len", c_ssize_t), ("itemsize", c_ssize_t), ("readonly", c_int)),
        *(("ndim", c_int), ("format", c_void_p), ("shape", c_void_p), ("strides", c_void_p)),
        *(("suboffsets", c_void_p), ("internal", c_void_p)),
    ]


# ctypes itself lends only what may be written to, which bytes and a file that is mapped to be read may not.
_get_buffer = ctypes.PYFUNCTYPE(c_int, ctypes.py_object, POINTER(_Buffer), c_int)(
    ("PyObject_GetBuffer", ctypes.pythonapi)
)
_release_buffer = ctypes.PYFUNCTYPE(None, POINTER(_Buffer))(("PyBuffer_Release", ctypes.pythonapi))


def _address(view):
    """Where the bytes of a view are, and how many: there they stay until it is released."""
    buffer = _Buffer()
    _get_buffer(view, ctypes.byref(buffer), 0)
    place = buffer.buf, buffer.len
    _release_buffer(ctypes.byref(buffer))
    return place
