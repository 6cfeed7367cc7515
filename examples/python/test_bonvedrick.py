"""Tests of the wrapper: numbers of every size in every place, what is no number, shelves of every sort that are not
copied, values at points with the signs of their zeros, heights counted, and refusals that are carried around.
Usage: test_bonvedrick.py libbonvedrick.so [words of unittest]"""

import array
import copy
import ctypes
import decimal
import enum
import fractions
import math
import mmap
import multiprocessing
import pickle
import struct
import sys
import tempfile
import tracemalloc
import unittest
from unittest import mock

import bonvedrick
from bonvedrick import F, HOUSE, I, NAMES, NO_LIMIT, OWN, registers
from bonvedrick import Answer, Bonvedrick, Converted, Entry, Found, Refused, Stop

CDLL = ctypes.CDLL
LIBRARY = None  # the path, from the command line

SIZES = [
    *(-(2**80), -(2**64), -(2**63) - 1, -(2**63), -(2**32), -1, 0),
    *(2**32, 2**63 - 1, 2**63, 2**64 - 1, 2**64, 2**64 + 21, 2**80, 10**5000),
]
NO_NUMBERS = [1.0, 1.5, float("nan"), "3", "", b"1", None, [1], (1,), 1j, decimal.Decimal(1), object()]

F6, F6_RECORD = [1, -1, 1], bytes.fromhex("c9 50 01 01 06 00 03 00 00 00 01 ff 01")
F15, I15 = [1, -1, 0, 1, -1, 1, 0, -1, 1], [-1, -1, -1, 0, 0, 1, 1, 1]
I6_RECORD = bytes.fromhex("c9 50 02 02 06 00 05 00 00 00 ff ff ff ff 00 00 01 00 2c 01")
I1_RECORD = bytes.fromhex("c9 50 02 01 01 00 01 00 00 00 7f")
OTHER_F6 = F6_RECORD[:10] + bytes([5, 5, 5])
F6_HALF = bytes.fromhex("c9 51 01 01 06 00 03 00 00 00 01 ff")
I6, EVEN_I6 = [-1, -1, 0, 1, 1], bytes.fromhex("c9 50 02 01 06 00 05 00 00 00 ff ff 00 01 01")
I6_HALF = bytes.fromhex("c9 51 02 01 06 00 05 00 00 00 ff ff 00")


class Counting:
    """Stands in for ctypes.CDLL: the library, with the calls of its functions counted."""

    calls = 0
    arguments = ()  # of the last call

    def __init__(self, path):
        self._library = CDLL(path)

    def __getattr__(self, name):
        function = getattr(self._library, name)

        def counted(*arguments):
            Counting.calls += 1
            Counting.arguments = arguments
            function.restype, function.argtypes = counted.restype, counted.argtypes
            return function(*arguments)

        setattr(self, name, counted)
        return counted


def refused(name, degree=None, byte=None, shelf=None):
    return ("refused", name, degree, byte, shelf)


def u64(v):
    return 0 <= v < 2**64


def i64(v):
    return -(2**63) <= v < 2**63


def kinds(one, two):
    return u64, lambda v: one if v == 1 else two if v == 2 else refused("KIND")


def only(good, delivered, name):
    return u64, lambda v: delivered if v == good else refused(name)


def limit(delivered):
    return i64, lambda v: refused("LIMIT") if v < 1 else delivered


def entries(needed, delivered, degree):
    return u64, lambda v: refused("SHORT", degree) if v < needed else delivered


def comb_of(values):
    new = [x - (values[i - 1] if i else 0) for i, x in enumerate(values)]
    return refused("OVER") if any(abs(v) >= 2**63 for v in new[1:]) else new


def accumulate_of(values):
    new = [sum(values[: i + 1]) for i in range(len(values))]
    return refused("OVER") if any(abs(v) >= 2**63 for v in new[1:]) else new


def record_of(coeffs):
    """The record of three coefficients of F(6), by the header's words."""
    height = max(map(abs, coeffs))
    if height >= 2**63:
        return refused("OVER", 2)
    width = next(w for w in (1, 2, 4, 8) if height <= 2 ** (8 * w - 1) - 1)
    body = b"".join(c.to_bytes(width, "little", signed=True) for c in coeffs)
    return bytes([0xC9, 0x50, 1, width, 6, 0, 3, 0, 0, 0]) + body


def half_of(coeffs):
    """The half record of three coefficients of F(6)."""
    whole = record_of(coeffs)
    if not isinstance(whole, bytes):
        return whole
    return refused("UNEVEN") if coeffs[0] != coeffs[2] else b"\xc9\x51" + whole[2 : 10 + 2 * whole[3]]


def cascade_of(indices):
    """By plain multiplication, of indices that `small` knows, under a height limit of 2."""
    if not all(1 <= n <= 65535 for n in indices):
        return refused("INDEX")
    product = [1]
    for factor in map(small, indices):
        product = [sum(c * product[i - j] for j, c in enumerate(factor) if 0 <= i - j < len(product))
                   for i in range(len(product) + len(factor) - 1)]
    degree, height = len(product) - 1, max(map(abs, product))
    if height > 2:
        return refused("TALL", degree)
    return product, Answer(0, degree, 0, height, [abs(c) for c in product].index(height), sum(product))


def small(n):
    """F(n) of 1, an odd prime or a power of two."""
    if n == 1:
        return [-1, 1]
    return [1] * n if n % 2 else [1] + [0] * (n // 2 - 1) + [1]


def response_of(coeffs, point=1):
    """The value by python's own floats, which round each operation once; each coefficient at most 2^53 is one."""
    if any(abs(c) > 2**53 for c in coeffs):
        return refused("COARSE")
    real, imag, at = 0.0, 0.0, complex(point)
    for c in reversed(coeffs):
        real, imag = (real * at.real - imag * at.imag) + float(c), real * at.imag + imag * at.real
    return complex(real, imag)


def short_of(needed, delivered):
    """As `entries`, where no degree is told."""
    return u64, lambda v: refused("SHORT") if v < needed else delivered


F15_DONE, I15_DONE = (F15, Answer(0, 8, 6, 1, 0, 1)), (I15, Answer(0, 7, 4, 1, 0, 0))
F15_STOPS = {0: ([1, 0, 0, 0, 0], Stop(0, 4, 0, 3)), 1: ([1, -1, 0, 0, 0], Stop(0, 4, 4, 2))}
I15_STOP = ([-1, -1, -1, -1], Stop(0, 3, 3, 2))
BY_8 = ([1] * 8, Answer(0, 7, 0, 1, 0, 8))
F15_SECOND, I15_SECOND = (F15, Answer(0, 8, 0, 1, 0, 1)), (I15, Answer(0, 7, 0, 1, 0, 0))
F6_FOUND = (F6_RECORD, Found(0, 0, 0, HOUSE, 20, 13))
RESCUED = (F6_RECORD + EVEN_I6, [(13, 20), (48, 3)])  # of F(6), what reads and is another, I(6), and the rest
HEIGHTS = ([(1, 386, 33), (2, 390, 2), (3, 385, 1)], 7474)  # from 385 to 420
TO_HALF, TO_WHOLE = (F6_HALF, Converted(0, 2, 13, 12, 0)), (F6_RECORD, Converted(0, 2, 12, 13, 0))

# For each function good arguments, and for each number among them what fits its C type and what the rules give then.
REQUESTS = {
    "polynomial": (
        dict(kind=F, n=15, h=1, w=1, room=9),
        dict(
            kind=kinds(F15_DONE, I15_DONE),
            n=only(15, F15_DONE, "INDEX"),
            h=limit(F15_DONE),
            w=limit(F15_DONE),
            room=entries(9, F15_DONE, 8),
        ),
    ),
    "partial": (
        dict(kind=F, n=15, j=1, w=1, room=5),
        dict(
            kind=kinds(F15_STOPS[1], I15_STOP),
            n=only(15, F15_STOPS[1], "INDEX"),
            j=(u64, lambda v: F15_STOPS[v] if v in F15_STOPS else refused("STEP")),
            w=limit(F15_STOPS[1]),
            room=entries(5, F15_STOPS[1], 4),
        ),
    ),
    "comb": (
        dict(size=1, entries=[1, 2, 3], w=1),
        dict(size=only(1, [1, 1, 1], "STEP"), w=limit([1, 1, 1])),
    ),
    "accumulate": (
        dict(size=1, entries=[1, -1, 1], w=1),
        dict(size=only(1, [1, 0, 1], "STEP"), w=limit([1, 0, 1])),
    ),
    "write": (
        dict(kind=F, n=6, coeffs=F6),
        dict(kind=kinds(F6_RECORD, refused("RCOUNT", byte=6)), n=only(6, F6_RECORD, "INDEX")),
    ),
    "read": (
        dict(data=F6_RECORD, room=3),
        dict(room=entries(3, (F, 6, F6, 13), 2)),
    ),
    "cascade": (
        dict(indices=[2, 4, 8], h=1, room=8, scratch=5),
        dict(h=limit(BY_8), room=entries(8, BY_8, 7), scratch=entries(5, BY_8, 7)),
    ),
    "second": (
        dict(kind=F, n=15, h=1, room=9, scratch=46),
        dict(
            kind=kinds(F15_SECOND, I15_SECOND),
            n=only(15, F15_SECOND, "INDEX"),
            h=limit(F15_SECOND),
            room=entries(9, F15_SECOND, 8),
            scratch=entries(46, F15_SECOND, 8),
        ),
    ),
    "lookup": (
        dict(kind=F, n=6, own=I1_RECORD, house=I6_RECORD + F6_RECORD),
        dict(
            kind=kinds(F6_FOUND, (I6_RECORD, Found(0, 0, 0, HOUSE, 0, 20))),
            n=only(6, F6_FOUND, "INDEX"),
        ),
    ),
    "write_half": (
        dict(kind=F, n=6, coeffs=F6),
        dict(kind=kinds(F6_HALF, refused("RCOUNT", byte=6)), n=only(6, F6_HALF, "INDEX")),
    ),
    "read_half": (
        dict(data=F6_HALF, room=3),
        dict(room=entries(3, (F, 6, F6, 12), 2)),
    ),
    "to_half": (
        dict(data=F6_RECORD, room=12),
        dict(room=entries(12, TO_HALF, 2)),
    ),
    "to_whole": (
        dict(data=F6_HALF, room=13),
        dict(room=entries(13, TO_WHOLE, 2)),
    ),
    "rescue": (
        dict(shelf=F6_RECORD + I6_RECORD + EVEN_I6 + b"abc", room=28, slots=4, entries=5),
        dict(room=short_of(28, RESCUED), slots=short_of(4, RESCUED), entries=short_of(5, RESCUED)),
    ),
    "census": (
        dict(a=385, b=420, slots=9, entries=4096),
        dict(
            a=only(385, HEIGHTS, "RANGE"),
            b=only(420, HEIGHTS, "RANGE"),
            slots=(u64, lambda v: refused("ROWS") if v < 9 else HEIGHTS),
            entries=short_of(4096, HEIGHTS),
        ),
    ),
}
# The lists among the arguments, what fits their C type, and what the rules give for any numbers of 64 bits in them.
LISTS = {
    "comb": ("entries", dict(size=1, w=NO_LIMIT), [0, 0, 0], i64, comb_of),
    "accumulate": ("entries", dict(size=1, w=NO_LIMIT), [0, 0, 0], i64, accumulate_of),
    "write": ("coeffs", dict(kind=F, n=6), F6, i64, record_of),
    "write_half": ("coeffs", dict(kind=F, n=6), F6, i64, half_of),
    "cascade": ("indices", dict(h=2), [1, 2, 3], u64, cascade_of),
    "response": ("coeffs", dict(point=1), F6, i64, response_of),
}


class Wrapper(unittest.TestCase):
    @classmethod
    def setUpClass(cls):
        with mock.patch.object(bonvedrick.ctypes, "CDLL", Counting):
            cls.bv = Bonvedrick(LIBRARY)

    def outcome(self, function, **arguments):
        """What is delivered, or the refusal, or the exception's type; and how often C was called."""
        Counting.calls = 0
        try:
            came = getattr(self.bv, function)(**arguments)
        except Refused as e:
            came = refused(e.name, e.degree, e.byte, e.shelf)
        except (OverflowError, TypeError) as e:
            came = type(e)
        return came, Counting.calls

    def held(self, right, fits, function, **arguments):
        wanted = (right(), 1) if fits else (OverflowError, 0)
        self.assertEqual(self.outcome(function, **arguments), wanted)


class Numbers(Wrapper):
    def test_every_size_for_every_number(self):
        for function, (good, rules) in REQUESTS.items():
            for name, (fits, rule) in rules.items():
                # also those that a cut to 64 bits would make good
                near = [good[name], good[name] - 2**64, good[name] + 2**64]
                for v in [*SIZES, *near, *([1, 2] if name == "kind" else [])]:
                    with self.subTest(function=function, name=name, bits=v.bit_length(), negative=v < 0):
                        self.held(lambda: rule(v), fits(v), function, **{**good, name: v})

    def test_every_size_at_every_place_of_a_list(self):
        for function, (name, others, good, fits, rule) in LISTS.items():
            for place in range(len(good)):
                for v in [*SIZES, good[place] - 2**64, good[place] + 2**64, 127, 128, -128, -(2**63) + 1]:
                    values = [*good[:place], v, *good[place + 1 :]]
                    with self.subTest(function=function, place=place, bits=v.bit_length(), negative=v < 0):
                        self.held(lambda: rule(values), fits(v), function, **others, **{name: values})

    def test_the_message_names_the_number(self):
        with self.assertRaisesRegex(OverflowError, r"^n is not from 0 to 18446744073709551615$"):
            self.bv.polynomial(F, 2**64 + 21)
        with self.assertRaisesRegex(OverflowError, r"^coeffs\[1\] is not from -9223372036854775808 to "):
            self.bv.write(F, 3, [1, 2**64, 5])
        with self.assertRaisesRegex(OverflowError, r"^indices\[2\] is not from 0 to 18446744073709551615$"):
            self.bv.cascade([2, 4, -1])
        with self.assertRaisesRegex(OverflowError, r"^scratch is not from 0 to "):
            self.bv.cascade([2, 4, 8], scratch=-1)
        with self.assertRaisesRegex(OverflowError, r"^scratch is not from 0 to "):
            self.bv.second(F, 15, scratch=2**64)

    def test_what_is_no_whole_number(self):
        for function, (good, rules) in REQUESTS.items():
            for name in rules:
                for v in NO_NUMBERS:
                    with self.subTest(function=function, name=name, value=v):
                        self.assertEqual(self.outcome(function, **{**good, name: v}), (TypeError, 0))
        for function, (name, others, good, _, _) in LISTS.items():
            for place in range(len(good)):
                for v in NO_NUMBERS:
                    values = [*good[:place], v, *good[place + 1 :]]
                    with self.subTest(function=function, place=place, value=v):
                        self.assertEqual(self.outcome(function, **others, **{name: values}), (TypeError, 0))
            for no_list in None, 3, 1.5, "123", {1, 2, 3}, frozenset([1]), {0: 1, 1: -1, 2: 1}, {0: 1}.keys():
                with self.subTest(function=function, value=no_list):
                    self.assertEqual(self.outcome(function, **others, **{name: no_list}), (TypeError, 0))

    def test_what_is_a_whole_number_by_its_index(self):
        class Fifteen:
            def __index__(self):
                return 15

        class Six(enum.IntEnum):
            N = 6

        self.assertEqual(self.bv.polynomial(True, Fifteen(), True, True, room=9), F15_DONE)
        self.assertEqual(self.bv.write(F, Six.N, [True, -1, 1]), F6_RECORD)

        class Large:
            def __index__(self):
                return 2**64 + 15

        self.assertEqual(self.outcome("polynomial", kind=F, n=Large()), (OverflowError, 0))

    def test_the_number_that_was_looked_at_is_the_one_that_is_asked_with(self):
        class Other:
            calls = 0

            def __index__(self):
                self.calls += 1
                return 15 if self.calls == 1 else 21

        self.assertEqual(self.bv.polynomial(F, Other(), room=9), F15_DONE)


class Lists(Wrapper):
    def test_any_sequence_is_taken_and_none_is_changed(self):
        for function, (name, others, _, fits, rule) in LISTS.items():
            numbers = [5, -1, 7] if fits(-1) else [5, 1, 7]
            for make in list, tuple, lambda v: array.array("q", v), lambda v: memoryview(array.array("q", v)), iter:
                values, same = make(numbers), make(numbers)
                self.assertEqual(self.outcome(function, **others, **{name: values}), (rule(numbers), 1))
                if make is not iter:
                    self.assertEqual(values, same)
        values = [1, 2, NO_LIMIT]
        self.assertEqual(self.outcome("accumulate", size=1, entries=values)[0], refused("OVER"))
        self.assertEqual(values, [1, 2, NO_LIMIT])
        self.assertEqual(self.bv.comb(1, range(4)), [0, 1, 1, 1])

    def test_empty_ones(self):
        for empty in [], (), range(0), b"":
            self.assertEqual(self.bv.comb(1, empty), [])
            self.assertEqual(self.bv.accumulate(65535, empty), [])
            self.assertEqual(self.outcome("comb", size=0, entries=empty), (refused("STEP"), 1))
            self.assertEqual(self.outcome("comb", size=1, entries=empty, w=0), (refused("LIMIT"), 1))
            for write in "write", "write_half":
                self.assertEqual(self.outcome(write, kind=F, n=6, coeffs=empty), (refused("RCOUNT", byte=6), 1))
            self.assertEqual(self.outcome("cascade", indices=empty, h=0), (refused("LIST"), 1))
        for empty in b"", bytearray(), memoryview(b""):
            for ask in "read", "read_half", "to_half", "to_whole":
                self.assertEqual(self.outcome(ask, data=empty), (refused("CUT"), 1))
                self.assertEqual(self.outcome(ask, data=empty, room=0), (refused("CUT"), 1))

    def test_bytes_of_every_sort(self):
        for function, record, told in [
            ("read", F6_RECORD, (F, 6, F6, 13)),
            ("read_half", F6_HALF, (F, 6, F6, 12)),
            ("to_half", F6_RECORD, TO_HALF),
            ("to_whole", F6_HALF, TO_WHOLE),
        ]:
            twice = bytes(b for byte in record for b in (byte, 0))
            pairs = memoryview(array.array("H", record + b"more.."[len(record) % 2 :]))  # all of their bytes
            lent = bytearray(record)
            foreign = memoryview((ctypes.c_uint8 * len(record))(*record))
            mapped = mmap.mmap(-1, len(record))
            mapped[:] = record
            sorts = [record, lent, memoryview(record), memoryview(lent), memoryview(twice)[::2], pairs, foreign]
            for data in [*sorts, mapped]:
                with self.subTest(function=function, sort=type(data)):
                    self.assertEqual(self.outcome(function, data=data), (told, 1))
            mapped.close()
            self.assertEqual(lent, record)
            self.assertEqual(self.outcome(function, data=record + b"more"), (told, 1))
            for data in "c950", list(record), None, 13, array.array("B", record), 1.5, {}:
                with self.subTest(function=function, sort=type(data)):
                    self.assertEqual(self.outcome(function, data=data), (TypeError, 0))

    def test_cascades(self):
        """In as many entries as are needed, and with the order of the list."""
        for n in 1, 2, 9, 105, 30030, 65535:
            coeffs, answer = self.bv.polynomial(F, n)
            told = self.bv.cascade([n], room=len(coeffs), scratch=len(coeffs))
            self.assertEqual(told, (coeffs, answer._replace(additions=0)))
        one, last = [1] + [13099] * 5, [13099] * 5 + [1]
        self.assertEqual(self.bv.cascade(one)[1], Answer(0, 65491, 0, 1225881442660, 23694, 0))
        self.assertEqual(self.outcome("cascade", indices=last), (refused("OVER", 65491), 1))
        tall = [13982] * 6 + [210]
        self.assertEqual(self.bv.cascade(tall, room=41989, scratch=6991)[1].height, 9184446742301304167)
        self.assertEqual(self.outcome("cascade", indices=tall, room=41988), (refused("SHORT", 41988), 1))
        self.assertEqual(self.outcome("cascade", indices=tall, scratch=6990), (refused("SHORT", 41988), 1))
        for indices in [3] * 9, [65521, 17], [65521] * 8:
            self.assertEqual(self.outcome("cascade", indices=indices, h=0), (refused("LIST"), 1))

    def test_both_engines(self):
        """In as many entries as are needed, and in one less of each."""
        for n in 1, 2, 9, 105, 210, 1155, 15015, 32768, 65521, 65535:
            for kind in F, I:
                coeffs, answer = self.bv.polynomial(kind, n)
                told, rooms = (coeffs, answer._replace(additions=0)), dict(room=len(coeffs), scratch=2 * n + 16)
                self.assertEqual(self.bv.second(kind, n), told)
                self.assertEqual(self.bv.second(kind, n, answer.height, **rooms), told)
                for name, enough in rooms.items():
                    asked = dict(kind=kind, n=n, h=1, **{**rooms, name: enough - 1})
                    self.assertEqual(self.outcome("second", **asked), (refused("SHORT", answer.degree), 1))
                if answer.height > 1:
                    asked = dict(kind=kind, n=n, h=answer.height - 1, **rooms)
                    self.assertEqual(self.outcome("second", **asked), (refused("TALL", answer.degree), 1))

    def test_there_and_back(self):
        for kind, n in (F, 1), (I, 1), (F, 105), (I, 105), (F, 65535), (I, 30030), (F, 65521):
            coeffs, answer = self.bv.polynomial(kind, n)
            self.assertEqual((len(coeffs), sum(coeffs)), (answer.degree + 1, answer.gain))
            self.assertEqual(abs(coeffs[answer.peak]), answer.height)
            record = self.bv.write(kind, n, coeffs)
            self.assertEqual(self.bv.read(record), (kind, n, coeffs, len(record)))
            self.assertEqual(self.bv.read(memoryview(record), room=len(coeffs)), (kind, n, coeffs, len(record)))
        entries = [-(2**63), 3, 0, 2**63 - 1, -1]
        self.assertEqual(self.bv.accumulate(2, self.bv.comb(2, entries[1:])), entries[1:])


def damaged(at, byte):
    return F6_RECORD[:at] + bytes([byte]) + F6_RECORD[at + 1 :]


# F(6)'s record that doesn't read, in every way: cut at each place, and each code with a byte changed.
BROKEN = [("CUT", F6_RECORD[:end]) for end in range(1, 13)]
BROKEN += [(name, damaged(at, byte)) for at, byte, name in [(0, 0, "MARK"), (2, 3, "RKIND"), (3, 3, "RWIDTH")]]
BROKEN += [(name, damaged(at, byte)) for at, byte, name in [(4, 0, "RINDEX"), (6, 9, "RCOUNT"), (12, 128, "WIDTH")]]


class Halves(Wrapper):
    def test_there_and_back(self):
        for n in 1, 2, 3, 4, 6, 105, 32768, 40755, 62205, 65521, 65535:
            for kind in F, I:
                coeffs, answer = self.bv.polynomial(kind, n)
                record, half = self.bv.write(kind, n, coeffs), self.bv.write_half(kind, n, coeffs)
                self.assertEqual(len(half), 10 + record[3] * (len(coeffs) + 1 >> 1))
                self.assertEqual(self.bv.read_half(half), (kind, n, coeffs, len(half)))
                told = Converted(0, answer.degree, len(record), len(half), 0)
                self.assertEqual(self.bv.to_half(record), (half, told))
                self.assertEqual(self.bv.to_half(memoryview(record), len(half)), (half, told))
                told = Converted(0, answer.degree, len(half), len(record), 0)
                self.assertEqual(self.bv.to_whole(half + b"more"), (record, told))
                self.assertEqual(self.bv.to_whole(bytearray(half), len(record)), (record, told))

    def refusals(self, function, data, name, **told):
        for room in 0, 12:
            self.assertEqual(self.outcome(function, data=data, room=room), (refused(name, **told), 1))

    def test_what_is_wrong_with_a_record(self):
        for at, byte, name in [(0, 0, "MARK"), (2, 3, "RKIND"), (3, 3, "RWIDTH"), (4, 0, "RINDEX"), (6, 9, "RCOUNT")]:
            told = {} if name == "MARK" else dict(byte=at)
            self.refusals("to_half", EVEN_I6[:at] + bytes([byte]) + EVEN_I6[at + 1 :], name, **told)
            for function in "read_half", "to_whole":
                self.refusals(function, I6_HALF[:at] + bytes([byte]) + I6_HALF[at + 1 :], name, **told)
        # the middle is 128, which takes two bytes, or 1, which has no opposite
        self.refusals("to_half", EVEN_I6[:12] + b"\x80\1\1", "WIDTH")
        self.refusals("to_half", EVEN_I6[:12] + b"\1\1\1", "UNEVEN")
        self.refusals("to_half", EVEN_I6[:14] + b"\2", "UNEVEN")
        self.refusals("to_whole", I6_HALF[:12] + b"\x80", "WIDTH")
        self.refusals("to_whole", I6_HALF[:12] + b"\1", "UNEVEN")
        for byte, name in (128, "WIDTH"), (1, "UNEVEN"):
            data = I6_HALF[:12] + bytes([byte])
            self.assertEqual(self.outcome("read_half", data=data), (refused(name), 1))
            self.assertEqual(self.outcome("read_half", data=data, room=4), (refused("SHORT", 4), 1))
        for coeffs in [-1, -1, 1, 1, 1], [-1, -1, 0, 1, -1], [-1, -1, 0, -1, -1]:
            self.assertEqual(self.outcome("write_half", kind=I, n=6, coeffs=coeffs), (refused("UNEVEN"), 1))

    def test_each_form_has_its_mark(self):
        self.refusals("to_half", F6_HALF, "MARK")
        for function in "to_whole", "read_half":
            self.refusals(function, F6_RECORD, "MARK")
        self.refusals("read", F6_HALF, "MARK")
        self.assertEqual(self.outcome("lookup", kind=F, n=6, own=F6_HALF, house=F6_RECORD)[0][1], "MARK")

    def test_c_is_lent_the_very_bytes_and_no_more_room_than_is_needed(self):
        shelf = I1_RECORD + EVEN_I6 + F6_HALF
        start = ctypes.cast(ctypes.c_char_p(shelf), ctypes.c_void_p).value
        self.bv.to_half(memoryview(shelf)[11:])
        self.assertEqual((Counting.arguments[:2], Counting.arguments[3]), ((start + 11, 27), 27))
        self.bv.to_whole(memoryview(shelf)[26:])
        self.assertEqual((Counting.arguments[:2], Counting.arguments[3]), ((start + 26, 12), 24))
        self.bv.read_half(memoryview(shelf)[26:])
        self.assertEqual(Counting.arguments[:2], (start + 26, 12))
        large = bytearray(EVEN_I6 + bytes(2**22))
        self.assertEqual(self.bv.to_half(large)[0], I6_HALF)
        self.assertEqual(Counting.arguments[3], bonvedrick.MOST_BYTES)
        large.clear()  # nothing of it is held any more


class Shelves(Wrapper):
    def told(self, kind, n, own, house):
        came, calls = self.outcome("lookup", kind=kind, n=n, own=own, house=house)
        self.assertEqual(calls, 1)
        return came

    def test_the_own_shelf_first_and_the_first_record_of_it(self):
        own, house = I6_RECORD + F6_RECORD + OTHER_F6, OTHER_F6 + I1_RECORD + F6_RECORD + I1_RECORD
        self.assertEqual(self.told(F, 6, own, house), (F6_RECORD, Found(0, 0, 0, OWN, 20, 13)))
        self.assertEqual(self.told(F, 6, house, own), (OTHER_F6, Found(0, 0, 0, OWN, 0, 13)))
        self.assertEqual(self.told(I, 1, own, house), (I1_RECORD, Found(0, 0, 0, HOUSE, 13, 11)))
        self.assertEqual(self.told(I, 6, b"", own), (I6_RECORD, Found(0, 0, 0, HOUSE, 0, 20)))
        self.assertEqual(self.told(I, 6, own, b""), (I6_RECORD, Found(0, 0, 0, OWN, 0, 20)))
        self.assertEqual(self.told(I, 6, own, own), (I6_RECORD, Found(0, 0, 0, OWN, 0, 20)))
        self.assertEqual(self.told(F, 262, own, house), refused("ABSENT"))
        self.assertEqual(self.outcome("lookup", kind=F, n=6), (refused("ABSENT"), 1))
        record, _ = self.bv.lookup(I, 6, own, house)
        self.assertEqual(self.bv.read(record), (I, 6, [-1, -1, 0, 1, 300], 20))

    def test_a_record_that_does_not_read_stops_a_lookup(self):
        good = I6_RECORD + I1_RECORD
        for name, broken in BROKEN:
            with self.subTest(name=name, length=len(broken)):
                shelf = good + broken
                # the house is not looked at where one's own shelf stops
                self.assertEqual(self.told(F, 6, shelf, F6_RECORD), refused(name, byte=31, shelf=OWN))
                self.assertEqual(self.told(F, 6, good, shelf), refused(name, byte=31, shelf=HOUSE))
                self.assertEqual(self.told(F, 6, broken, F6_RECORD), refused(name, byte=0, shelf=OWN))
                self.assertEqual(self.told(F, 0, shelf, shelf), refused("INDEX"))
                # what comes after a match is not seen
                self.assertEqual(self.told(I, 1, shelf, broken)[1], Found(0, 0, 0, OWN, 20, 11))
                self.assertEqual(self.told(F, 6, F6_RECORD, shelf)[1], Found(0, 0, 0, OWN, 0, 13))

    def test_records_come_one_after_another(self):
        shelf = I6_RECORD + F6_RECORD + I1_RECORD + OTHER_F6
        entries = [
            *(Entry(I, 6, 4, 0, I6_RECORD), Entry(F, 6, 2, 20, F6_RECORD)),
            *(Entry(I, 1, 0, 33, I1_RECORD), Entry(F, 6, 2, 44, OTHER_F6)),
        ]
        self.assertEqual(list(self.bv.records(shelf)), entries)
        self.assertEqual(list(self.bv.records(b"")), [])
        for name, broken in BROKEN:
            with self.subTest(name=name, length=len(broken)):
                walk = self.bv.records(shelf + broken)
                self.assertEqual([next(walk) for _ in entries], entries)
                with self.assertRaises(Refused) as caught:
                    next(walk)
                e = caught.exception
                self.assertEqual((e.name, e.degree, e.byte, e.shelf), (name, None, len(shelf), 0))
                self.assertEqual(list(walk), [])

    def sorts(self):
        """A shelf of I(6), F(6) and I(1) in each sort of bytes, and the object that holds them."""
        shelf = I6_RECORD + F6_RECORD + I1_RECORD
        lent = bytearray(shelf)
        around = b"abc" + shelf + b"def"
        pairs = array.array("H", shelf)  # twenty-two of two bytes each
        foreign = (ctypes.c_uint8 * len(shelf))(*shelf)
        yield shelf, shelf
        yield lent, lent
        yield memoryview(shelf), shelf
        yield memoryview(lent), lent
        yield memoryview(around)[3:-3], around
        yield memoryview(pairs), pairs
        yield memoryview(lent).cast("B", (4, 11)), lent
        yield memoryview(foreign), foreign
        with tempfile.TemporaryFile() as file:
            file.write(shelf)
            file.flush()
            for access in mmap.ACCESS_READ, mmap.ACCESS_WRITE, mmap.ACCESS_COPY:
                mapped = mmap.mmap(file.fileno(), 0, access=access)
                yield mapped, mapped
                mapped.close()  # nothing of it is held any more

    def test_of_every_sort_and_the_stretch_is_a_part_of_it(self):
        for shelf, holder in self.sorts():
            with self.subTest(sort=type(shelf), holder=type(holder)):
                own, found = self.bv.lookup(F, 6, shelf)
                self.assertEqual((own, found), (F6_RECORD, Found(0, 0, 0, OWN, 20, 13)))
                house, _ = self.bv.lookup(F, 6, I1_RECORD, shelf)
                entries = list(self.bv.records(shelf))
                self.assertEqual([e.record for e in entries], [I6_RECORD, F6_RECORD, I1_RECORD])
                for stretch in [own, house, *(e.record for e in entries)]:
                    self.assertIs(stretch.obj, holder)
                    self.assertEqual((stretch.format, stretch.ndim, stretch.c_contiguous), ("B", 1, True))
                    stretch.release()
        changing = bytearray(I6_RECORD + F6_RECORD)
        record, _ = self.bv.lookup(F, 6, changing)
        changing[30] = 9
        self.assertEqual(record[10], 9)

    def test_c_is_lent_the_very_bytes(self):
        one, two = I6_RECORD + F6_RECORD, bytearray(I1_RECORD + OTHER_F6)
        first = ctypes.cast(ctypes.c_char_p(one), ctypes.c_void_p).value
        second = ctypes.addressof((ctypes.c_uint8 * len(two)).from_buffer(two))
        self.told(F, 6, memoryview(one)[20:], two)
        self.assertEqual(Counting.arguments, (F, 6, first + 20, 13, second, len(two)))
        for at, _ in zip((0, 20), self.bv.records(one)):
            self.assertEqual(Counting.arguments, (first, len(one), at))
        self.bv.read(memoryview(one)[20:])
        self.assertEqual(Counting.arguments[:2], (first + 20, 13))

    def test_no_copy_is_made_of_a_large_one(self):
        large, coeffs = bytearray(), [1] * 65521
        while len(large) < 2**22:
            large += self.bv.write(F, 65521, coeffs)
        for shelf in bytes(large), large, memoryview(large):
            tracemalloc.start()
            self.assertEqual(self.told(F, 6, shelf, shelf), refused("ABSENT"))
            self.assertEqual(sum(e.n for e in self.bv.records(shelf)), len(large) // 65531 * 65521)
            _, most = tracemalloc.get_traced_memory()
            tracemalloc.stop()
            self.assertLess(most, 2**18)

    def test_nothing_is_held_after_a_refusal_or_the_end(self):
        shelf = bytearray(F6_RECORD + b"x")
        kept = []
        for ask in lambda: self.bv.lookup(I, 6, shelf), lambda: list(self.bv.records(shelf)):
            try:
                ask()
            except Refused as e:
                kept.append(e)  # with the frames that it came through
        told = "CUT (8), the record at byte 13 of the own shelf doesn't read"
        self.assertEqual([str(e) for e in kept], [told, told.replace("own ", "")])
        shelf.pop()
        self.assertEqual([e.start for e in self.bv.records(shelf)], [0])
        shelf.clear()

    def test_what_is_no_shelf(self):
        twice = bytes(b for byte in F6_RECORD for b in (byte, 0))
        no_shelves = ["c950", list(F6_RECORD), None, 13, array.array("B", F6_RECORD), 1.5, {}, memoryview(twice)[::2]]
        for data in no_shelves:
            with self.subTest(sort=type(data)):
                for own, house in (data, F6_RECORD), (F6_RECORD, data):
                    asked = self.outcome("lookup", kind=F, n=6, own=own, house=house)
                    self.assertEqual(asked, (TypeError, 0))
                self.assertEqual(self.outcome("records", shelf=data), (TypeError, 0))


class Rescues(Wrapper):
    def told(self, shelf, **rooms):
        came, calls = self.outcome("rescue", shelf=shelf, **rooms)
        self.assertEqual(calls, 1)
        return came

    def test_what_is_kept_and_what_is_skipped(self):
        other = I6_RECORD + OTHER_F6 + I1_RECORD  # these read, and their coefficients are others
        for shelf, kept, skipped in [
            (b"", b"", []),
            (b"\xc9", b"", [(0, 1)]),
            (F6_RECORD, F6_RECORD, []),
            (F6_RECORD + EVEN_I6 + F6_RECORD, F6_RECORD + EVEN_I6 + F6_RECORD, []),
            (other, b"", [(0, 44)]),
            (other + F6_RECORD + other + EVEN_I6 + other, F6_RECORD + EVEN_I6, [(0, 44), (57, 44), (116, 44)]),
            (F6_HALF + F6_RECORD + I6_HALF, F6_RECORD, [(0, 12), (25, 13)]),
            (F6_RECORD[:12] + F6_RECORD + EVEN_I6[:14], F6_RECORD, [(0, 12), (25, 14)]),
        ]:
            with self.subTest(length=len(shelf)):
                self.assertEqual(self.told(shelf), (kept, skipped))
                self.assertEqual(self.told(kept), (kept, []))
                if kept:
                    self.assertEqual(self.told(shelf, room=len(kept) - 1), refused("SHORT"))
                if skipped:
                    self.assertEqual(self.told(shelf, slots=2 * len(skipped) - 1), refused("SHORT"))
                rooms = dict(room=len(kept), slots=2 * len(skipped), entries=5)
                self.assertEqual(self.told(shelf, **rooms), (kept, skipped))

    def test_each_byte_that_is_another(self):
        shelf = F6_RECORD + EVEN_I6 + F6_RECORD
        for at in range(13, 28):
            for bit in range(8):
                damaged = bytearray(shelf)
                damaged[at] ^= 1 << bit
                self.assertEqual(self.told(damaged), (2 * F6_RECORD, [(13, 15)]))
        for end in range(len(shelf)):
            kept = 28 if end >= 28 else 13 if end >= 13 else 0
            self.assertEqual(self.told(shelf[:end]), (shelf[:kept], [(kept, end - kept)] if end > kept else []))

    def test_every_polynomial_in_as_much_room_as_it_needs(self):
        for n in 1, 2, 3, 105, 32768, 40755, 62205, 65521, 65535:
            for kind in F, I:
                coeffs, _ = self.bv.polynomial(kind, n)
                record = self.bv.write(kind, n, coeffs)
                rooms = dict(room=len(record), slots=2, entries=len(coeffs))
                self.assertEqual(self.told(b"x" + record, **rooms), (record, [(0, 1)]))
                for name, enough in rooms.items():
                    self.assertEqual(self.told(b"x" + record, **{**rooms, name: enough - 1}), refused("SHORT"))

    def test_the_rooms_that_it_lends_are_always_enough(self):
        """As many stretches as there can be: a byte before each of the least records, and one after all."""
        least = bytes.fromhex("c9 50 02 01 01 00 01 00 00 00 01")
        for many in range(40):
            for more in b"", b"x":
                shelf = (b"x" + least) * many + more
                skipped = [(12 * i, 1) for i in range(many + len(more))]
                self.assertEqual(self.told(shelf), (least * many, skipped))

    def test_shelves_of_every_sort(self):
        for shelf in [b"x" + F6_RECORD, bytearray(b"x" + F6_RECORD), memoryview(b"x" + F6_RECORD)]:
            self.assertEqual(self.told(shelf), (F6_RECORD, [(0, 1)]))
        with tempfile.TemporaryFile() as file:
            file.write(b"x" + F6_RECORD)
            file.flush()
            with mmap.mmap(file.fileno(), 0, access=mmap.ACCESS_READ) as mapped:
                self.assertEqual(self.told(mapped), (F6_RECORD, [(0, 1)]))
        for data in "c950", list(F6_RECORD), None, 13, array.array("B", F6_RECORD), memoryview(b"x" + F6_RECORD)[::2]:
            self.assertEqual(self.outcome("rescue", shelf=data), (TypeError, 0))

    def test_c_is_lent_the_very_bytes_and_no_more_room_than_is_needed(self):
        shelf = I1_RECORD + F6_RECORD + b"x"
        start = ctypes.cast(ctypes.c_char_p(shelf), ctypes.c_void_p).value
        self.bv.rescue(memoryview(shelf)[11:])
        self.assertEqual(Counting.arguments[:2], (start + 11, 14))
        self.assertEqual(Counting.arguments[3::2], (14, 4, bonvedrick.MOST_ENTRIES))
        changing = bytearray(b"x" + F6_RECORD)
        for rooms in dict(), dict(room=0):
            self.outcome("rescue", shelf=changing, **rooms)
            changing.append(0)  # nothing of it is held any more


def bits(value):
    """The bits of both parts, by which -0 is not 0; every NaN is one."""
    return [struct.pack("<d", part) if part == part else "NaN" for part in (value.real, value.imag)]


class Responses(Wrapper):
    def held_to(self, coeffs, point):
        self.assertEqual(bits(self.bv.response(coeffs, point)), bits(response_of(coeffs, point)))

    def test_points_that_are_refused(self):
        above = math.nextafter(1, 2) if hasattr(math, "nextafter") else 1 + 2**-52
        for part in above, -above, 2, 1e308, math.inf, -math.inf, math.nan:
            for other in 0, -0.0, 1, -1, 0.5, part, math.nan:
                for point in complex(part, other), complex(other, part):
                    for coeffs in [], F6, [2**53 + 1], [-(2**63), 1]:
                        self.assertEqual(self.outcome("response", coeffs=coeffs, point=point), (refused("POINT"), 1))
        for point in 1, -1, 1 + 1j, -1 - 1j, complex(-0.0, 5e-324):
            self.assertEqual(bits(self.bv.response([], point)), bits(0j))
            for place in range(3):
                coeffs = [2**53, -(2**53), 2**53]
                self.held_to(coeffs, point)
                for c in 2**53 + 1, -(2**53) - 1, 2**63 - 1, -(2**63):
                    coeffs[place] = c
                    self.assertEqual(self.outcome("response", coeffs=coeffs, point=point), (refused("COARSE"), 1))

    def test_the_value_is_that_of_the_sequence_bit_by_bit(self):
        parts = [0.0, -0.0, 1.0, -1.0, 0.1, -0.3, 0.7, 1e-160, -3e-308, 5e-324, 1 - 2**-53]
        for coeffs in [0], [0, 0], [0, 0, -3], [-1, 1], [1, 2**53], [3, -(2**53), 7, 2**53 - 1], list(range(9)), F15:
            for real in parts:
                for imag in parts:
                    self.held_to(coeffs, complex(real, imag))
        # told
        self.assertEqual(bits(self.bv.response([0], -1 - 1j)), bits(complex(0.0, -0.0)))
        self.assertEqual(bits(self.bv.response([5], complex(-0.0, -0.0))), bits(complex(5.0, -0.0)))
        self.assertEqual(bits(self.bv.response([-1, 1], complex(1, -0.0))), bits(0j))
        self.assertEqual(bits(self.bv.response([1, 2**53], 1)), bits(complex(2.0**53, 0.0)))  # a tie

    def test_infinities_and_what_is_no_number(self):
        for point in 1 + 1j, -1 + 1j, 1 - 1j, -1 - 1j:
            met = set()
            for many in range(1938, 1950):
                self.held_to([2**53] * many, point)
                told = self.bv.response([2**53] * many, point)
                met.update((math.isinf(part), math.isnan(part)) for part in (told.real, told.imag))
            self.assertEqual(met, {(False, False), (True, False), (False, True)})

    def test_the_gain_and_the_notches(self):
        for n in 1, 2, 3, 4, 9, 105, 32768, 65521, 65535:
            for kind in F, I:
                coeffs, told = self.bv.polynomial(kind, n)
                self.assertEqual(self.bv.response(coeffs, 1), told.gain)
                for point in -1, 1j, -1j:
                    self.held_to(coeffs, point)
        for n, point in (1, 1), (2, -1), (4, 1j), (4, -1j):
            self.assertEqual(self.bv.response(self.bv.polynomial(F, n)[0], point), 0)

    def test_what_is_a_point(self):
        class Half:
            def __float__(self):
                return 0.5

        class Turn:
            def __complex__(self):
                return 1j

        for point in 1, True, 0.5, Half(), Turn(), 1j, fractions.Fraction(1, 3), decimal.Decimal("0.25"):
            self.held_to(F15, point)
        for point in "1", "1j", b"1", None, [1], (0, 1), object():
            self.assertEqual(self.outcome("response", coeffs=F15, point=point), (TypeError, 0))
        self.assertEqual(self.outcome("response", coeffs=F15, point=10**400), (OverflowError, 0))


class Censuses(Wrapper):
    def told(self, a, b, **rooms):
        came, calls = self.outcome("census", a=a, b=b, **rooms)
        self.assertEqual(calls, 1)
        return came

    def test_the_rows(self):
        self.assertEqual(self.told(1, 104), ([(1, 1, 104)], 1761))
        self.assertEqual(self.told(1, 105), ([(1, 1, 104), (2, 105, 1)], 1859))
        rows, additions = self.bv.census(1, 4095)
        self.assertEqual([row.height for row in rows], [1, 2, 3, 4, 5, 6, 7])
        self.assertEqual([row.smallest for row in rows], [1, 105, 385, 1365, 1785, 2805, 3135])
        self.assertEqual([row.count for row in rows], [3603, 417, 50, 15, 8, 1, 1])
        self.assertEqual(additions, 4902791)

    def test_one_index_and_some(self):
        """By the polynomials themselves."""
        answers = {n: self.bv.polynomial(F, n)[1] for n in [*range(1, 121), *range(380, 425), 1365, 3135, 4094, 4095]}
        for n, answer in answers.items():
            self.assertEqual(self.told(n, n, slots=3), ([(answer.height, n, 1)], answer.additions))
        for a, b in (1, 120), (100, 110), (380, 424), (385, 386), (4094, 4095):
            rows = {}
            for n in range(a, b + 1):
                height = answers[n].height
                rows[height] = (height, *((rows[height][1], rows[height][2] + 1) if height in rows else (n, 1)))
            right = [rows[height] for height in sorted(rows)], sum(answers[n].additions for n in range(a, b + 1))
            self.assertEqual(self.told(a, b), right)
            self.assertEqual(self.told(a, b, slots=3 * len(rows)), right)
            for slots in 0, 1, 3 * len(rows) - 1:
                self.assertEqual(self.told(a, b, slots=slots), refused("ROWS"))

    def test_what_is_refused_first(self):
        for slots in 0, 2, 192:
            for a, b in (0, 0), (0, 5), (5, 4), (1, 4096), (4096, 4096), (4095, 1), (2**64 - 1, 2**64 - 1):
                for entries in 0, 4095, 4096:
                    self.assertEqual(self.told(a, b, slots=slots, entries=entries), refused("RANGE"))
            for entries in 0, 1, 4095:
                self.assertEqual(self.told(1, 4095, slots=slots, entries=entries), refused("SHORT"))
        for slots in 0, 20:
            self.assertEqual(self.told(1, 4095, slots=slots), refused("ROWS"))

    def test_no_more_is_lent_than_is_needed(self):
        self.bv.census(1, 2)
        self.assertEqual(Counting.arguments[3::2], (3 * 4095, 4096))
        self.bv.census(1, 2, 7, 2**64 - 1)
        self.assertEqual(Counting.arguments[3::2], (7, 4096))


class Refusals(Wrapper):
    def each(self):
        """A refusal of each code, and one that this wrapper does not know, with what it says."""
        fields = [(2, 3, "RKIND"), (3, 3, "RWIDTH"), (4, 0, "RINDEX"), (6, 9, "RCOUNT")]
        asked = [
            ("KIND", lambda: self.bv.polynomial(3, 15)),
            ("INDEX", lambda: self.bv.polynomial(F, 65536)),
            ("LIMIT", lambda: self.bv.polynomial(F, 15, 0)),
            ("SHORT", lambda: self.bv.polynomial(F, 15, room=8)),
            ("OVER", lambda: self.bv.polynomial(F, 105, w=1)),
            ("TALL", lambda: self.bv.polynomial(F, 105, 1)),
            ("STEP", lambda: self.bv.partial(F, 15, 4)),
            ("CUT", lambda: self.bv.read(F6_RECORD[:12])),
            ("OVER", lambda: self.bv.comb(1, [0, 5], w=4)),
            ("SHORT", lambda: self.bv.polynomial(I, 1, room=0)),
            ("LIST", lambda: self.bv.cascade([])),
            ("TALL", lambda: self.bv.cascade([2, 2], 1)),
            ("SHORT", lambda: self.bv.second(F, 15, scratch=45)),
            ("ABSENT", lambda: self.bv.lookup(F, 6, I6_RECORD, I1_RECORD)),
            ("WIDTH", lambda: self.bv.lookup(F, 6, I6_RECORD + damaged(10, 128), F6_RECORD)),
            ("RCOUNT", lambda: self.bv.lookup(F, 6, I6_RECORD, damaged(6, 9))),
            ("RKIND", lambda: list(self.bv.records(F6_RECORD + damaged(2, 3)))),
            ("UNEVEN", lambda: self.bv.to_half(damaged(12, 2))),
            ("SHORT", lambda: self.bv.to_whole(F6_HALF, 12)),
            ("RWIDTH", lambda: self.bv.read_half(F6_HALF[:3] + b"\3" + F6_HALF[4:])),
            ("SHORT", lambda: self.bv.rescue(F6_RECORD, entries=2)),
            ("POINT", lambda: self.bv.response([2**53 + 1], 2)),
            ("COARSE", lambda: self.bv.response([2**53 + 1], 1)),
            ("RANGE", lambda: self.bv.census(2, 1)),
            ("ROWS", lambda: self.bv.census(1, 105, 5)),
            ("SHORT", lambda: self.bv.census(1, 105, 5, 4095)),
        ]
        for at, byte, name in [(0, 0, "MARK"), *fields, (10, 128, "WIDTH")]:
            asked.append((name, lambda at=at, byte=byte: self.bv.read(damaged(at, byte))))
        for name, ask in asked:
            with self.assertRaises(Refused) as caught:
                ask()
            self.assertEqual(caught.exception.name, name)
            yield caught.exception
        yield Refused(23)

    def test_every_code_is_met_with_its_number(self):
        met = {e.code: e.name for e in self.each()}
        self.assertEqual(met, {**{code: name for code, name in NAMES.items() if code}, 23: "?"})

    def test_the_text_has_what_the_answer_has(self):
        self.assertEqual(
            [str(e) for e in self.each()],
            [
                "KIND (1)",
                "INDEX (2)",
                "LIMIT (3)",
                "SHORT (4), degree 8",
                "OVER (5), degree 48",
                "TALL (6), degree 48",
                "STEP (7)",
                "CUT (8)",
                "OVER (5)",
                "SHORT (4), degree 0",
                "LIST (16)",
                "TALL (6), degree 2",
                "SHORT (4), degree 8",
                "ABSENT (17)",
                "WIDTH (11), the record at byte 20 of the own shelf doesn't read",
                "RCOUNT (15), the record at byte 0 of the house shelf doesn't read: its number of coefficients is"
                " wrong: right is the degree of that kind at that index, plus 1",
                "RKIND (12), the record at byte 13 of the shelf doesn't read: its kind is wrong: right is 1 or 2",
                "UNEVEN (18)",
                "SHORT (4), degree 2",
                "RWIDTH (13), the record's width, at byte 3, is wrong: right is 1, 2, 4 or 8",
                "SHORT (4)",
                "POINT (19)",
                "COARSE (20)",
                "RANGE (21)",
                "ROWS (22)",
                "SHORT (4)",
                "MARK (9)",
                "RKIND (12), the record's kind, at byte 2, is wrong: right is 1 or 2",
                "RWIDTH (13), the record's width, at byte 3, is wrong: right is 1, 2, 4 or 8",
                "RINDEX (14), the record's index, at byte 4, is wrong: right is from 1 to 65535",
                "RCOUNT (15), the record's number of coefficients, at byte 6, is wrong: right is the degree of that"
                " kind at that index, plus 1",
                "WIDTH (11)",
                "? (23)",
            ],
        )

    def test_copied_and_pickled(self):
        for e in self.each():
            e.stage = "decimator"  # what a caller hangs on it goes along
            copies = [copy.copy(e), copy.deepcopy(e)]
            copies += [pickle.loads(pickle.dumps(e, protocol)) for protocol in range(pickle.HIGHEST_PROTOCOL + 1)]
            for other in copies:
                self.assertIsNot(other, e)
                self.assertIs(type(other), Refused)
                self.assertEqual((str(other), repr(other), vars(other)), (str(e), repr(e), vars(e)))

    def test_answers_and_the_library_can_be_pickled(self):
        told = self.bv.polynomial(F, 15), self.bv.partial(F, 15, 1)
        self.assertEqual(pickle.loads(pickle.dumps(told)), told)
        self.assertEqual(pickle.loads(pickle.dumps(self.bv)).polynomial(F, 15, room=9), F15_DONE)

    def test_in_a_pool(self):
        for method in multiprocessing.get_all_start_methods():
            with self.subTest(method=method), multiprocessing.get_context(method).Pool(1) as pool:
                bv = Bonvedrick(LIBRARY)
                pending = pool.apply_async(bv.polynomial, (F, 105, 1))
                with self.assertRaises(Refused) as caught:
                    pending.get(60)
                self.assertEqual(str(caught.exception), "TALL (6), degree 48")
                with self.assertRaises(OverflowError):
                    pool.apply_async(bv.polynomial, (F, 2**64 + 21)).get(60)
                self.assertEqual(pool.apply_async(bv.polynomial, (F, 15, 1, 1, 9)).get(60), F15_DONE)


class Registers(unittest.TestCase):
    def test_2_to_64_bits(self):
        self.assertEqual([registers(b) for b in (2, 20, 64)], [1, 524287, NO_LIMIT])
        for bits in -(2**64), -1, 0, 1, 65, 2**64 + 20:
            with self.assertRaises(ValueError):
                registers(bits)
        for bits in 20.0, "20", None:
            with self.assertRaises(TypeError):
                registers(bits)


if __name__ == "__main__":
    LIBRARY = sys.argv.pop(1)
    unittest.main()
