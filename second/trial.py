"""Every request of the trial, each said once: (name, numbers, buffers), in the order of crates/trial/stdin."""

import cascades
import censuses
import choice
import halves
import over
import refusals
import rescues
import responses
import shelf
import shelves
import steps
from cascades import lent
from choice import FILLING, LARGEST_LIMIT
from kept import degree
from whole import divisors_below


def edges():
    """The requests at the edges of the rules."""
    for *numbers, room in refusals.POLYNOMIALS:
        yield "polynomial", numbers, (lent(room),)
    for *numbers, room in refusals.PARTIALS:
        yield "partial", numbers, (lent(room),)
    for case in refusals.CASCADES:
        yield cascades.asked(*case)
    for *numbers, room, scratch in refusals.SECONDS:
        yield "second", numbers, (lent(room), lent(scratch))


def table():
    """Both kinds of each index, in a few entries more than needed, and of some in all that can be lent."""
    for place, n in enumerate(choice.table()):
        for kind in (1, 2):
            rooms = [degree(kind, n) + 4] + [65536] * (place % 25 == 0)
            for room in rooms:
                yield "polynomial", (kind, n, LARGEST_LIMIT, LARGEST_LIMIT), ([FILLING] * room,)


def seconds():
    """The second engine for both kinds of each index, its scratch just long enough or a little longer."""
    for place, n in enumerate(choice.table()):
        for kind in (1, 2):
            numbers = kind, n, LARGEST_LIMIT
            yield "second", numbers, ([FILLING] * (degree(kind, n) + 4), [FILLING] * (2 * n + 16 + place % 3))


def stops():
    """Every stop, and one more, which is refused."""
    for r in choice.PARTIAL_ORDERS:
        for kind in (1, 2):
            for j in range(len(divisors_below(r)) + 2):
                yield "partial", (kind, r, j, LARGEST_LIMIT), ([FILLING] * refusals.ROOM,)


def cases():
    parts = (edges, steps.cases, shelf.cases, stops, over.cases, cascades.cases, table, seconds, shelves.cases,
             halves.cases, rescues.cases, responses.cases, censuses.cases)
    for some in parts:
        yield from some()
