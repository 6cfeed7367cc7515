"""The lines of the trial: how a request is spelled, and its answer (README.md has the form of both).

A request is a name, its numbers and what is lent: indices as a tuple, entries as a list, bytes as bytes. Its answer is the
fields in their order, and what then stands in each buffer that can be written.
"""

import answers
import censuses
import halves
import rescues
import responses
import shelf
import shelves
import steps

PRIME = 144115188075851879  # and (PRIME - 1) / 2 is prime
FEW = 64  # entries that are spelled out in an answer


def polynomial(numbers, lent):
    fields, written = answers.polynomial(*numbers, len(lent))
    return fields, written + lent[len(written):]


def partial(numbers, lent):
    fields, written = answers.partial(*numbers, len(lent))
    return fields, written + lent[len(written):]


def comb(numbers, lent):
    return steps.step("C", *numbers, lent)


def accumulate(numbers, lent):
    return steps.step("A", *numbers, lent)


def write(numbers, coeffs, lent):
    return shelf.write(*numbers, coeffs, lent)


def read(numbers, lent, data):
    return shelf.read(data, lent)


def cascade(numbers, indices, lent, scratch):
    fields, written = answers.cascade(indices, *numbers, len(lent), len(scratch))
    return fields, written + lent[len(written):], [0] * len(scratch) if written else scratch


def second(numbers, lent, scratch):
    fields, written = answers.second(*numbers, len(lent), len(scratch))
    return fields, written + lent[len(written):], [0] * len(scratch) if written else scratch


def lookup(numbers, data):
    kind, n, own = numbers
    return (shelves.lookup(kind, n, data[:own], data[own:]),)


def browse(numbers, data):
    return (shelves.browse(data, *numbers),)


def writehalf(numbers, coeffs, lent):
    return halves.write(*numbers, coeffs, lent)


def readhalf(numbers, lent, data):
    return halves.read(data, lent)


def tohalf(numbers, data):
    return halves.to_half(data, *numbers)


def towhole(numbers, data):
    return halves.to_whole(data, *numbers)


def rescue(numbers, scratch, data):
    return rescues.rescue(data, *numbers, scratch)


def response(numbers, coeffs):
    return (responses.response(coeffs, *numbers),)


def census(numbers, work):
    return censuses.census(*numbers, work)


REQUESTS = (polynomial, partial, comb, accumulate, write, read, cascade, second, lookup, browse, writehalf, readhalf,
            tohalf, towhole, rescue, response, census)
ANSWERS = {f.__name__: f for f in REQUESTS}


def spelled(buffer):
    """All of a buffer, or of a list of indices."""
    if isinstance(buffer, bytes):
        return "x" + buffer.hex()
    return "n" * isinstance(buffer, tuple) + ",".join(map(str, buffer))


def lent(buffer):
    """A buffer in a request: entries as a run where all are the same."""
    if isinstance(buffer, list) and buffer and buffer.count(buffer[0]) == len(buffer):
        return "%d*%d" % (len(buffer), buffer[0])
    return spelled(buffer) or "0*0"


def summed(buffer):
    """No two of the first 131,088 powers of 31 are the same modulo the prime: its order is no less than (PRIME - 1) / 2."""
    total = 1
    for entry in buffer:
        total = (total * 31 + entry) % PRIME
    return total


def left(buffer):
    """A buffer in an answer."""
    return spelled(buffer) if isinstance(buffer, bytes) or len(buffer) <= FEW else "#%d" % summed(buffer)


def asked(name, numbers, buffers):
    return " ".join([name, *map(str, numbers), *map(lent, buffers)]) + "\n"


def answered(name, numbers, buffers):
    fields, *written = ANSWERS[name](numbers, *buffers)
    return " ".join([*map(str, fields), *(" ".join([":", left(buffer)]).rstrip() for buffer in written)]) + "\n"
