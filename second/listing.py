"""What the listing program must print: python3 second/listing.py < input (docs/RULES.md, 'The listing')."""

import re
import sys

from answers import polynomial
from choice import LARGEST_LIMIT

ROOM = 4096
LINE = re.compile(rb"([FI]) ([0-9]{1,9}) ([0-9]{1,9})")


def listed(number, line):
    good = LINE.fullmatch(line)
    if not good:
        return "? %d\n" % number
    letter, n, h = good.group(1).decode(), int(good.group(2)), int(good.group(3))
    answer, entries = polynomial(1 if letter == "F" else 2, n, h, LARGEST_LIMIT, ROOM)
    coefficients = entries if answer[0] == 0 else []
    return " ".join(map(str, [letter, n, *answer, ":", *coefficients])) + "\n"


def listing(text):
    lines = text.split(b"\n")
    if lines[-1] == b"":
        lines.pop()
    yield "polynomials\n"
    for number, line in enumerate(lines, 1):
        yield listed(number, line)


if __name__ == "__main__":
    sys.stdout.writelines(listing(sys.stdin.buffer.read()))
