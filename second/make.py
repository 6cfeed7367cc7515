"""Makes every stored file anew, byte for byte: python3 second/make.py (some minutes; nothing else is needed).

The files are what the programs of crates/ must print, the requests that `trial` reads, the shelf that `rescue` reads,
and the line that `census` reads.
"""

import os

import censuses
import listing
import rescues
import trial
from spelling import answered, asked

HERE = os.path.dirname(os.path.abspath(__file__))
CRATES = os.path.join(HERE, "..", "crates")


def requests():
    """The line that asks, and the one that answers, of each case; a case that comes again is left out."""
    found = {}
    for case in trial.cases():
        line = asked(*case)
        if line not in found:
            found[line] = answered(*case)
    return found


def listed():
    """What `list` prints for the input that stands beside it."""
    with open(os.path.join(CRATES, "list/stdin"), "rb") as file:
        return listing.listing(file.read())


def store(path, parts):
    with open(os.path.join(CRATES, path), "wb") as file:
        file.writelines(part if isinstance(part, bytes) else part.encode() for part in parts)
    print("made", path)


if __name__ == "__main__":
    store("list/stdout", listed())
    shelf = rescues.damaged()
    store("rescue/stdin", [shelf])
    store("rescue/stdout", [rescues.program(shelf)[0]])
    store("census/stdin", [censuses.INPUT])
    store("census/stdout", [censuses.program(censuses.INPUT)])
    made = requests()
    store("trial/stdin", made.keys())
    store("trial/stdout", made.values())
