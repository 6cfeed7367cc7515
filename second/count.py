"""How many cases the stored trial has of each request and code: python3 second/count.py (docs/EVIDENCE.md)."""

import os
from collections import Counter

TRIAL = os.path.join(os.path.dirname(os.path.abspath(__file__)), "..", "crates", "trial")


def lines(name):
    with open(os.path.join(TRIAL, name)) as file:
        return file.read().splitlines()


if __name__ == "__main__":
    asked, answered = lines("stdin"), lines("stdout")
    assert len(asked) == len(answered) == len(set(asked)), "a line was not answered, or stands twice"
    table = Counter((q.split()[0], int(a.split()[0])) for q, a in zip(asked, answered))
    for name in dict.fromkeys(name for name, _ in table):
        codes = {code: table[key] for key in sorted(table) for of, code in [key] if of == name}
        print(name, sum(codes.values()), ":", ", ".join("code %d %d" % item for item in codes.items()))
    print("all", len(asked))
