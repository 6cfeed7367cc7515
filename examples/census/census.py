"""The census of census.c in Python, to the same output. Usage: census.py libbonvedrick.so, with the folder of
bonvedrick.py in PYTHONPATH"""

import sys

from bonvedrick import CENSUS_ENTRIES, MOST_COUNTED, Bonvedrick, Refused


def show(a, b, **rooms):
    try:
        rows, additions = bv.census(a, b, **rooms)
    except Refused as why:
        print(f"F({a}) to F({b}): {why.name}")
        return
    print(f"F({a}) to F({b}): DONE, {additions} additions")
    for row in rows:
        bits = row.height.bit_length() + 1
        print(f"  height {row.height}: {row.count:4} of them, F({row.smallest}) first, {bits} bits")


bv = Bonvedrick(sys.argv[1])
show(1, 104)
show(1, MOST_COUNTED)
show(385, 420)
show(3135, 3135, slots=3)
print("in two rows, in one entry less, and past the end:")
show(385, 420, slots=3 * 2)
show(385, 420, entries=CENSUS_ENTRIES - 1)
show(385, MOST_COUNTED + 1)
