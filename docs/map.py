#!/usr/bin/env python3
"""Draws docs/map.svg: the crates of crates.txt floor by floor, coloured by the groups of docs/MAP.md.

    python3 docs/map.py           draws it
    python3 docs/map.py --check   says whether what is there is what would be drawn

It fails where a crate stands in no table of docs/MAP.md, or in two, or a table has one that crates.txt has not.
"""
import re
import sys
from pathlib import Path

DOCS = Path(__file__).resolve().parent
COLOURS = ["#f6d77a", "#cfe0f7", "#cdebd0", "#f4cfc4", "#e3d3f2", "#d5ecec", "#f2e2c9", "#f7d6e6", "#c9d3e8", "#dfe8bf",
           "#e4e4e4", "#dccbb5"]
WIDE, HIGH, ROW, GAP, LEFT, TOP = 1720, 30, 74, 16, 60, 64


def crates():
    """Each crate with what it stands on; the kit's own libraries are left out."""
    lines = (DOCS.parent / "crates.txt").read_text().splitlines()
    named = dict(line.replace(" staticlib:", ":").split(":") for line in lines if line.strip() and not line.startswith("#"))
    return {c: [d for d in deps.split() if d in named] for c, deps in named.items()}


def groups():
    """The groups of MAP.md in its order, and for each crate its group and what it is."""
    order, of = [], {}
    for line in (DOCS / "MAP.md").read_text().splitlines():
        if line.startswith("### "):
            order.append(line[4:])
        row = re.match(r"\| (`.*?) \| (.*) \|$", line)
        if row and order:
            for name in re.findall(r"`(\w+)`", row[1]):
                if name in of:
                    sys.exit(f"docs/MAP.md has {name} twice")
                of[name] = (order[-1], row[2])
    return order, of


def floors(deps):
    """A crate stands one above the highest that it rests on."""
    at = {}

    def floor(c):
        if c not in at:
            at[c] = 1 + max((floor(d) for d in deps[c]), default=0)
        return at[c]

    return [[c for c in deps if floor(c) == k] for k in range(1, max(map(floor, deps)) + 1)]


def needed(deps):
    """The dependencies that no other one brings along: what is drawn."""
    below = {}

    def all_below(c):
        if c not in below:
            below[c] = set(deps[c]).union(*map(all_below, deps[c]))
        return below[c]

    return {c: [d for d in ds if not any(d in all_below(e) for e in ds)] for c, ds in deps.items()}


def places(rows, edges):
    """Where each crate's box lies: rows ordered by the middle of their neighbours, a few times up and down."""
    near = {c: list(ds) for c, ds in edges.items()}
    for c, ds in edges.items():
        for d in ds:
            near[d].append(c)
    width = {c: 7.4 * len(c) + 18 for c in edges}
    middle = {}

    def lay(row):
        free = WIDE - LEFT - 20 - sum(width[c] for c in row)
        gap = max(GAP, min(70, free / (len(row) + 1)))
        x = LEFT + (WIDE - LEFT - sum(width[c] for c in row) - gap * (len(row) - 1)) / 2
        for c in row:
            middle[c] = x + width[c] / 2
            x += width[c] + gap

    for row in rows:
        lay(row)
    for turn in range(12):
        for row in rows if turn % 2 else rows[::-1]:
            row.sort(key=lambda c: sum(middle[d] for d in near[c]) / max(1, len(near[c])))
            lay(row)
    top = {c: TOP + ROW * (len(rows) - 1 - k) for k, row in enumerate(rows) for c in row}
    return middle, top, width


def draw():
    deps, (order, of) = crates(), groups()
    if set(deps) != set(of):
        sys.exit(f"in crates.txt or in docs/MAP.md alone: {sorted(set(deps) ^ set(of))}")
    rows, edges = floors(deps), needed(deps)
    middle, top, width = places(rows, edges)
    colour = dict(zip(order, COLOURS))
    tall = TOP + ROW * len(rows)
    out = [
        f'<svg xmlns="http://www.w3.org/2000/svg" viewBox="0 0 {WIDE} {tall}" font-family="monospace" font-size="12">',
        f'<rect width="{WIDE}" height="{tall}" fill="white"/>',
    ]
    x = 24
    for group in order:
        out.append(f'<rect x="{x:.0f}" y="14" width="14" height="14" rx="3" fill="{colour[group]}" stroke="#888"/>')
        out.append(f'<text x="{x + 20:.0f}" y="26" font-family="sans-serif">{group}</text>')
        x += 64 + 7 * len(group)
    for k in range(len(rows)):
        y = TOP + ROW * (len(rows) - 1 - k)
        out.append(f'<text x="16" y="{y + 20}" fill="#999" font-size="14">{k + 1}</text>')
    for c, ds in edges.items():
        for d in ds:
            x1, y1, x2, y2 = middle[d], top[d], middle[c], top[c] + HIGH
            bend = (y1 - y2) / 2
            out.append(
                f'<path d="M{x1:.0f} {y1} C{x1:.0f} {y1 - bend:.0f} {x2:.0f} {y2 + bend:.0f} {x2:.0f} {y2}"'
                ' fill="none" stroke="#b5b5b5"/>'
            )
    for c in deps:
        group, what = of[c]
        words = what.replace("`", "").replace("&", "&amp;").replace("<", "&lt;")
        out.append(
            f'<g><title>{c}: {words}</title>'
            f'<rect x="{middle[c] - width[c] / 2:.0f}" y="{top[c]}" width="{width[c]:.0f}"'
            f' height="{HIGH}" rx="5" fill="{colour[group]}" stroke="#777"/>'
            f'<text x="{middle[c]:.0f}" y="{top[c] + 19}" text-anchor="middle">{c}</text></g>'
        )
    return "\n".join(out + ["</svg>", ""])


if __name__ == "__main__":
    target, drawn = DOCS / "map.svg", draw()
    if sys.argv[1:] == ["--check"]:
        sys.exit(0 if target.exists() and target.read_text() == drawn else "docs/map.svg is not what crates.txt gives")
    target.write_text(drawn)
