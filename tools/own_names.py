#!/usr/bin/env python3
"""Spells the repository's own definitions and lemmas as today's library does: words in snake case, a dash between two
names, `_lem` after a lemma that would have its definition's name.

usage: python3 tools/own_names.py [TOP]      once, right after port.py, at the top of the repository

tools/own_names.tsv has a row for each name: the old one, a tab, the new one. A name turns as a whole word: in the code
of .antt files and in the code spans of their comments; in `ghost use` items and clauses of .rt files; and, where it has
a dash or a hump, in the code spans of comments of .rt files and of pages, and in must-fail edits. Functions of src/,
exported names, strings, inputs and outputs stay. Names of goals, which Rattle makes, are no matter of this script.
"""

import os
import re
import sys

HERE = os.path.dirname(os.path.realpath(__file__))
WORD = re.compile(r'[^\s(){}.;,@"«»`]+')
CLAUSE = re.compile(r"\b(?:requires|ensures)\*?\s*(?:\w+\s*)?\{")
GHOST = re.compile(r"\bghost use\b[^;]*;")
SPAN = re.compile(r"`[^`\n]+`")


def rows():
    with open(os.path.join(HERE, "own_names.tsv"), encoding="utf-8") as f:
        return dict(line.rstrip("\n").split("\t") for line in f)


def turned(text, table):
    return WORD.sub(lambda m: table.get(m[0], m[0]), text)


def spans(text, table):
    return SPAN.sub(lambda m: turned(m[0], table), text)


def antt(text, table):
    def line(l):
        cut = re.search(r"(?:^|\s)--", l)
        at = cut.start() if cut else len(l)
        return turned(l[:at], table) + spans(l[at:], table)

    return "\n".join(line(l) for l in text.split("\n"))


def closing(text, at):
    deep = 0
    for k in range(at, len(text)):
        deep += (text[k] == "{") - (text[k] == "}")
        if not deep:
            return k + 1
    return len(text)


def rt(text, table, marked):
    cuts = [m.span() for m in GHOST.finditer(text)]
    cuts += [(m.start(), closing(text, m.end() - 1)) for m in CLAUSE.finditer(text)]
    out, last = [], 0
    for a, b in sorted(cuts):
        if a < last:
            continue
        out += [comments(text[last:a], marked), turned(text[a:b], table)]
        last = b
    return "".join(out + [comments(text[last:], marked)])


def comments(text, marked):
    return re.sub(r"//[^\n]*", lambda m: spans(m[0], marked), text)


def main():
    top = sys.argv[1] if len(sys.argv) > 1 else "."
    table = rows()
    marked = {a: b for a, b in table.items() if "-" in a or re.search(r"[a-z0-9][A-Z]", a)}
    changed = 0
    for folder, dirs, files in os.walk(top):
        dirs[:] = sorted(d for d in dirs if d not in ("out", "target", ".git", "tools"))
        for f in sorted(files):
            path = os.path.join(folder, f)
            kind = os.path.splitext(f)[1]
            if kind not in (".antt", ".rt", ".md", ".edit") or os.path.islink(path):
                continue
            with open(path, encoding="utf-8") as it:
                text = it.read()
            if kind == ".antt":
                new = antt(text, table)
            elif kind == ".rt":
                new = rt(text, table, marked)
            elif kind == ".md":
                new = spans(text, marked)
            else:
                new = turned(text, marked)
            if new != text:
                changed += 1
                with open(path, "w", encoding="utf-8") as it:
                    it.write(new)
    print(f"{changed} files changed")


if __name__ == "__main__":
    main()
