#!/usr/bin/env python3
"""Looks up every name that the pages have in backticks, and every must-fail edit that docs/EVIDENCE.md lists.

    python3 docs/names.py     prints each that is not there, and how many were looked up

`crate/File: name` is in that file of specs/ or proofs/, and in docs/RULES.md so is a name without a file, in the file
named last before it in its cell; `crate::name` is in that crate's code; a path is one of the repository or of crates/;
anything else is a word of some source file. docs/PORT.md, docs/DESIGN-PASS.md and docs/LOOK-BACK.md, which have old
names, are left out.
"""
import re
import subprocess
import sys
from pathlib import Path

ROOT = Path(__file__).resolve().parent.parent
TRACKED = subprocess.check_output(["git", "ls-files"], cwd=ROOT, text=True).split("\n")
FOLDERS = {str(p) for f in TRACKED for p in Path(f).parents}
KINDS, PLACES = (".rt", ".antt", ".py", ".rs", ".c", ".h", ".txt"), (".ci", "bench/", "tests/")
SOURCES = [f for f in TRACKED if f.endswith(KINDS) or f.startswith(PLACES)]
TEXT = {f: (ROOT / f).read_text(errors="replace") for f in SOURCES}
WORDS = {w for t in TEXT.values() for w in re.findall(r"[^\s(){}\[\],;:.\"'`=λ→]+", t)}
WORDS |= {w for t in TEXT.values() for w in re.findall(r"\w+", t)}
WORDS |= {Path(f).stem for f in TRACKED} | {Path(f).name for f in TRACKED}
OLD = ("docs/PORT.md", "docs/DESIGN-PASS.md", "docs/LOOK-BACK.md")
# words of the toolchain, of C and of mathematics that the pages use
FOREIGN = {"rt", "rt version", "rt doc", "rt ci", "gcc", "rustc", "python3", "make", "Lts.antt", "NAME"}
FOREIGN |= {"xc950", "list.log", "..OutcomeIs", "goals"}


def module(crate, name):
    """The file of specs/ or proofs/ that `crate/name` names."""
    for part in ("", "specs/", "proofs/"):
        path = f"crates/{crate}/{part}{name}.antt"
        if path in TEXT:
            return path
    return None


def there(name):
    name = name.strip()
    named = re.match(r"(\w+)/((?:specs/|proofs/)?[\w/]+): (\S+)$", name)
    if named:
        path = module(named[1], named[2])
        return bool(path) and named[3] in re.findall(r"[^\s(){}\[\],;\"`]+", TEXT[path])
    if re.match(r"\w+/[\w/]+$", name) and module(*name.split("/", 1)):
        return True
    path = name.rstrip("/")
    if any(p in TRACKED or p in FOLDERS for p in (path, f"crates/{path}", f"docs/{path}")):
        return True
    called = re.match(r"(\w+)::(\w+)", name)
    if called and f"crates/{called[1]}" in FOLDERS:
        code = [t for f, t in TEXT.items() if f.startswith(f"crates/{called[1]}/src/")]
        return any(re.search(rf"\b{called[2]}\b", t) for t in code)
    if name in FOREIGN or name in WORDS:
        return True
    # code: every word of it is somewhere
    words = [w for w in re.findall(r"[A-Za-z_]\w*", name) if w not in FOREIGN]
    return all(w in WORDS for w in words)


def cells():
    """Of docs/RULES.md: the names of a cell that have no file, each with the file named last before it there."""
    for line in (ROOT / "docs/RULES.md").read_text().split("\n"):
        for cell in line.split("|") if line.startswith("|") else []:
            path = None
            for before, name in re.findall(r"([^`]*)`([^`]+)`", cell):
                path = None if "contract" in before else path
                named = re.match(r"(\w+)/((?:specs/|proofs/)?[\w/]+)(?:: .*)?$", name)
                if named and module(named[1], named[2]):
                    path = module(named[1], named[2])
                elif path and re.match(r"\w[^\s:/.]*$", name):
                    yield name, path
                else:
                    path = None


def main():
    looked, missing = 0, []
    for page in [f for f in TRACKED if f.endswith(".md") and f not in OLD]:
        text = re.sub(r"```.*?```", "", (ROOT / page).read_text(), flags=re.S)
        for name in re.findall(r"`([^`\n]+)`", text):
            looked += 1
            if not there(name):
                missing.append(f"{page}: {name}")
    for name, path in cells():
        looked += 1
        if name not in re.findall(r"[^\s(){}\[\],;\"`]+", TEXT[path]):
            missing.append(f"docs/RULES.md: {name} is not in {path}")
    edits = (ROOT / "docs/EVIDENCE.md").read_text()
    for crate, names in re.findall(r"(?<=[ ;|])(\w+): ((?:[a-z0-9]+(?:_[a-z0-9]+)+(?![\w:])(?:, |; )?)+)", edits):
        if (ROOT / "crates" / crate / "must-fail").exists():
            for name in re.split(r", |; ", names.strip("; ")):
                looked += 1
                if f"crates/{crate}/must-fail/{name}.edit" not in TRACKED:
                    missing.append(f"docs/EVIDENCE.md: the edit {crate}: {name}")
    print("\n".join(missing + [f"{looked} names looked up, {len(missing)} not there"]))
    return 1 if missing else 0


if __name__ == "__main__":
    sys.exit(main())
