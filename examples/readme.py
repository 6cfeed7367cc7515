"""Runs the three programs of the README at the root by the commands that stand there, and holds what each prints.

In a folder of its own, in which include/, examples/ and target/ are those of the repository.
"""

import re
import subprocess
import tempfile
from pathlib import Path

ROOT = Path(__file__).resolve().parent.parent
F21 = "1 -1 0 1 -1 0 1 0 -1 1 0 -1 1".split()
PROGRAM = r"\n\n((?:    [^\n]*\n)+)\n```(c|rust|python)\n(.*?)```"

programs = re.findall(PROGRAM, (ROOT / "README.md").read_text(), flags=re.S)
assert [name for _, name, _ in programs] == ["c", "rust", "python"], "README.md has other programs"
with tempfile.TemporaryDirectory() as folder:
    for part in ("include", "examples", "target"):
        (Path(folder) / part).symlink_to(ROOT / part)
    for commands, name, text in programs:
        (Path(folder) / {"c": "hum.c", "rust": "hum.rs", "python": "hum.py"}[name]).write_text(text)
        done = subprocess.run(["sh", "-ec", commands], cwd=folder, capture_output=True, text=True)
        assert done.returncode == 0 and not done.stderr, done.stderr
        numbers = re.findall(r"-?\d+", done.stdout)
        assert numbers[: len(F21)] == F21 and "OVER" in done.stdout.upper(), done.stdout
        print(f"README.md, {name}: as it says")
