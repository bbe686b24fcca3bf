#!/usr/bin/env python3
"""Counts the lines of each crate without blank lines and comments.

    tests/count_lines.py

A row for each crate and one for all of them, as a table of docs/GATE.md begins: code, tests (a file or a
module of a file that is built for tests alone), definitions (specs/) and proofs (proofs/).
"""
import os
import sys

from wrong_bodies import TOP, crates

COLUMNS = ("code", "tests", "definitions", "proofs")


def is_line(line):
    """Whether a line counts."""
    line = line.strip()
    return bool(line) and not line.startswith(("//", "--"))


def test_modules(text):
    """The names of the modules that a file declares under #[cfg(test)]."""
    lines = [line.strip() for line in text.split("\n")]
    return {after.removeprefix("mod ").rstrip(";") for line, after in zip(lines, lines[1:])
            if line == "#[cfg(test)]" and after.startswith("mod ") and after.endswith(";")}


def files(folder):
    """The files of a folder and those below it."""
    return [os.path.join(at, name) for at, _, names in os.walk(folder) for name in names]


def counts_of(crate):
    """The four counts of a crate."""
    folder = os.path.join(TOP, "crates", crate)
    texts = {}
    for part in ("src", "specs", "proofs"):
        for file in files(os.path.join(folder, part)):
            with open(file, encoding="utf-8") as lines:
                texts[os.path.relpath(file, folder)] = lines.read()
    tests = set().union(*(test_modules(text) for text in texts.values()))
    found = dict.fromkeys(COLUMNS, 0)
    for file, text in texts.items():
        part, *inner = file.split(os.sep)
        is_test = part == "src" and any(name.removesuffix(".rt") in tests for name in inner)
        column = {"src": "tests" if is_test else "code", "specs": "definitions", "proofs": "proofs"}[part]
        found[column] += sum(is_line(line) for line in text.split("\n"))
    return [found[column] for column in COLUMNS]


def main():
    rows = {crate: counts_of(crate) for crate in crates()}
    print("| crate | " + " | ".join(COLUMNS) + " |")
    for crate, row in rows.items():
        print(f"| {crate} | " + " | ".join(f"{count:,}" for count in row) + " |")
    print("| all | " + " | ".join(f"{sum(column):,}" for column in zip(*rows.values())) + " |")
    return 0


if __name__ == "__main__":
    sys.exit(main())
