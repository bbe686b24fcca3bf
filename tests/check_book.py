#!/usr/bin/env python3
"""Says whether each name of docs/BOOK.md's tables is a definition of the crate that its section names.

The first column of a table under `## .. (`crate`)` has names between backquotes; each must be a public
definition in that crate's specs/. And each definition that the output text of an input rests on
(text_definitions.py) must be named. The last line is `N passed, M failed`.
"""
import os
import re
import sys

import text_definitions
from wrong_bodies import TOP, crates, say_end

DEFINITION = re.compile(r"(?m)^(?=[^\n]*\bpub\b)(?:(?:abbrev|unfoldable|opaque|pub|data|record)\s+)+([^\s:({]+)")


def definitions(crate):
    """The names that a crate's specs/ define for others."""
    folder, found = os.path.join(TOP, "crates", crate, "specs"), set()
    for name in os.listdir(folder):
        with open(os.path.join(folder, name), encoding="utf-8") as text:
            found |= set(DEFINITION.findall(text.read()))
    return found


def main():
    passed, faults, crate, known, written = 0, [], None, set(), set()
    with open(os.path.join(TOP, "docs", "BOOK.md"), encoding="utf-8") as lines:
        for number, line in enumerate(lines, 1):
            if line.startswith("## "):
                named = re.search(r"\(`(\w+)`\)", line)
                crate = named[1] if named else None
                if crate and crate not in crates():
                    faults.append(f"docs/BOOK.md:{number}: there is no crate {crate}")
                    crate = None
                known = definitions(crate) if crate else set()
            elif crate and line.startswith("| `"):
                for name in re.findall(r"`([^`]+)`", line.split("|")[1]):
                    if name in known:
                        passed += 1
                        written.add(name)
                    else:
                        faults.append(f"docs/BOOK.md:{number}: {name} is no definition of {crate}")
    for crate, path, name in text_definitions.reached():
        if name in written:
            passed += 1
        else:
            faults.append(f"docs/BOOK.md does not name {name} of crates/{crate}/specs/{path}.antt, on which the text rests")
    return say_end(passed, faults)


if __name__ == "__main__":
    sys.exit(main())
