#!/usr/bin/env python3
"""Says which functions of a crate took its last checks the longest.

    tests/slowest.py CRATE [--most N] [--since FILE]

Reads the times of the files that `rt check` keeps in the crate's out/: one for each module that it
proved, written when that module was done. So it needs a check with `--jobs 1`; one of a crate from
nothing (without out/) tells of all its functions, one after an edit of what was proved anew. With
--since only files count that are newer than FILE. Seconds are by the clock: let nothing run beside it.
"""
import argparse
import collections
import os
import re
import sys

from wrong_bodies import TOP

# The modules that a check makes for a function beside its own, such as the walk of all its paths.
PARTS = r"(Answers|Code|Given|Goals|Invariants|Key|Kinds\S*|Layout|Lts|Met|Proof|Statement|TheImpl|TheLink|Tie)"


def modules(crate, since):
    """The modules that were proved, by time, each with when it was done."""
    kept = os.path.join(TOP, "crates", crate, "out", "incremental")
    found = []
    for folder in os.listdir(kept) if os.path.isdir(kept) else []:
        for name in os.listdir(os.path.join(kept, folder)):
            at = os.stat(os.path.join(kept, folder, name)).st_mtime
            if name.endswith(".oantt") and at > since:
                found.append((at, name[:-len(".oantt")]))
    return sorted(found)


def subject(module, crate):
    """The function, or the module of lemmas or definitions, that a module belongs to."""
    inner = re.fullmatch(rf"Rattle-{crate}-(proofs|specs)\.(.*)", module)
    if not inner:
        return "(what it takes from the crates below)" if ".below." in module else module
    return f"{inner[1]} {re.sub(rf'([.]{PARTS})+$', '', inner[2])}"


def main():
    parser = argparse.ArgumentParser(description=__doc__, formatter_class=argparse.RawDescriptionHelpFormatter)
    parser.add_argument("crate")
    parser.add_argument("--most", type=int, default=20)
    parser.add_argument("--since")
    asked = parser.parse_args()
    found = modules(asked.crate, os.stat(asked.since).st_mtime if asked.since else 0)
    if not found:
        print(f"nothing is kept in crates/{asked.crate}/out: run rt check --jobs 1 there first")
        return 1
    spent = collections.Counter()
    for (begun, _), (ended, module) in zip(found, found[1:]):
        spent[subject(module, asked.crate)] += ended - begun
    for name, seconds in spent.most_common(asked.most):
        print(f"{seconds:8.1f}  {name}")
    print(f"{sum(spent.values()):8.1f}  all {len(found)} modules")
    return 0


if __name__ == "__main__":
    sys.exit(main())
