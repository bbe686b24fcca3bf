#!/usr/bin/env python3
"""Says whether one name is defined by two crates.

    tests/check_names.py [--list]

A name is that of a public definition in a crate's specs/. Each that two crates define must stand in tests/shared_names.txt with just
these crates, `NAME: CRATE CRATE ..`, and each line there must still be so. `--list` prints the lines as they would have to be. The last
line is `N passed, M failed`.
"""
import os
import re
import sys

from check_book import definitions
from wrong_bodies import TOP, crates, say_end

SHARED = os.path.join("tests", "shared_names.txt")


def shared():
    """Each name that two crates or more define, with these crates, lowest first; and how many names there are in all."""
    owners = {}
    for crate in crates():
        if os.path.isdir(os.path.join(TOP, "crates", crate, "specs")):
            for name in definitions(crate) - {"mod", "use"}:
                owners.setdefault(name, []).append(crate)
    return {name: found for name, found in owners.items() if len(found) > 1}, len(owners)


def listed():
    """What stands in the list: by name its line's number and its crates."""
    found = {}
    with open(os.path.join(TOP, SHARED), encoding="utf-8") as lines:
        for number, line in enumerate(lines, 1):
            name, colon, owners = line.partition(": ")
            if colon and not line.startswith("#"):
                found[name] = (number, owners.split())
    return found


def main():
    twice, names = shared()
    if sys.argv[1:] == ["--list"]:
        for name in sorted(twice):
            print(f"{name}: {' '.join(twice[name])}")
        return 0
    known, faults = listed(), []
    for name, owners in sorted(twice.items()):
        if name not in known:
            faults.append(f"{name} is defined by {' and '.join(owners)}: give one of them another name")
        elif known[name][1] != owners:
            faults.append(f"{SHARED}:{known[name][0]}: {name} is defined by {' '.join(owners)}")
    faults += [f"{SHARED}:{number}: {name} is not defined twice any more" for name, (number, _) in known.items() if name not in twice]
    return say_end(names - len(faults), faults)


if __name__ == "__main__":
    sys.exit(main())
