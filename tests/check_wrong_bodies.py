#!/usr/bin/env python3
"""Says whether each edit of crates/*/must-fail and wrong-bodies/* still fits its file just once.

Reads texts alone and proves nothing: the gate tries the first, and `make wrong` all. Faulty are also a
folder of wrong-bodies/ that is no crate's, a file of either folder that is no edit, two edits of a crate
with one name or one text, and a crate of code with no edit in must-fail. The last line is `N passed, M failed`.
"""
import os
import sys

from wrong_bodies import FOLDER, MUST_FAIL, TOP, crates, edits_beside, edits_of_gate, fault_of, is_of_tests, say_end


def strangers(folder):
    """The files of a folder of edits that are no edit; none where there is no such folder."""
    names = sorted(os.listdir(folder)) if os.path.isdir(folder) else []
    return [os.path.relpath(os.path.join(folder, name), TOP) for name in names if not name.endswith(".edit")]


def main():
    passed, faults, names = 0, [], crates()
    for name in sorted(os.listdir(FOLDER)):
        if name not in names:
            faults.append(f"wrong-bodies/{name}: there is no such crate")
    for crate in names:
        if not is_of_tests(crate) and not edits_of_gate(crate):
            faults.append(f"crates/{crate}/{MUST_FAIL} has no edit")
        for folder in (os.path.join(TOP, "crates", crate, MUST_FAIL), os.path.join(FOLDER, crate)):
            faults += [f"{path}: no edit" for path in strangers(folder)]
        seen = {}
        for edit in edits_of_gate(crate) + edits_beside(crate):
            with open(edit, encoding="utf-8") as text:
                for key in (os.path.basename(edit), text.read()):
                    if key in seen:
                        faults.append(f"{os.path.relpath(edit, TOP)}: {seen[key]} has the same name or text")
                    seen[key] = os.path.relpath(edit, TOP)
            fault = fault_of(edit, crate)
            if fault:
                faults.append(f"{os.path.relpath(edit, TOP)}: {fault}")
            else:
                passed += 1
    return say_end(passed, faults)


if __name__ == "__main__":
    sys.exit(main())
