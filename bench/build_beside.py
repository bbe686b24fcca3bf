#!/usr/bin/env python3
"""Proves and builds a program that is no crate of the gate, in a folder of its own.

    build_beside.py [--only-copied] FOLDER SOURCE NAME DEPENDENCY.. [-- ARGUMENT..]

SOURCE has the program's files, each with `.txt` after its name. They become the crate NAME in FOLDER,
beside copies of the crates of this repository that it stands on. `rt run` proves and builds it there,
over what checks of these crates on this machine left, and runs it once on the arguments. The built
program is FOLDER/crates/NAME/out/NAME. A first build takes some minutes. What rt says is printed only
where it fails; then the exit status is 1. With --only-copied nothing is proved and built.
"""
import os
import shutil
import subprocess
import sys

sys.path.insert(0, os.path.join(os.path.dirname(os.path.abspath(__file__)), os.pardir, "tests"))
from wrong_bodies import TOP, below, crates

PARTS = ("src", "specs", "proofs")


def line_of(name):
    """The line of crates.txt for a crate."""
    with open(os.path.join(TOP, "crates.txt"), encoding="utf-8") as lines:
        return next(line for line in lines if line.partition(":")[0].strip() == name)


def all_below(names):
    """The crates of this repository among these and below them, lowest first."""
    stands_on, found, left = below(), set(), list(names)
    while left:
        name = left.pop()
        if name in stands_on and name not in found:
            found.add(name)
            left += stands_on[name]
    return [name for name in crates() if name in found]


def copy_source(source, crate):
    """Copies the program's files, without the `.txt` after their names."""
    for folder, _, names in os.walk(source):
        target = os.path.join(crate, os.path.relpath(folder, source))
        for name in sorted(names):
            if name.endswith((".rt.txt", ".antt.txt")):
                os.makedirs(target, exist_ok=True)
                shutil.copyfile(os.path.join(folder, name), os.path.join(target, name[: -len(".txt")]))


def main():
    words, arguments = sys.argv[1:], []
    is_copied = words[:1] == ["--only-copied"]
    words = words[is_copied:]
    if "--" in words:
        at = words.index("--")
        words, arguments = words[:at], words[at + 1:]
    folder, source, name, *dependencies = words
    copied = all_below(dependencies)
    for one in copied:
        for part in PARTS:
            if os.path.isdir(f"{TOP}/crates/{one}/{part}"):
                shutil.copytree(f"{TOP}/crates/{one}/{part}", f"{folder}/crates/{one}/{part}")
    shutil.copyfile(f"{TOP}/HANDLES", f"{folder}/HANDLES")
    with open(f"{folder}/crates.txt", "w", encoding="utf-8") as out:
        out.writelines(line_of(one) for one in copied)
        out.write(f"{name}: {' '.join(dependencies)}\n")
    copy_source(source, f"{folder}/crates/{name}")
    if is_copied:
        return
    done = subprocess.run(["rt", "run", "--", *arguments], cwd=f"{folder}/crates/{name}", stdin=subprocess.DEVNULL,
                          stdout=subprocess.PIPE, stderr=subprocess.STDOUT, text=True, errors="replace", check=False)
    if done.returncode or not os.path.isfile(f"{folder}/crates/{name}/out/{name}"):
        print(done.stdout, end="")
        print(f"{name} is not proved and built")
        sys.exit(1)


if __name__ == "__main__":
    main()
