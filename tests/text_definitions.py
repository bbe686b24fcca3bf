#!/usr/bin/env python3
"""Lists the definitions that the output text of an input rests on: `text_of` of crates/cns_batch/specs/Text.antt,
what that names, and so on. For each file it says how many lines they take there, without imports, comments
and blank lines, and then how many all together. That docs/BOOK.md names them all, check_book.py sees.
"""
import os
import re

from wrong_bodies import TOP

START = ("cns_batch", "Text", "text_of")
HEAD = re.compile(r"(?:(?:abbrev|unfoldable|opaque|pub|data|record)\s+)+([^\s:({]+)")
WORD = re.compile(r"[^\s(){};,:=∷≡×→⊎≤<∙\[\]+*^]+")
# What a `do` is written with, though no line of it names these.
STEPS = ("◌>>=◌", "◌>>◌")


class Module:
    """A file of definitions: what it defines, line by line, and what its imports name."""

    def __init__(self, crate, path):
        self.crate, self.path = crate, path
        self.lines, self.names, self.folders = {}, {}, {}
        with open(os.path.join(TOP, "crates", crate, "specs", path + ".antt"), encoding="utf-8") as text:
            current = None
            for line in text:
                line = line.rstrip("\n")
                if not line or line.startswith("--"):
                    continue
                if line.startswith("use "):
                    self.take_import(line)
                    continue
                head = HEAD.match(line)
                if head:
                    current = head[1]
                    self.lines.setdefault(current, [])
                if current:
                    self.lines[current].append(line.split(" -- ")[0])
                    variant = re.match(r"  ([A-Z]\w*) :", line)
                    if variant:
                        self.names.setdefault(variant[1], (crate, path, current))

    def take_import(self, line):
        """Names of other definitions here; those of libraries and of Rust types are not followed."""
        found = re.match(r"use Rattle\.(\w+)\.specs\.([\w.]+?)(?:\.\{(.*)\}| as (\w+))?$", line)
        if not found or not os.path.isdir(os.path.join(TOP, "crates", found[1])) or found[2].startswith("declared"):
            return
        if found[4]:
            self.folders[found[4]] = (found[1], found[2])
            return
        for part in (found[3] or "").split(","):
            name, _, other = part.strip().partition(" as ")
            if name:
                self.names[other or name] = (found[1], found[2], name)


MODULES = {}


def module(crate, path):
    if (crate, path) not in MODULES:
        MODULES[crate, path] = Module(crate, path.replace(".", "/"))
    return MODULES[crate, path]


def resolve(here, word):
    """The definition that a word of a file names, if it names one."""
    if word in here.lines:
        return here.crate, here.path, word
    if word in here.names:
        crate, path, name = here.names[word]
        there = module(crate, path)
        return (crate, path, name) if name in there.lines else there.names.get(name)
    folder, _, name = word.partition(".")
    if name and folder in here.folders and name in module(*here.folders[folder]).lines:
        return (*here.folders[folder], name)
    return None


def reached():
    """All definitions that the text rests on."""
    found, left = set(), [START]
    while left:
        definition = left.pop()
        if definition in found:
            continue
        found.add(definition)
        here = module(*definition[:2])
        words = set()
        for line in here.lines[definition[2]]:
            for word in re.split(r"\s+", line) + WORD.findall(line):
                words |= {word, word.split(".")[0], ".".join(word.split(".")[:2]), f"◌{word}◌"}
                words |= set(STEPS if word == "do" else ())
        left += [other for other in (resolve(here, word) for word in words) if other]
    return found


def main():
    total, files = 0, {}
    for crate, path, name in reached():
        files.setdefault((crate, path), []).append(name)
    for (crate, path), names in sorted(files.items()):
        count = sum(len(module(crate, path).lines[name]) for name in names)
        total += count
        print(f"{count:5} crates/{crate}/specs/{path}.antt: {' '.join(sorted(names))}")
    print(f"{total:5} lines in all")


if __name__ == "__main__":
    main()
