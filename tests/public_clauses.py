#!/usr/bin/env python3
"""Lists the clauses of public calls that differ between two states of the tree.

    tests/public_clauses.py [BASE]

BASE is a commit (HEAD where none is named); the other state is the work tree. A public call is a `pub fn`, and each function of a
`pub trait`; its clauses are its `requires` and `ensures`, with the parameters and the result that they speak of. For each call that
differs: a line with its crate, its type and its name, then the clauses that were and are no more, with `-`, and those that are new,
with `+`. Blanks and line ends do not count. The last line is `N calls alike, M changed, G gone, A added`; the exit status is 0 where
there is none of the last three, and 1 otherwise.
"""
import os
import re
import subprocess
import sys

from wrong_bodies import TOP

BLOCK = re.compile(r"^(?P<indent> *)(?P<head>(?:unsafe )?impl\b.*|pub trait .*)$")
CALL = re.compile(r"^(?P<indent> *)(?:pub )?(?:const |unsafe )*fn (?P<name>\w+)")
CLAUSE = re.compile(r"^\s*(?:requires|ensures)\b")


def is_public(line, block):
    """Whether a line begins a public call, in this block."""
    return line.lstrip().startswith("pub ") or block.startswith("pub trait ")


def head_of(lines, first, indent):
    """The lines of a call's head, up to its body or, in a trait, its end."""
    head = []
    for line in lines[first:]:
        if line == indent + "{":
            break
        head.append(line.removesuffix(";").removesuffix(" {"))
        if line.endswith((";", " {")):
            break
    return head


def parts_of(head):
    """The signature of a head, and its clauses: each as one line."""
    parts = [[]]
    for line in head:
        if line.strip().startswith("//"):
            continue
        if CLAUSE.match(line):
            parts.append([])
        parts[-1].append(line.strip())
    return [" ".join(" ".join(part).split()) for part in parts if part]


def calls_in(path, text):
    """The public calls of a file: for each its crate, block and name, and its parts (those of all calls of one name that stand outside of blocks)."""
    lines, block, found = text.split("\n"), "", {}
    for number, line in enumerate(lines):
        opened, call = BLOCK.match(line), CALL.match(line)
        if opened:
            block = opened["head"].rstrip(" {")
        elif line == "}":
            block = ""
        elif call and is_public(line, block):
            key = path.split("/")[1], block, call["name"]
            found.setdefault(key, []).extend(parts_of(head_of(lines, number, call["indent"])))
    return found


def calls_of(texts):
    """The public calls of some files."""
    found = {}
    for path, text in texts:
        for key, parts in calls_in(path, text).items():
            found.setdefault(key, []).extend(parts)
    return found


def git(*words):
    """What git prints."""
    return subprocess.run(["git", *words], cwd=TOP, check=True, capture_output=True, text=True).stdout


def sources(names):
    """The sources of crates among some names."""
    return [name for name in names if re.fullmatch(r"crates/\w+/src/.*\.rt", name)]


def texts_of_commit(base):
    """The sources of a commit, each with its path."""
    return [(path, git("show", f"{base}:{path}")) for path in sources(git("ls-tree", "-r", "--name-only", base).split("\n"))]


def texts_here():
    """Those of the work tree."""
    paths = sources(git("ls-files", "--cached", "--others", "--exclude-standard").split("\n"))
    texts = []
    for path in (path for path in paths if os.path.exists(os.path.join(TOP, path))):
        with open(os.path.join(TOP, path), encoding="utf-8") as file:
            texts.append((path, file.read()))
    return texts


def main():
    if len(sys.argv) > 2 or sys.argv[1:2] in (["-h"], ["--help"]):
        print(__doc__)
        return 2
    before, now = calls_of(texts_of_commit(sys.argv[1] if sys.argv[1:] else "HEAD")), calls_of(texts_here())
    counts = {"alike": 0, "changed": 0, "gone": 0, "added": 0}
    for key in sorted(before | now):
        old, new = before.get(key, []), now.get(key, [])
        if old == new:
            counts["alike"] += 1
            continue
        counts["changed" if key in before and key in now else "gone" if key in before else "added"] += 1
        print(" ".join(part for part in key if part))
        for sign, parts, others in (("-", old, new), ("+", new, old)):
            for part in parts:
                if part not in others:
                    print(f"  {sign} {part}")
    print(", ".join(f"{count} {'calls alike' if name == 'alike' else name}" for name, count in counts.items()))
    return 0 if counts["changed"] == counts["gone"] == counts["added"] == 0 else 1


if __name__ == "__main__":
    sys.exit(main())
