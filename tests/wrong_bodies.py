"""The wrong bodies: edits of a crate's code that its contracts must refuse.

The gate tries those of crates/CRATE/must-fail, and `make wrong` these and those of wrong-bodies/CRATE. An edit
has a line `file: src/lib.rt` and pairs of lines `old: TEXT` and `new: TEXT`, as `rt must-fail` takes them. Each
old text stands just once in its file, after the pairs before it.
"""
import os

TOP = os.path.dirname(os.path.dirname(os.path.abspath(__file__)))
FOLDER = os.path.join(TOP, "wrong-bodies")
MUST_FAIL = "must-fail"


def crates():
    """The names of the crates, lowest first as crates.txt has them."""
    with open(os.path.join(TOP, "crates.txt"), encoding="utf-8") as lines:
        named = [line.split("#")[0].partition(":")[0].split() for line in lines]
    return [words[0] for words in named if words]


def is_of_tests(crate):
    """Whether a crate has the tests of others and no code of its own."""
    return crate.endswith("_tests")


def used():
    """For each crate the crates, of this repository and of the kit, that it stands on by its line of crates.txt."""
    found = {}
    with open(os.path.join(TOP, "crates.txt"), encoding="utf-8") as lines:
        for line in lines:
            name, _, words = line.split("#")[0].partition(":")
            if name.split():
                found[name.split()[0]] = words.split()
    return found


def below():
    """For each crate those of this repository that it stands on."""
    found = used()
    return {name: [word for word in words if word in found] for name, words in found.items()}


def edits(folder):
    """The paths of the edits of a folder, by name; nothing where there is no such folder."""
    names = sorted(os.listdir(folder)) if os.path.isdir(folder) else []
    return [os.path.join(folder, name) for name in names if name.endswith(".edit")]


def edits_of_gate(crate):
    """The edits of a crate that the gate tries."""
    return edits(os.path.join(TOP, "crates", crate, MUST_FAIL))


def edits_beside(crate):
    """The edits of a crate that `make wrong` alone tries."""
    return edits(os.path.join(FOLDER, crate))


def texts_of(edit, crate):
    """The files of its crate that an edit changes, each with its text before and after."""
    path, old, texts = None, None, {}
    with open(edit, encoding="utf-8") as lines:
        for line in lines.read().split("\n"):
            if line.startswith("file: "):
                path = line[len("file: "):].strip()
                if path not in texts:
                    with open(os.path.join(TOP, "crates", crate, path), encoding="utf-8") as source:
                        before = source.read()
                    texts[path] = before, before
            elif line.startswith("old: "):
                old = line[len("old: "):]
            elif line.startswith("new:"):
                before, after = texts[path]
                texts[path] = before, after.replace(old, line[len("new:"):].removeprefix(" "))
    return [(path, before, after) for path, (before, after) in texts.items()]


def fault_of(edit, crate):
    """Why an edit does not fit its crate, or None."""
    path, old, pairs, texts = None, None, 0, {}
    with open(edit, encoding="utf-8") as lines:
        text = lines.read()
    for line in text.split("\n"):
        if line.startswith("file: "):
            path, old = line[len("file: "):].strip(), None
            if not path.startswith("src/") or os.path.normpath(path) != path:
                return f"{path} is no file of src/"
        elif line.startswith("old: "):
            old = line[len("old: "):]
        elif line.startswith("new:"):
            if path is None or old is None:
                return "a new text stands before its file or its old text"
            if path not in texts:
                try:
                    with open(os.path.join(TOP, "crates", crate, path), encoding="utf-8") as source:
                        texts[path] = source.read()
                except OSError:
                    return f"there is no file {path}"
            times = texts[path].count(old)
            if times != 1:
                return f"an old text stands {times} times in {path}"
            texts[path] = texts[path].replace(old, line[len("new:"):].removeprefix(" "))
            old, pairs = None, pairs + 1
        elif line.strip():
            return f"a line that is no part of an edit: {line[:60]}"
    return None if pairs else "it has no pair of an old and a new text"


def say_end(passed, faults):
    """Prints the faults and the last line `N passed, M failed`; answers the exit status."""
    for fault in faults:
        print(f"FAIL {fault}")
    print(f"{passed} passed, {len(faults)} failed")
    return 1 if faults or not passed else 0
