#!/usr/bin/env python3
"""Runs `rt ci`, and beside it tries the wrong bodies of the gate: the prover must refuse each.

    tests/prove.py

The wrong bodies of the gate are the edits of crates/*/must-fail; `make wrong` tries these and all others. `rt ci` would check a crate anew for
its edits, and ask only that some goal of the crate is not proved. So it runs here on a copy of the tree, as it stands when this begins, that has
no edits: what it makes is brought back. As soon as it says that a crate is proved, the crate's edits are set into a copy of it, as many at once
as change different functions, and over the libraries that `rt ci` made of the crates below, `rattle check --only` of these functions and of what
they call must say of each that a goal of its own is not proved. An edit of which that is not said is tried once more by itself. Proofs go first:
edits are tried at the lowest priority, and half as many checks of them at once as `rt ci` may run (RT_JOBS). What was refused is kept on this
machine as `make wrong` keeps it, and not tried again while nothing that it stands on changes. Prints what `rt ci` prints, and what the edits of
each crate came to and cost. The last line is `N passed, M failed`, which counts what `rt ci` counts and each edit; the exit status is 0 where M
is 0 and N is not.
"""
import os
import re
import shutil
import signal
import subprocess
import sys
import tempfile
import time
from concurrent.futures import ThreadPoolExecutor

from wrong import LIBRARY, PARTS, Kept, all_below, batches, changed_functions, refused_in, run, set_into
from wrong_bodies import MUST_FAIL, TOP, below, crates, edits_of_gate, used

# How `rt ci` says that a crate, and with it all that it stands on, is proved; and how it ends.
PROVED = re.compile(r"rt: (\w+) (?:proved$|is kept: )")
ENDED = re.compile(r"(\d+) passed, (\d+) failed\b")


def copy_tree(to):
    """Copies the tree to the top of a repository of its own, without what runs left in it, and without the edits of the gate."""

    def left_out(folder, _):
        return [".git"] if folder == TOP else ["out", MUST_FAIL] if os.path.dirname(folder) == os.path.join(TOP, "crates") else []

    shutil.copytree(TOP, to, symlinks=True, ignore=left_out)
    os.mkdir(f"{to}/.git")


def bring_back(tree):
    """Moves what `rt ci` made of each crate of a copy of the tree to where it leaves it otherwise."""
    for name in crates():
        made, to = f"{tree}/crates/{name}/out", os.path.join(TOP, "crates", name, "out")
        for one in os.listdir(made) if os.path.isdir(made) else []:
            os.makedirs(to, exist_ok=True)
            shutil.rmtree(f"{to}/{one}", ignore_errors=True)
            shutil.move(f"{made}/{one}", f"{to}/{one}")


def only_name(function):
    """A function of an edit by the end of the name that a check gives it, which `--only` takes."""
    path, type_name, name = function
    module = path.removeprefix("src/").removesuffix(".rt").split("/")[-1]
    return f"{type_name or module}::{name}" if type_name or module not in ("lib", "main") else name


def words_of_check(crate, tree, functions):
    """The words by which rattle checks these functions of a crate, over the libraries of a tree and those of the kit."""
    kit = os.path.dirname(subprocess.run(["rt", "doc"], capture_output=True, text=True, check=True).stdout.strip())
    root = next(it for it in ("src/lib.rt", "src/main.rt") if os.path.isfile(os.path.join(TOP, "crates", crate, it)))
    words = [f"{kit}/bin/rattle", "check", "--crate-name", crate, root, "--extern", f"std={kit}/rlibs/std.rlib"]
    for name in used()[crate]:
        words += ["--extern", f"{name}={tree}/crates/{name}/{LIBRARY}/{name}.rlib" if name in crates() else f"{name}={kit}/rlibs/{name}.rlib"]
    for name in sorted(all_below(crate, below())):
        words += ["-L", f"dependency={tree}/crates/{name}/{LIBRARY}"]
    words += ["-L", f"dependency={kit}/rlibs", "--antt-project", f"{kit}/rattle/logic/antt-project.json", "--logic-built", f"{kit}/logic_built"]
    for name in sorted(map(only_name, functions)):
        words += ["--only", name]
    return ["nice", "-n", "19", *words, "--links", f"{crate}=", "--jobs", "1"]


def refused_of(crate, part, tree):
    """Which edits of a part a check of their functions refuses, and the processor seconds that it takes."""
    functions = {one for _, found in part for one in found}
    with tempfile.TemporaryDirectory(prefix="wrong-") as folder:
        for it in PARTS:
            if os.path.isdir(os.path.join(TOP, "crates", crate, it)):
                shutil.copytree(os.path.join(TOP, "crates", crate, it), f"{folder}/{it}")
        set_into(part, crate, folder, {path for path, *_ in functions})
        status, said, seconds = run(words_of_check(crate, tree, functions), folder)
        return [edit for edit, found in part if status == 1 and refused_in(said, folder, found)], seconds


def try_crate(crate, found, tree, kept):
    """Tries a crate's edits, and keeps which of them are refused; answers these, and the processor seconds that it takes."""
    parts, _ = batches(found, crate)
    refused, spent = [], 0.0
    for part in parts:
        good, seconds = refused_of(crate, part, tree)
        refused, spent = refused + good, spent + seconds
    for edit in [it for it in found if it not in refused]:
        functions = changed_functions(edit, crate)
        good, seconds = refused_of(crate, [(edit, functions)], tree) if functions else ([], 0.0)
        refused, spent = refused + good, spent + seconds
    for edit in refused:
        kept.keep(edit)
    return refused, spent


def lanes_here():
    """How many checks of edits run at once."""
    number = os.environ.get("RT_JOBS", "")
    return max(1, (int(number) if number.isdigit() else len(os.sched_getaffinity(0))) // 2)


def run_proofs(tree, began_with):
    """Runs `rt ci` on a tree and prints what it says; calls what is given with each crate that it proves. Answers how many passed and failed."""
    passed, failed = 0, 0
    with subprocess.Popen(["rt", "ci"], cwd=tree, stdout=subprocess.PIPE, stderr=subprocess.STDOUT, text=True, errors="replace") as started:
        try:
            for line in started.stdout:
                print(line, end="", flush=True)
                proved, ended = PROVED.match(line), ENDED.match(line)
                passed, failed = (int(ended[1]), int(ended[2])) if ended else (0, 0)
                if proved:
                    began_with(proved[1])
        except BaseException:
            started.terminate()
            raise
    return passed, max(failed, 1) if started.returncode else failed


def kept_of(wanted, room):
    """What earlier runs on this machine refused, or nothing where nothing can be kept there: then this run keeps it in a folder of its own."""
    try:
        return Kept(wanted, False)
    except OSError:
        os.environ["XDG_CACHE_HOME"] = room
        return Kept(wanted, False)


def say_crate(name, found, before, trial):
    """Waits for the edits of a crate and prints what they came to; answers how many are refused, and what is wrong with the others."""
    good, spent = trial.result() if trial else ([], 0.0)
    bad = [edit for edit in found if edit not in good and edit not in before]
    why = "not refused by the prover" if trial else "not tried, since its crate is not proved"
    print(f"{name}: {len(good)} refused, {len(before)} were before, {len(bad)} not; {spent:.0f} processor seconds", flush=True)
    return len(found) - len(bad), [f"{os.path.relpath(edit, TOP)}: {why}" for edit in bad]


def main():
    signal.signal(signal.SIGTERM, lambda *_: sys.exit(1))
    wanted = {name: edits_of_gate(name) for name in crates() if edits_of_gate(name)}
    trials, refused, faults, began = {}, 0, [], time.monotonic()
    with tempfile.TemporaryDirectory(prefix="prove-") as room, ThreadPoolExecutor(lanes_here()) as lanes:
        tree = f"{room}/tree"
        copy_tree(tree)
        kept = kept_of(wanted, room)
        before = {name: [edit for edit in found if kept.has(edit)] for name, found in wanted.items()}

        def is_proved(name):
            left = [edit for edit in wanted.get(name, []) if edit not in before[name]]
            if left:
                trials[name] = lanes.submit(try_crate, name, left, tree, kept)

        passed, failed = run_proofs(tree, is_proved)
        print(f"== wrong bodies of the gate, {time.monotonic() - began:.0f} seconds after rt ci began", flush=True)
        for name, found in wanted.items():
            good, bad = say_crate(name, found, before[name], trials.get(name))
            refused, faults = refused + good, faults + bad
        bring_back(tree)
    for fault in faults:
        print(f"FAIL {fault}")
    passed, failed = passed + refused, failed + len(faults)
    print(f"{passed} passed, {failed} failed")
    return 1 if failed or not passed else 0


if __name__ == "__main__":
    sys.exit(main())
