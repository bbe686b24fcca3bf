#!/usr/bin/env python3
"""Tries the wrong bodies, those that the gate tries too: each must be refused by the prover.

    tests/wrong.py [CRATE..] [--lanes N] [--only WORD] [--alone] [--anew]

Edits of crates/CRATE/must-fail and wrong-bodies/CRATE (of every crate, where none is named) are set into copies of the crate, several at
once where they change different functions, and `rt check` of these functions must say of each that a goal of its own is not proved. An edit
of which that is not said (a callee is not proved, the text cannot be read, it changes no single function) is tried so once more, with fewer
others, then by itself, where any goal that is not proved refuses it, and then by `rt must-fail`, which has the last word; with --alone each
is. A line `NOTE` names an edit that is refused only because a proof names what the edit took away, which shows nothing of the contract. All
goes on in as many lanes as there are processors and memory; --only takes the edits whose names have WORD. A crate's edits are tried as soon
as it is checked and the libraries below it are built, from what earlier checks of the tree left where that is up to date; a library goes
before an edit, and an edit of a higher crate before those of lower ones. As `rt ci` does with proofs, it keeps on this machine which edits
were refused, by a checksum of the kit, of this script, of the edit and of all files of its crate and of those below: a later run, in any
clone, tries only the others, and all of them with --anew. Prints each edit that is refused, then for each crate its edits, how many of them
were kept, minutes and processor minutes. The last line is `N passed, M failed`; the exit status is 0 where M is 0 and N is not.
"""
import argparse
import hashlib
import itertools
import os
import queue
import re
import shutil
import signal
import subprocess
import sys
import tempfile
import threading
import time
from concurrent.futures import Future, ThreadPoolExecutor

from wrong_bodies import TOP, below, crates, edits_beside, edits_of_gate, say_end, texts_of

# What a check of a crate takes at most, and how many edits a lane tries one after another at least: the
# first of them costs a check of the whole crate.
MEMORY_OF_A_LANE = 4 << 30
LEAST_OF_A_LANE = 12
# How many edits a check tries at once at most, and how often an edit is tried so.
MOST_AT_ONCE = 16
ROUNDS = 2
PARTS = ("src", "specs", "proofs")
LIBRARY = "out/rlib"


def lanes_here():
    """As many lanes as there are processors to run on, and memory for."""
    with open("/proc/meminfo", encoding="ascii") as lines:
        free = next(int(line.split()[1]) << 10 for line in lines if line.startswith("MemAvailable:"))
    return max(1, min(len(os.sched_getaffinity(0)), free // MEMORY_OF_A_LANE))


def copy_crate(name, to, kept):
    """Copies a crate with its library where that was built, with the kept work of its checks where that is asked for, and without its edits."""
    source, target = os.path.join(TOP, "crates", name), os.path.join(to, "crates", name)
    for part in [*PARTS, LIBRARY, *(["out/incremental"] if kept else [])]:
        if os.path.isdir(os.path.join(source, part)):
            shutil.copytree(os.path.join(source, part), os.path.join(target, part))


class Kept:
    """Which edits earlier runs on this machine refused: for each an empty file, named by a checksum of all that this rests on."""

    def __init__(self, tried, anew):
        folder = os.path.join(os.environ.get("XDG_CACHE_HOME") or os.path.expanduser("~/.cache"), "cnsd-wrong-bodies")
        os.makedirs(folder, exist_ok=True)
        kit = subprocess.run(["rt", "version"], capture_output=True, check=True).stdout
        self.anew, self.paths = anew, {}
        for name, found in tried.items():
            below_edit = kit + sum_of_crate(name)
            for edit in found:
                with open(edit, "rb") as text:
                    self.paths[edit] = os.path.join(folder, hashlib.sha256(below_edit + text.read()).hexdigest())

    def has(self, edit):
        """Whether an earlier run refused an edit, and is to be believed."""
        return not self.anew and os.path.exists(self.paths[edit])

    def keep(self, edit):
        """Keeps that an edit was refused."""
        with open(self.paths[edit], "wb"):
            pass


def sum_of_crate(name):
    """A checksum of what tries edits, and of the files and the lines of crates.txt of a crate and of those below it."""
    names = sorted({name} | all_below(name, below()))
    files = ["HANDLES", "tests/wrong.py", "tests/wrong_bodies.py"]
    for part in (os.path.join(TOP, "crates", one, part) for one in names for part in PARTS):
        files += sorted(os.path.relpath(os.path.join(folder, file), TOP) for folder, _, found in os.walk(part) for file in found)
    total = hashlib.sha256("".join(lines_of(names)).encode())
    for path in files:
        with open(os.path.join(TOP, path), "rb") as file:
            data = file.read()
        total.update(f"{path} {len(data)}\n".encode() + data)
    return total.digest()


def run(words, folder):
    """Runs a command; answers its exit status, what it said, and its processor seconds."""
    with tempfile.TemporaryFile("w+", errors="replace") as said:
        # (of itself `rt must-fail` takes all processors)
        started = subprocess.Popen(words, cwd=folder, env=dict(os.environ, RT_JOBS="1"), stdin=subprocess.DEVNULL, stdout=said,
                                   stderr=subprocess.STDOUT)
        _, status, used = os.wait4(started.pid, 0)
        started.returncode = os.waitstatus_to_exitcode(status)
        said.seek(0)
        return started.returncode, said.read(), used.ru_utime + used.ru_stime


class NotProved(Exception):
    """A crate as it stands is not proved; what its check said."""


class Lanes:
    """Runs jobs in so many threads, those of a lower rank first, and else those that came first."""

    def __init__(self, count):
        self.count, self.jobs, self.numbers, self.is_open = count, queue.PriorityQueue(), itertools.count(), True
        for _ in range(count):
            threading.Thread(target=self.work, daemon=True).start()

    def work(self):
        while True:
            _, _, future, job, words = self.jobs.get()
            try:
                if not self.is_open:
                    raise NotProved("")
                future.set_result(job(*words))
            except Exception as fault:  # (whoever waits for the job gets it)
                future.set_exception(fault)

    def submit(self, rank, job, *words):
        """Takes a job, and answers what its result is waited for by."""
        future = Future()
        self.jobs.put((rank, next(self.numbers), future, job, words))
        return future

    def each(self, rank, job, parts):
        """The results of a job on each of some parts."""
        return [future.result() for future in [self.submit(rank, job, part) for part in parts]]

    def close(self):
        """Begins no more jobs."""
        self.is_open = False


def make_ready(name, wanted, tree, lanes, ready):
    """Once those below a crate are ready, checks it where it is wanted, and builds its library where one above it is; answers its functions as a check names them."""
    stands_on = below()
    for one in stands_on[name]:
        ready[one].result()
    steps = [["rt", "check", "--jobs", "1"]] if name in wanted else []
    steps += [["rt", "lib"]] if any(name in all_below(one, stands_on) for one in wanted) else []
    if steps:
        status, said = lanes.submit(0, make_in_room, name, steps, tree).result()
        if status:
            lanes.close()
            raise NotProved(said)
        return NAMED.findall(said)
    return []


def make_in_room(name, steps, tree):
    """Takes these steps for a crate in a tree of its own, since a check keeps all others out of its crate and of those below; what they make is kept."""
    told = ""
    with tempfile.TemporaryDirectory(prefix="wrong-") as room:
        room_for(name, tree, room)
        for words in steps:
            status, said, _ = run(words, f"{room}/crates/{name}")
            if status:
                return status, said
            told += said
        shutil.rmtree(f"{tree}/crates/{name}/out", ignore_errors=True)
        shutil.move(f"{room}/crates/{name}/out", f"{tree}/crates/{name}/out")
    return 0, told


def all_below(name, stands_on):
    """The crates that a crate stands on, and those below them."""
    found = set()
    for one in stands_on[name]:
        found |= {one} | all_below(one, stands_on)
    return found


def split(found, lanes):
    """Parts of a crate's edits, each for a lane of its own."""
    parts = max(1, min(lanes, len(found) // LEAST_OF_A_LANE))
    return [found[at::parts] for at in range(parts)]


IMPL = re.compile(r"impl(?:<.*?>)? (?:(?:\w+::)*(\w+)(?:<.*?>)? for )?(\w+)")
FUNCTION = re.compile(r"\s*(?:pub(?:\([a-z]+\))? )?(?:const )?fn (\w+)")
# What a proof file says where an edit took a name away: that tells nothing of the contract.
NAMES = re.compile(r"(note: )?(\./)?proofs/.*(has no field|is not in scope|has no `|was not admitted)")
# What `rt must-fail` says where nothing else refused the edit.
ONLY_NAMES = "only because a proof file names what the edit took away"
# Where a message says that a goal of a function is not proved.
IN_PROOFS = re.compile(r"(?:note: )?(?:\./)?proofs/([\w/+]+)/(?:Answers|Invariants|Proof)\.antt:\d+:\d+: error")
IN_SOURCE = re.compile(r"note: (?:\./)?(src/[\w/]+\.rt):(\d+):\d+: it is not proved that")
# How a check names a function that it has proved.
NAMED = re.compile(r"^fn (\S+): proved", re.M)
# What a check says once it has come to the proofs, and where it could not read the source before.
VERDICT = re.compile(r"^(?:logic|only)=", re.M)
UNREAD_IN = re.compile(r"^(?:\./)?(src/[\w/]+\.rt):(\d+):\d+: error", re.M)
# A message with its place; an error in source or definitions; and the words of one that says of a text that it could not be read.
TOLD = re.compile(r"(?:note: )?\S+:\d+:\d+:")
IN_TEXT = re.compile(r"(?:\./)?(?:src|specs)/\S+?:\d+:\d+: error: (?:(`[^`]*`): )?(.*)")
OF_READING = re.compile(r"is not in scope|has no field|is no name|operand is missing|expected the end|cannot continue")


def type_at(lines, number):
    """The type of whose methods a line is one, with the trait behind it where they are a trait's; None outside of such."""
    if lines[number].startswith(" "):
        return next((found[2] + (found[1] or "") for found in map(IMPL.match, reversed(lines[:number])) if found), None)
    return None


def function_at(lines, number):
    """The type, the name and the first line of the function in which a line stands, counted from 0; None outside of one."""
    for first in range(number, -1, -1):
        found = FUNCTION.match(lines[first])
        if found:
            indent = len(lines[first]) - len(lines[first].lstrip())
            last = next((at for at in range(first + 1, len(lines)) if lines[at] == " " * indent + "}"), None)
            return (type_at(lines, first), found[1], first) if last is not None and number <= last else None
    return None


def differ_by_spaces(left, right):
    """Whether two lines without a text or a character in them differ by spaces alone."""
    return not any(quote in left + right for quote in "'\"") and "".join(left.split()) == "".join(right.split())


def changed_functions(edit, name):
    """The functions that an edit changes: file, type, name; None where it changes something else too.

    Spaces alone, outside of texts, change nothing: they tell a line from others that are alike.
    """
    found = set()
    for path, before, after in texts_of(edit, name):
        old, new = before.split("\n"), after.split("\n")
        if len(old) != len(new):
            return None
        for number, (left, right) in enumerate(zip(old, new)):
            if left != right and not differ_by_spaces(left, right):
                function = function_at(old, number)
                if function is None or function[2] == number:
                    return None
                found.add((path, *function[:2]))
    return found or None


def batches(found, name):
    """The edits in parts that change different functions, and those that can be tried only alone."""
    parts, alone = [], []
    for edit in found:
        functions = changed_functions(edit, name)
        if functions is None:
            alone.append(edit)
            continue
        for part in parts:
            if len(part) < MOST_AT_ONCE and not any(functions & other for _, other in part):
                part.append((edit, functions))
                break
        else:
            parts.append([(edit, functions)])
    return parts, alone


def room_for(name, tree, room):
    """A tree with a crate, and of those below it with what a check of it reads."""
    os.makedirs(f"{room}/crates")
    for one in all_below(name, below()):
        for part in (it for it in (*PARTS, LIBRARY) if os.path.isdir(f"{tree}/crates/{one}/{it}")):
            shutil.copytree(f"{tree}/crates/{one}/{part}", f"{room}/crates/{one}/{part}", copy_function=os.link)
    # (a process of its own: what a check left is many files, and a thread that copies them keeps the others waiting)
    subprocess.run(["cp", "-a", "--", f"{tree}/crates/{name}", f"{room}/crates/"], check=True)
    write_lines_of(room, [name, *all_below(name, below())])


def function_told(lines, number):
    """The function of a message that names this line: of one with an attribute before it, that is the attribute's first line."""
    if lines[number].lstrip().startswith("#["):
        number = next((at for at in range(number, len(lines)) if FUNCTION.match(lines[at])), number)
    return function_at(lines, number)


def refused_in(said, folder, functions):
    """Whether each of these functions has a goal that is not proved, by what a check said.

    The proof of a method stands under the file of its type, which may be another one than its own.
    """
    told, methods = set(), set()
    for line in said.splitlines():
        if NAMES.match(line):
            continue
        in_proofs, in_source = IN_PROOFS.match(line), IN_SOURCE.match(line)
        if in_proofs:
            words = in_proofs[1].split("/")
            told.add((f"src/{words[0]}.rt", None, words[-1]))
            methods.add(tuple(words[-2:]))
        elif in_source:
            with open(f"{folder}/{in_source[1]}", encoding="utf-8") as lines:
                function = function_told(lines.read().split("\n"), int(in_source[2]) - 1)
            if function:
                told.add((in_source[1], *function[:2]))
    return all((path, type_name, name) in told or (type_name, name) in methods for path, type_name, name in functions)


def set_into(part, name, folder, paths):
    """Sets edits of different functions into a copy of a crate: each file with the lines of all that change it."""
    after = {}
    for path in paths:
        with open(os.path.join(TOP, "crates", name, path), encoding="utf-8") as source:
            after[path] = source.read().split("\n")
    for edit, _ in part:
        for path, left, right in texts_of(edit, name):
            for number, (old, new) in enumerate(zip(left.split("\n"), right.split("\n"))):
                if old != new and not differ_by_spaces(old, new):
                    after[path][number] = new
    for path, lines in after.items():
        with open(f"{folder}/{path}", "w", encoding="utf-8") as out:
            out.write("\n".join(lines))


def spoiling(part, said, folder):
    """The edits of which a check says that their functions cannot be read, where it came to no proof for that."""
    if VERDICT.search(said):
        return []
    told = set()
    for path, number in UNREAD_IN.findall(said):
        with open(f"{folder}/{path}", encoding="utf-8") as lines:
            function = function_told(lines.read().split("\n"), int(number) - 1)
        told |= {(path, *function[:2])} if function else set()
    return [edit for edit, functions in part if functions & told]


def only_these(part, name, named):
    """The words by which a check looks at the functions of these edits and what they call, and not at their callers; none where one of them cannot be told."""
    words = []
    for path, type_name, function in sorted({one for _, functions in part for one in functions}, key=str):
        if type_name:
            found = [one for one in named if one.endswith(f"::{type_name}::{function}")]
        else:
            module = path.removeprefix("src/").removesuffix(".rt").split("/")
            found = [one for one in named if one == "::".join([name, *(module if module != ["lib"] else []), function])]
        if len(found) != 1:
            return []
        words += ["--only", found[0]]
    return words


def try_batch(job):
    """Tries edits of different functions at once; answers those that were refused, and what it cost."""
    name, part, tree, named, kept = job
    began, used = time.monotonic(), 0.0
    with tempfile.TemporaryDirectory(prefix="wrong-") as room:
        room_for(name, tree, room)
        folder = f"{room}/crates/{name}"
        paths = {path for _, functions in part for path, *_ in functions}
        while True:
            set_into(part, name, folder, paths)
            status, said, taken = run(["rt", "check", "--jobs", "1", *only_these(part, name, named)], folder)
            used += taken
            spoilt = spoiling(part, said, folder)
            if not spoilt:
                break
            part = [it for it in part if it[0] not in spoilt]
        good = [edit for edit, functions in part if status and refused_in(said, folder, functions)]
    for edit in good:
        tell_refused(name, edit, kept, "refused at its function")
    return good, time.monotonic() - began, used


def tell_refused(name, edit, kept, how):
    """Keeps and prints that an edit was refused."""
    with SAYING:
        kept.keep(edit)
        print(f"{name}/{os.path.basename(edit)}: {how}", flush=True)


def try_alone(job):
    """Tries one edit by itself, over what earlier checks of its crate left; answers whether it was refused, and what it cost.

    Where nothing else was changed, any goal that is not proved refuses it, in whatever function.
    """
    name, edit, tree, kept = job
    began = time.monotonic()
    with tempfile.TemporaryDirectory(prefix="wrong-") as room:
        room_for(name, tree, room)
        folder = f"{room}/crates/{name}"
        for path, _, after in texts_of(edit, name):
            with open(f"{folder}/{path}", "w", encoding="utf-8") as out:
                out.write(after)
        status, said, used = run(["rt", "check", "--jobs", "1"], folder)
    lines = said.splitlines()
    told = [line for line in lines if TOLD.match(line) and (": error" in line or line.startswith("note: "))]
    good = status == 1 and "logic=not-proved" in lines and not any(map(is_unread, lines)) and not all(map(NAMES.match, told))
    if good:
        tell_refused(name, edit, kept, "refused by itself")
    return [edit] if good else [], time.monotonic() - began, used


def is_unread(line):
    """Whether a line says that a text could not be read, as `rt must-fail` tells it: then no contract was tried."""
    found = IN_TEXT.match(line)
    return bool(found) and (not found[1] or bool(OF_READING.search(re.sub(r"`[^`]*`", "", found[2]))))


def try_crate(name, found, tree, lanes, ready, alone, kept):
    """Tries a crate's edits once it is ready; answers how many were refused, the others' names, seconds and processor seconds."""
    named = ready[name].result()
    rank, left, seconds, used = len(crates()) - crates().index(name), list(found), 0.0, 0.0
    for _ in range(0 if alone else ROUNDS):
        parts, _ = batches(left, name)
        before = len(left)
        for good, spent, taken in lanes.each(rank, try_batch, [(name, part, tree, named, kept) for part in parts]):
            left = [edit for edit in left if edit not in good]
            seconds, used = seconds + spent, used + taken
        # Where no part had two edits, all that a check of the crate's changes tells is told.
        if len(left) == before or all(len(part) < 2 for part in parts):
            break
    for good, spent, taken in [] if alone else lanes.each(rank, try_alone, [(name, edit, tree, kept) for edit in left]):
        left = [edit for edit in left if edit not in good]
        seconds, used = seconds + spent, used + taken
    failed = []
    for _, _, bad, spent, taken in lanes.each(rank, try_edits, [(name, part, tree, kept) for part in split(left, lanes.count) if part]):
        failed += bad
        seconds, used = seconds + spent, used + taken
    return len(found) - len(failed), failed, seconds, used


def refusal_of(said, label):
    """What `rt must-fail` said of an edit that is refused; None where it is not."""
    refused = f"must-fail {label}: refused, as it must be"
    return next((line.partition(refused)[2].removeprefix(": ") for line in said.splitlines() if refused in line), None)


def try_edits(job):
    """Tries some edits of a crate in a tree of their own.

    Answers the crate, how many were refused, the names of the others, seconds and processor seconds.
    """
    name, found, tree, kept = job
    began = time.monotonic()
    with tempfile.TemporaryDirectory(prefix="wrong-") as room:
        room_for(name, tree, room)
        os.makedirs(f"{room}/crates/{name}/must-fail")
        for edit in found:
            shutil.copyfile(edit, f"{room}/crates/{name}/must-fail/{os.path.basename(edit)}")
        status, said, used = run(["rt", "must-fail", name], room)
    passed, failed, notes = [], [], []
    for edit in found:
        label = f"{name}/{os.path.basename(edit)}"
        refusal = refusal_of(said, label)
        if refusal is None:
            failed.append(os.path.basename(edit))
            continue
        kept.keep(edit)
        passed.append(os.path.basename(edit))
        if ONLY_NAMES in refusal:
            notes.append(f"NOTE {label}: a proof names what it takes away, which shows nothing")
    with SAYING:
        for line in said.splitlines():
            if line.startswith("rt:") or failed:
                print(line, flush=True)
        for note in notes:
            print(note, flush=True)
    return name, len(passed), failed, time.monotonic() - began, used


def lines_of(names):
    """The lines of crates.txt of some crates."""
    with open(os.path.join(TOP, "crates.txt"), encoding="utf-8") as lines:
        return [line for line in lines if line.partition(":")[0].strip() in names]


def write_lines_of(tree, names):
    """Writes a tree's HANDLES, and its crates.txt with the lines of these crates alone."""
    shutil.copyfile(os.path.join(TOP, "HANDLES"), f"{tree}/HANDLES")
    with open(f"{tree}/crates.txt", "w", encoding="utf-8") as lines:
        lines.writelines(lines_of(names))


SAYING = threading.Lock()


def main():
    parser = argparse.ArgumentParser(description=__doc__, formatter_class=argparse.RawDescriptionHelpFormatter)
    parser.add_argument("crates", nargs="*", metavar="CRATE")
    parser.add_argument("--lanes", type=int, default=lanes_here())
    parser.add_argument("--only", default="")
    parser.add_argument("--alone", action="store_true")
    parser.add_argument("--anew", action="store_true")
    asked = parser.parse_args()
    unknown = [name for name in asked.crates if name not in crates()]
    if unknown:
        print(f"FAIL there is no crate {unknown[0]}")
        print("0 passed, 1 failed")
        return 1
    signal.signal(signal.SIGTERM, lambda *_: sys.exit(1))
    tried = {name: [it for it in edits_of_gate(name) + edits_beside(name) if asked.only in os.path.basename(it)]
             for name in asked.crates or crates()}
    tried = {name: found for name, found in tried.items() if found}
    kept = Kept(tried, asked.anew)
    before = {name: [edit for edit in found if kept.has(edit)] for name, found in tried.items()}
    tried = {name: [edit for edit in found if not kept.has(edit)] for name, found in tried.items()}
    tried = {name: found for name, found in tried.items() if found}
    passed, failed, rows = 0, [], {}
    lanes, ready, stands_on = Lanes(asked.lanes), {}, below()
    copied = [name for name in crates() if any(name == one or name in all_below(one, stands_on) for one in tried)]
    with tempfile.TemporaryDirectory(prefix="wrong-tree-") as tree, ThreadPoolExecutor(2 * len(copied) + 1) as beside:
        for name in copied:
            copy_crate(name, tree, name in tried)
        write_lines_of(tree, copied)
        for name in copied:
            ready[name] = beside.submit(make_ready, name, tried, tree, lanes, ready)
        ended = {name: beside.submit(try_crate, name, tried[name], tree, lanes, ready, asked.alone, kept) for name in tried}
        try:
            for name, found in ended.items():
                good, bad, seconds, used = found.result()
                rows[name] = good, len(bad), seconds, used
                passed, failed = passed + good, failed + [f"{name}/{one}" for one in bad]
        except NotProved:
            said = "".join(dict.fromkeys(str(it.exception()) for it in ready.values() if it.exception()))
            print(said, end="" if said.endswith("\n") else "\n")
            print("FAIL a crate is not proved, so nothing in it or above it can be tried")
            print("0 passed, 1 failed")
            return 1
        finally:
            lanes.close()
    print(f"{'crate':16} {'refused':>8} {'kept':>6} {'other':>6} {'minutes':>8} {'processor minutes':>18}")
    for name in before:
        good, bad, seconds, used = rows.get(name, (0, 0, 0.0, 0.0))
        passed += len(before[name])
        print(f"{name:16} {good + len(before[name]):8} {len(before[name]):6} {bad:6} {seconds / 60:8.1f} {used / 60:18.1f}")
    return say_end(passed, [f"{one}: not refused by the prover" for one in failed])


if __name__ == "__main__":
    sys.exit(main())
