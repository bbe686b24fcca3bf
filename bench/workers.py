#!/usr/bin/env python3
"""Times lots that workers serve, the drawing of their tickets alone, and the same in plain Rust; prints tables.

    workers.py PROGRAM FOLDER [--drawing DRAWING] [--plain PLAIN]

One member has sold an issue to WORKERS_LONGS others (9,998 where it is not set), whom one lot serves as one
group: by `--workers` 0 and each of WORKERS_COUNTS ("1 2 4 16 64"). 0 is one thread of single events. In each of
WORKERS_ROUNDS rounds (9) PROGRAM runs the whole script, and the script less its last line, which is the allocation:
what that takes is the difference of the two. It is more than the drawing: the tickets are entered, the lot is
closed, and two lines are told of each member. DRAWING draws the tickets of such a lot and enters none, and PLAIN
draws as many in plain Rust by as many threads; both tell how long the drawing took, and how long it took then to
have the tickets in the order of their starts. All stand in one round, in one order and then in the other.

Then PROGRAM and PLAIN run once more with the library in FOLDER preloaded, which tells a run's peak of memory and how
many threads it had, the first one among them.
The exit status is 0, or 1 where a run fails or draws other tickets than those it is to draw.
"""
import argparse
import os
import statistics
import subprocess
import sys
import time

HERE = os.path.dirname(os.path.abspath(__file__))
LONGS = int(os.environ.get("WORKERS_LONGS", "9998"))
ROUNDS = int(os.environ.get("WORKERS_ROUNDS", "9"))
COUNTS = [0, *map(int, os.environ.get("WORKERS_COUNTS", "1 2 4 16 64").split())]
SHARES = 100


def fail(words, status, said):
    print(f"FAILED: {' '.join(words)}: exit status {status}, it said {said[:200]!r}")
    sys.exit(1)


def run(words, text, more=None):
    """Runs a program; answers what it wrote, and its seconds."""
    began = time.monotonic()
    done = subprocess.run(words, input=text, stdout=subprocess.PIPE, env={**os.environ, **(more or {})}, text=True)
    spent = time.monotonic() - began
    if done.returncode:
        fail(words, done.returncode, done.stdout)
    return done.stdout, spent


class Allocation:
    """The program's allocations: the script with and without its last line."""

    def __init__(self, path):
        self.path = path
        self.whole = subprocess.run([f"{HERE}/make_input.py", str(LONGS), "--longs"], stdout=subprocess.PIPE, text=True, check=True).stdout
        self.less = self.whole[: self.whole.rstrip("\n").rindex("\n") + 1]

    def words(self, workers):
        return [self.path, "run", "--workers", str(workers)]

    def drawn(self, workers, text, tickets, more=None):
        """Runs a script, which has to tell so many tickets that tile; answers its seconds."""
        said, spent = run(self.words(workers), text, more)
        starts = [int(line.split()[3]) for line in said.splitlines() if line.startswith("ticket ")]
        if starts != list(range(0, SHARES * tickets, SHARES)):
            fail(self.words(workers), 0, said)
        return spent

    def times(self, workers):
        """The milliseconds of a run and of its allocation."""
        less = self.drawn(workers, self.less, 0)
        whole = self.drawn(workers, self.whole, LONGS)
        return 1000 * whole, 1000 * (whole - less)

    def run_with(self, workers, more):
        self.drawn(workers, self.whole, LONGS, more)


class Drawing:
    """A drawing alone, by what the program tells of it."""

    def __init__(self, path):
        self.path = path

    def times(self, workers, more=None):
        """The milliseconds of the drawing, and of it and the sorting."""
        words = [self.path, str(workers), str(LONGS)]
        said, _ = run(words, "", more)
        told = said.split()
        if len(told) != 4 or told[1:3] != [str(LONGS), str(LONGS * SHARES)]:
            fail(words, 0, said)
        drawing, sorting = int(told[0]) / 1e6, int(told[3]) / 1e6
        return drawing, drawing + sorting

    def run_with(self, workers, more):
        self.times(workers, more)


class Usage:
    """What a run tells of its threads and its memory."""

    def __init__(self, folder):
        self.file = os.path.join(folder, "usage")
        self.more = {"LD_PRELOAD": os.path.join(folder, "tell_usage.so"), "TELL_USAGE": self.file}

    def of(self, one, workers):
        """The peak in MiB and the threads of a run."""
        one.run_with(workers, self.more)
        with open(self.file, encoding="ascii") as said:
            threads, peak = map(int, said.read().split())
        os.remove(self.file)
        return peak / 1024, threads


def measure(all_of_them):
    """For each of these and each count of workers, its times in each round."""
    found = {(one, count): [] for one in all_of_them for count in COUNTS}
    jobs = list(found)
    for number in range(ROUNDS):
        for one, count in jobs if number % 2 == 0 else jobs[::-1]:
            found[one, count].append(one.times(count))
    return found


def medians(rounds):
    """For each of the times of the rounds its median, and its best."""
    return [(statistics.median(one), min(one)) for one in zip(*rounds)]


def tell_allocations(program, plain, usage, found):
    """Prints for each count of workers the program's run and allocation, its memory and its threads; those of plain Rust's drawing beside them."""
    print("\nallocations; ratio: to the allocation without workers")
    head = f"{'workers':>7} {'run':>8} {'allocation':>10} {'best':>8} {'ratio':>6} {'MiB':>6} {'threads':>7}"
    print(head + (f"  {'plain: MiB':>10} {'threads':>7}" if plain else ""))
    (none, _) = medians(found[program, 0])[1]
    for count in COUNTS:
        (whole, _), (allocation, best) = medians(found[program, count])
        peak, threads = usage.of(program, count)
        line = f"{count:>7} {whole:>8.1f} {allocation:>10.1f} {best:>8.1f} {allocation / none:>6.2f} {peak:>6.1f} {threads:>7}"
        if plain:
            peak, threads = usage.of(plain, count)
            line += f"  {peak:>10.1f} {threads:>7}"
        print(line)


def tell_drawings(program, drawing, plain, found):
    """Prints for each count of workers the drawing alone: the program's, plain Rust's, and their ratios."""
    print("\nthe drawing alone; ratio: of the program's to plain Rust's; sorted: the same, until the tickets are in the order of their starts")
    print("share: the drawing's share of the allocation, in percent")
    names = [word for one, name in ((drawing, "drawing"), (plain, "plain")) if one for word in (name, "best")]
    ratios = ["ratio", "best", "sorted", "best"] if drawing and plain else []
    shares = ["share"] if drawing else []
    print(f"{'workers':>7} " + " ".join(f"{name:>8}" for name in names) + "".join(f" {name:>7}" for name in ratios + shares))
    for count in COUNTS:
        each = [medians(found[one, count]) for one in (drawing, plain) if one]
        line = [f"{figure:>8.3f}" for drawn, _ in each for figure in drawn]
        if len(each) == 2:
            line += [f"{ours / theirs:>7.2f}" for one, other in zip(*each) for ours, theirs in zip(one, other)]
        if drawing:
            (allocation, _) = medians(found[program, count])[1]
            line.append(f"{100 * each[0][0][0] / allocation:>7.1f}")
        print(f"{count:>7} " + " ".join(line))


def main():
    reader = argparse.ArgumentParser(description="Times lots that workers serve.")
    reader.add_argument("program")
    reader.add_argument("folder")
    reader.add_argument("--drawing")
    reader.add_argument("--plain")
    given = reader.parse_args()
    program = Allocation(given.program)
    drawing = Drawing(given.drawing) if given.drawing else None
    plain = Drawing(given.plain) if given.plain else None
    found = measure([one for one in (program, drawing, plain) if one])
    processors = len(os.sched_getaffinity(0))
    print(f"one lot of {LONGS:,} longs in one group, {ROUNDS} rounds, {processors} processors; milliseconds: medians, and the best")
    tell_allocations(program, plain, Usage(given.folder), found)
    if drawing or plain:
        tell_drawings(program, drawing, plain, found)


if __name__ == "__main__":
    main()
