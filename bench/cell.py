#!/usr/bin/env python3
"""Times the cell beside plain Rust, and prints tables of both.

    cell.py CELL [PLAIN]

CELL and PLAIN are programs that take how many seats there are, how many tickets each draws, and from
how many cells, one after another. For each cell they print the nanoseconds of the drawing, the tickets,
their shares, and how often a seat's ticket does not start where its last one ends. PLAIN with a last
argument `counts` also keeps the counts that a seat of the cell keeps. With no PLAIN there are the
cell's figures alone.

In each round each program runs once, in one order and then in the other. A run draws from one cell
whose tickets go into fresh memory, so that the system's work on each new page is timed too, and then
from some more in the same memory: the C library is told by its environment to keep what is freed.
CELL_TICKETS (2,000,000 where it is not set) is how many tickets each seat draws of a cell, CELL_ROUNDS
(9) how many rounds there are, and CELL_SEATS ("1 2 4") how many seats draw at once.
The exit status is 0, or 1 where a run fails or draws other tickets than those it is to draw.
"""
import os
import statistics
import subprocess
import sys

SHARES = 100
TICKETS = int(os.environ.get("CELL_TICKETS", "2000000"))
ROUNDS = int(os.environ.get("CELL_ROUNDS", "9"))
SEATS = [int(word) for word in os.environ.get("CELL_SEATS", "1 2 4").split()]

NAMES = ("cell", "plain", "counts")

# From how many cells a run draws.
CELLS = 4
KEEPS_MEMORY = {"MALLOC_MMAP_MAX_": "0", "MALLOC_TRIM_THRESHOLD_": str(1 << 40)}


def run(program, seats, tickets, cells):
    """Runs a program; answers its rate for each cell, how often another seat drew between, and its peak kilobytes.

    A program is its path and what stands behind the numbers.
    """
    words = [program[0], str(seats), str(tickets), str(cells), *program[1:]]
    env = {**os.environ, **KEEPS_MEMORY} if cells > 1 else None
    started = subprocess.Popen(words, stdout=subprocess.PIPE, text=True, env=env)
    said = started.stdout.read()
    _, status, used = os.wait4(started.pid, 0)
    started.returncode = os.waitstatus_to_exitcode(status)
    lines = [line.split() for line in said.splitlines()]
    drawn = [str(seats * tickets), str(seats * tickets * SHARES)]
    if started.returncode or len(lines) != cells or any(len(line) != 4 or line[1:3] != drawn for line in lines):
        print(f"FAILED: {' '.join(words)}: exit status {started.returncode}, it said {said[:200]!r}")
        sys.exit(1)
    return [seats * tickets * 1000 / int(line[0]) for line in lines], [int(line[3]) for line in lines], used.ru_maxrss


def rates(programs, seats):
    """For each program its rates in kept and in fresh memory; and how often another seat drew between, of the first."""
    kept, fresh, between = {name: [] for name in programs}, {name: [] for name in programs}, []
    for number in range(ROUNDS):
        for program in programs if number % 2 == 0 else programs[::-1]:
            found, gaps, _ = run(program, seats, TICKETS, CELLS)
            fresh[program].append(found[0])
            kept[program] += found[1:]
            if program == programs[0]:
                between += gaps[1:]
    return list(kept.values()), list(fresh.values()), between


def tell_rates(title, found, last=()):
    """Prints a table of rates: for each number of seats those of each program; `last` has one more column."""
    print(f"\n{title}")
    head = [word for name in NAMES[: len(found[0])] for word in (name, "best", "ratio", "best")]
    del head[2:4]
    print(f"{'seats':>5} " + " ".join(f"{word:>6}" for word in head) + (f" {'between':>10}" if last else ""))
    for at, (seats, rows) in enumerate(zip(SEATS, found)):
        figures = [(statistics.median(one), max(one)) for one in rows]
        line = list(figures[0])
        for one in figures[1:]:
            line += [*one, figures[0][0] / one[0], figures[0][1] / one[1]]
        end = f" {statistics.median(last[at]):>10,.0f}" if last else ""
        print(f"{seats:>5} " + " ".join(f"{figure:>6.2f}" for figure in line) + end)


def tell_memory(programs):
    """Prints how much memory a run takes for each ticket.

    The peak that the system tells is at least this script's own, so a run is compared with a smaller one.
    """
    print("\nmemory: bytes of peak resident memory a ticket, by a run less one of half as many tickets")
    print(f"{'seats':>5} " + " ".join(f"{word:>7}" for word in NAMES[: len(programs)]))
    few = TICKETS // 2
    for seats in SEATS:
        grown = [run(program, seats, TICKETS, 1)[2] - run(program, seats, few, 1)[2] for program in programs]
        print(f"{seats:>5} " + " ".join(f"{1024 * one / (seats * (TICKETS - few)):>7.1f}" for one in grown))


def main():
    if len(sys.argv) not in (2, 3):
        print("usage: cell.py CELL [PLAIN]", file=sys.stderr)
        sys.exit(2)
    plain = sys.argv[2:]
    programs = [(sys.argv[1],), *([(plain[0],), (plain[0], "counts")] if plain else [])]
    processors = len(os.sched_getaffinity(0))
    print(f"reserves of one cell: {TICKETS:,} tickets a seat, {ROUNDS} rounds, {processors} processors")
    print("millions a second: the median, and the best; ratio: of the cell to what stands before")
    print("between: how often, by the median, another seat drew between two tickets of one seat")
    found = [rates(programs, seats) for seats in SEATS]
    tell_rates("in memory that was used before", [one[0] for one in found], [one[2] for one in found])
    tell_rates("in fresh memory", [one[1] for one in found])
    tell_memory(programs)


if __name__ == "__main__":
    main()
