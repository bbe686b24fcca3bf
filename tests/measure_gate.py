#!/usr/bin/env python3
"""Runs a command, `make test` where none is given, and says what each crate's proofs cost in it.

    tests/measure_gate.py [COMMAND..]

Looks twice a second at the checks that run below the command and keeps the processor time of each. When
the command has ended, prints a row for each crate: its lines (as count_lines.py counts them), and the
processor minutes of its proofs, of its tests' proofs and of its edits; then the minutes of the whole
run. The exit status is the command's own.
"""
import os
import subprocess
import sys
import time

from count_lines import COLUMNS, counts_of
from wrong_bodies import TOP, crates

KINDS = ("proofs", "tests", "edits")
TICKS = os.sysconf("SC_CLK_TCK")


def processes():
    """For each process its parent, its start and its processor ticks."""
    found = {}
    for name in os.listdir("/proc"):
        if name.isdigit():
            try:
                with open(f"/proc/{name}/stat", encoding="utf-8", errors="replace") as text:
                    words = text.read().rpartition(")")[2].split()
            except OSError:
                continue
            found[int(name)] = int(words[1]), int(words[19]), int(words[11]) + int(words[12])
    return found


def what_is_checked(process):
    """The crate that a process checks and of which kind the check is, or None."""
    try:
        with open(f"/proc/{process}/cmdline", encoding="utf-8", errors="replace") as text:
            words = text.read().split("\0")
        folder = os.readlink(f"/proc/{process}/cwd")
    except OSError:
        return None
    if "--crate-name" not in words:
        return None
    crate = words[words.index("--crate-name") + 1]
    if "--only" in words:
        return crate, "edits"
    return crate, "tests" if "--test" in words else "proofs"


def is_below(process, root, found):
    """Whether a process descends from another one."""
    while process in found and process != root:
        process = found[process][0]
    return process == root


def main():
    began, seen = time.monotonic(), {}
    running = subprocess.Popen(sys.argv[1:] or ["make", "--no-print-directory", "test"], cwd=TOP)
    while running.poll() is None:
        found = processes()
        for process, (_, start, ticks) in found.items():
            if is_below(process, running.pid, found):
                what = seen[process, start][0] if (process, start) in seen else what_is_checked(process)
                if what:
                    seen[process, start] = what, ticks
        time.sleep(0.5)
    minutes = dict.fromkeys([(crate, kind) for crate in crates() for kind in KINDS], 0.0)
    for (crate, kind), ticks in seen.values():
        if (crate, kind) in minutes:
            minutes[crate, kind] += ticks / TICKS / 60
    print("| crate | " + " | ".join(COLUMNS + KINDS) + " |")
    rows = [(crate, counts_of(crate), [minutes[crate, kind] for kind in KINDS]) for crate in crates()]
    rows.append(("all", [sum(column) for column in zip(*(row[1] for row in rows))],
                 [sum(column) for column in zip(*(row[2] for row in rows))]))
    for crate, counts, spent in rows:
        cells = [f"{count:,}" for count in counts] + [f"{part:.1f}" for part in spent]
        print(f"| {crate} | " + " | ".join(cells) + " |")
    print(f"{(time.monotonic() - began) / 60:.1f} minutes on {len(os.sched_getaffinity(0))} processors")
    return running.returncode


if __name__ == "__main__":
    sys.exit(main())
