#!/usr/bin/env python3
"""Times commits to journals on a disk beside plain Rust, and the reopening of a long one.

    journal.py PROGRAM FOLDER [PLAIN]

PROGRAM takes JOURNAL_TRADES trades (2,000 where it is not set), of which each is one record, over two
journals in a new folder within FOLDER; PLAIN then commits the records of that journal to another file of the
same folder by the same calls. Each runs JOURNAL_ROUNDS times (5), one after the other. The program's time
is that of its whole run less one that takes no trade: it reads the input, judges each trade and tells it as
well. Where there is valgrind, it counts how many instructions of its own a record takes more in files than in memory.
Then a journal of JOURNAL_RECORDS accepted trades (1,000,000) is made, and the program opens it for a
script of one report.
The exit status is 0, or 1 where a run fails.
"""
import os
import resource
import shutil
import statistics
import subprocess
import sys
import time

from works import COLLECTED

TRADES = int(os.environ.get("JOURNAL_TRADES", "2000"))
ROUNDS = int(os.environ.get("JOURNAL_ROUNDS", "5"))
RECORDS = int(os.environ.get("JOURNAL_RECORDS", "1000000"))
HEAD = "[openings]\n[trades]\ntrade,settle,buyer,seller,cusip,quantity\n"


def trades(count):
    return "".join(f"T{number},2025-03-04,{number % 97 + 1},{number % 89 + 101},037833100,100\n" for number in range(count))


def run(words, text=""):
    """Runs a program; answers what it wrote, its seconds, and its peak kilobytes."""
    began = time.monotonic()
    started = subprocess.Popen(words, stdin=subprocess.PIPE, stdout=subprocess.PIPE, text=True)
    said, _ = started.communicate(text)
    spent = time.monotonic() - began
    if started.returncode:
        print(f"FAILED: {' '.join(words)}: exit status {started.returncode}")
        sys.exit(1)
    return said, spent, resource.getrusage(resource.RUSAGE_CHILDREN).ru_maxrss


def fresh(folder, name):
    path = os.path.join(folder, name)
    shutil.rmtree(path, ignore_errors=True)
    os.mkdir(path)
    return path


def accepted(number):
    """The record of an accepted trade, by docs/FORMATS.md."""
    name = f"T{number}".encode()
    payload = bytes([1, 1, len(name)]) + name + (2025).to_bytes(2, "big") + bytes([3, 4])
    payload += (number % 97 + 1).to_bytes(2, "big") + (number % 89 + 101).to_bytes(2, "big") + b"037833100"
    payload += (100).to_bytes(8, "big")
    return b"\xa5" + len(payload).to_bytes(4, "big") + payload


def commits(program, folder, plain):
    """Prints how long a record takes by the program and by plain Rust."""
    spent, beside = [], []
    text = HEAD + trades(TRADES) + "[script]\n"
    for _ in range(ROUNDS):
        journals = fresh(folder, "journals")
        idle = run([program, "run", "--journal", journals], text)[1]
        journals = fresh(folder, "journals")
        said, whole, _ = run([program, "run", "--journal", journals], text + "TAKE ALL\n")
        if said.count(" accepted\n") != TRADES:
            print(f"FAILED: {said[:200]!r}")
            sys.exit(1)
        spent.append(whole - idle)
        if plain:
            clear = os.path.join(journals, "clear.journal")
            count, nanoseconds = map(int, run([plain, clear, os.path.join(journals, "plain")])[0].split())
            if count != TRADES:
                print(f"FAILED: {count} records, not {TRADES}")
                sys.exit(1)
            beside.append(nanoseconds / 1e9)
    shutil.rmtree(journals)
    middle = statistics.median(spent)
    print(f"commits: {TRADES:,} records, {ROUNDS} rounds; the median")
    print(f"  program  {TRADES / middle:>10,.0f} records a second, {middle / TRADES * 1e6:8.1f} microseconds each")
    if plain:
        other = statistics.median(beside)
        print(f"  plain    {TRADES / other:>10,.0f} records a second, {other / TRADES * 1e6:8.1f} microseconds each")
        print(f"  ratio of the program's time: {statistics.median(a / b for a, b in zip(spent, beside)):.2f}")


def instructions(words, text):
    """How many instructions of its own a run takes: those of the system behind its calls are not counted."""
    ran = subprocess.run(["valgrind", "--tool=callgrind", "--callgrind-out-file=/dev/null", *words], input=text.encode(),
                         stdout=subprocess.DEVNULL, stderr=subprocess.PIPE, check=True)
    return int(COLLECTED.search(ran.stderr)[1])


def instructions_a_record(program, folder):
    """Prints how many instructions more a record takes in files than in memory."""
    text = HEAD + trades(TRADES) + "[script]\n"
    taken = []
    for script in ("", "TAKE ALL\n"):
        in_files = instructions([program, "run", "--journal", fresh(folder, "journals")], text + script)
        taken.append(in_files - instructions([program, "run"], text + script))
    shutil.rmtree(os.path.join(folder, "journals"))
    print(f"instructions a record, above those in memory: {(taken[1] - taken[0]) / TRADES:,.0f}")


def reopening(program, folder):
    """Prints what it takes to open a long journal."""
    journals = fresh(folder, "journals")
    clear = os.path.join(journals, "clear.journal")
    with open(clear, "wb") as file:
        for number in range(RECORDS):
            file.write(accepted(number))
        file.write(b"\0")
    size = os.path.getsize(clear)
    said, spent, memory = run([program, "run", "--journal", journals], "[openings]\n[trades]\n[script]\nREPORT\n")
    shutil.rmtree(journals)
    if said != "REPORT cycle none\nEND\n":
        print(f"FAILED: {said[:200]!r}")
        sys.exit(1)
    print(f"reopening: {RECORDS:,} records, {size / 1e6:.0f} MB: {spent:.1f} seconds, {memory / 1024:,.0f} MiB at most")


def main():
    program, folder = os.path.abspath(sys.argv[1]), sys.argv[2]
    commits(program, folder, sys.argv[3] if len(sys.argv) > 3 else None)
    if shutil.which("valgrind"):
        instructions_a_record(program, folder)
    reopening(program, folder)


if __name__ == "__main__":
    main()
