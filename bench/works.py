#!/usr/bin/env python3
"""Counts what a program's work costs, in instructions, which do not wander, and in memory.

    works.py PROGRAM [WORK..] [--full] [--peers FOLDER] [--csv FILE]

Runs each work of make_works.py (all, where none is named) at a sixty-fourth, a thirty-second and a sixteenth of its size under
`valgrind --tool=callgrind`, and prints the millions of instructions; the growth exponent (1 where twice the work
costs twice as much); and how many times those of a plain Rust program of the same rules they are, which has running
values, and no journals, proofs or room for want of memory (its figures were taken once; it is no part of this
repository). With --full each work is run once at its full size too, for its processor seconds, its peak memory (by
tell_usage.c, which `cc` compiles), and that of plain Rust.

With --peers the programs FOLDER/NAME/target/release/cnsd, which answer the same on the same works, are run beside it in their
place: for each of them there is a column that says what part of its instructions, and with --full of its memory, the
program takes. --csv adds a line for each run to a file: the date, the commit, the program, the work, its size, and its instructions
or its processor seconds and KiB. The exit status is 1 where a run ends in a fault, or a peer answers something else.
"""
import argparse
import csv
import datetime
import fractions
import glob
import hashlib
import math
import os
import re
import subprocess
import sys
import tempfile

from make_works import WORKS

HERE = os.path.dirname(os.path.abspath(__file__))
MAKE_WORKS = os.path.join(HERE, 'make_works.py')
SCALES = [fractions.Fraction(1, parts) for parts in (64, 32, 16)]
# Of plain Rust: millions of instructions at these scales, and MiB at full size, where they were taken.
PLAIN = {
    'netting': ([50.3, 96.9, 188.1], 188),
    'cycles': ([16.5, 32.3, 65.6], 56),
    'lots': ([3.7, 7.1, 13.5], 12.6),
    'longs': ([1.3, 2.2, 3.9], 4.8),
    'link': ([3.2, 6.2, 11.8], 12.4),
    'reading': ([27.4], None),
    'letters': ([270.6], 66),
    'commas': ([54.3], 66),
    'unknown': ([67.4], 66),
    'reports': ([46.9], 66),
    'pumps': ([48.3], 66),
    'empty': ([12.4], 66),
}
COLLECTED = re.compile(rb'Collected : (\d+)')


class Failed(Exception):
    """A run that ended in a fault."""


def run(words, work, out=subprocess.DEVNULL, more=None):
    """Runs a command on a work, whose text goes to a file where one is given; answers what it said beside it, and what it used."""
    with tempfile.TemporaryFile() as said, open(work, 'rb') as text:
        started = subprocess.Popen(words, stdin=text, stdout=out, stderr=said, env={**os.environ, **(more or {})})
        _, status, used = os.wait4(started.pid, 0)
        started.returncode = os.waitstatus_to_exitcode(status)
        said.seek(0)
        words_said = said.read()
    if started.returncode != 0:
        raise Failed('exit status %d: %s' % (started.returncode, words_said[-200:].decode(errors='replace')))
    return words_said, used


def instructions(program, work, out=subprocess.DEVNULL):
    """How many instructions a program takes for a work."""
    said, _ = run(['valgrind', '--tool=callgrind', '--callgrind-out-file=/dev/null', program, 'run'], work, out)
    return int(COLLECTED.search(said).group(1))


def usage(program, work, out):
    """The processor seconds that a program takes for a work, and the KiB of its peak memory: the system's own count has in it what this script holds."""
    with tempfile.TemporaryDirectory() as folder:
        library, told = os.path.join(folder, 'tell_usage.so'), os.path.join(folder, 'told')
        subprocess.run([os.environ.get('CC') or 'cc', '-shared', '-fPIC', '-O1', '-o', library, os.path.join(HERE, 'tell_usage.c'), '-ldl'], check=True)
        _, used = run([program, 'run'], work, out, {'LD_PRELOAD': library, 'TELL_USAGE': told})
        with open(told, encoding='ascii') as numbers:
            _threads, peak = map(int, numbers.read().split())
    return used.ru_utime + used.ru_stime, peak


def write_work(name, scale, path):
    """Writes a work, in a process of its own, since a text of 64 MiB takes some time to make and much memory."""
    with open(path, 'wb') as out:
        subprocess.run([sys.executable, MAKE_WORKS, name, '--scale', str(scale)], stdout=out, check=True)


class Measured:
    """Programs of which the first one is measured, and the others beside it; and where each run is written down."""

    def __init__(self, programs, file):
        self.programs, self.rows = programs, csv.writer(file, lineterminator='\n') if file else None
        commit = subprocess.run(['git', 'rev-parse', '--short', 'HEAD'], cwd=HERE, capture_output=True, text=True)
        self.begins = [datetime.date.today().isoformat(), commit.stdout.strip()]

    def write(self, program, name, scale, cells):
        if self.rows:
            self.rows.writerow([*self.begins, program, name, scale, *cells])

    def each(self, name, scale, path, measure):
        """What a measure, of a program's path and the file for its text, says of each program on a work; each answers the same text."""
        write_work(name, scale, path)
        found, texts = [], set()
        for program, at in self.programs:
            with tempfile.TemporaryFile() as out:
                found.append(measure(at, out))
                out.seek(0)
                texts.add(hashlib.file_digest(out, 'sha256').digest())
            if len(texts) > 1:
                raise Failed('%s answers something else' % program)
        return found

    def counts(self, name, scale, path):
        """The instructions of each program on a work."""
        found = self.each(name, scale, path, lambda at, out: instructions(at, path, out))
        for (program, _), count in zip(self.programs, found):
            self.write(program, name, scale, [count, '', ''])
        return found

    def whole(self, name, path):
        """The processor seconds and the KiB of each program on a whole work."""
        found = self.each(name, 1, path, lambda at, out: usage(at, path, out))
        for (program, _), (seconds, memory) in zip(self.programs, found):
            self.write(program, name, 1, ['', '%.2f' % seconds, memory])
        return found

    def row(self, name, full, path):
        """A work's line of the table."""
        counts = [self.counts(name, scale, path) for scale in SCALES]
        own = [count[0] / 1e6 for count in counts]
        cells = [name, *('%.1f' % count for count in own), '%.2f' % (math.log2(own[-1] / own[0]) / 2)]
        if len(self.programs) == 1:
            plain, memory = PLAIN[name]
            times = ['%.1f' % (own[at] / plain[at]) for at in (0, len(SCALES) - 1) if at < len(plain)]
            cells.append(' to '.join(times))
        else:
            cells += [', '.join('%.2f' % (count[0] / count[at]) for count in counts) for at in range(1, len(self.programs))]
        if full:
            found = self.whole(name, path)
            cells += ['%.1f' % found[0][0], '%.0f' % (found[0][1] / 1024)]
            cells += ['%.2f' % (found[0][1] / other) for _, other in found[1:]] or [str(memory or '')]
        return cells


def peers_in(folder):
    """The names and the paths of the programs beside which one is measured."""
    found = sorted(glob.glob(os.path.join(glob.escape(folder), '*', 'target', 'release', 'cnsd')))
    return [(os.path.relpath(path, folder).split(os.sep)[0], os.path.abspath(path)) for path in found]


def print_rows(names, row):
    """Prints the line that `row` gives of each work and a folder of its own; answers 1 where a run ended in a fault, else 0."""
    bad = 0
    with tempfile.TemporaryDirectory() as folder:
        for name in names:
            try:
                cells = row(name, folder)
            except Failed as fault:
                cells, bad = [name, 'FAILED: %s' % fault], 1
            print('| ' + ' | '.join(cells) + ' |', flush=True)
    return bad


def main():
    parser = argparse.ArgumentParser(description='Counts what a program costs on the works of make_works.py.')
    parser.add_argument('program')
    parser.add_argument('works', nargs='*', metavar='WORK', help=', '.join(WORKS))
    parser.add_argument('--full', action='store_true')
    parser.add_argument('--peers', metavar='FOLDER')
    parser.add_argument('--csv', metavar='FILE', type=argparse.FileType('a'))
    given = parser.parse_args()
    if set(given.works) - set(WORKS):
        parser.error('the works are ' + ', '.join(WORKS))
    peers = peers_in(given.peers) if given.peers else []
    if given.peers and not peers:
        parser.error('there is no NAME/target/release/cnsd in ' + given.peers)
    measured = Measured([('cnsd', os.path.abspath(given.program)), *peers], given.csv)
    heads = ['work', *('1/%d' % scale.denominator for scale in SCALES), 'exponent', *(['of ' + name for name, _ in peers] or ['times plain Rust'])]
    if given.full:
        heads += ['seconds', 'MiB', *(['of %s, MiB' % name for name, _ in peers] or ['plain MiB'])]
    print('| ' + ' | '.join(heads) + ' |')
    return print_rows(given.works or WORKS, lambda name, folder: measured.row(name, given.full, os.path.join(folder, 'work')))


if __name__ == '__main__':
    sys.exit(main())
