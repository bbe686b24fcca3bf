#!/usr/bin/env python3
"""Says what a program's instructions go into on the works of make_works.py, in parts of a hundred.

    profile.py PROGRAM [WORK..] [--scale 1/64]

Runs each work (all, where none is named) under `valgrind --tool=callgrind`, takes what each function costs by itself, and adds it up by
kind: a function belongs to the first kind one of whose words its name has. The last column has the five dearest functions. What is
made in line counts for the function that it is made in. The exit status is 1 where a run ends in a fault.
"""
import argparse
import os
import re
import subprocess
import sys

from make_works import WORKS
from works import print_rows, run, write_work

# A kind, and the words of the names of its functions.
KINDS = [
    ('csv', ['csv::']),
    ('copies and memory', ['memcpy', 'memmove', 'memset', 'malloc', 'realloc', 'free', 'rattle_alloc', 'rattle_dealloc']),
    ('sorting', ['::sort']),
    ('maps', ['core::hash', 'index_table', 'HashMap', 'IndexMap', 'hash_map', 'indexmap', 'BTree', 'btree', 'words::']),
    ('lines', ['core::fmt', 'core::str', 'cns_report', 'String', 'itoa', 'to_bytes']),
    ('rows', ['cns_trades', 'cns_ids', 'read_rows', 'read_parts', 'read_front', 'read_input']),
    ('script', ['cns_input', 'memchr', 'command']),
    ('records', ['cns_records', 'cns_journal']),
    ('heap', ['binary_heap']),
    ('book', ['cns_netting', 'cns_covers', 'cns_movements']),
    ('nodes', ['cns_clearing', 'cns_depository', 'cns_system', 'cns_allocate', 'cns_pool', 'cns_wire']),
]
LINE = re.compile(r'\s*([\d,]+) \([\d. ]+%\)\s+\S*?:(.*?)(?: \[[^\]]*\])?$')


def kind_of(function):
    """The kind of a function."""
    return next((kind for kind, words in KINDS if any(word in function for word in words)), 'other')


def costs(program, work, folder):
    """What each function costs by itself."""
    out = os.path.join(folder, 'callgrind')
    run(['valgrind', '--tool=callgrind', '--callgrind-out-file=' + out, program, 'run'], work)
    said = subprocess.run(['callgrind_annotate', '--inclusive=no', '--threshold=100', out], stdout=subprocess.PIPE, text=True, check=True).stdout
    found = (LINE.match(line) for line in said.splitlines())
    return [(int(it[1].replace(',', '')), it[2]) for it in found if it and 'PROGRAM TOTALS' not in it[2]]


def row_of(program, name, scale, folder):
    """A work's line of the table."""
    path = os.path.join(folder, 'work')
    write_work(name, scale, path)
    found = costs(program, path, folder)
    total = sum(cost for cost, _ in found)
    parts = dict.fromkeys([kind for kind, _ in KINDS] + ['other'], 0)
    for cost, function in found:
        parts[kind_of(function)] += cost
    dearest = ['%s %.0f' % (function.split('::<')[0], 100 * cost / total) for cost, function in sorted(found, reverse=True)[:5]]
    return [name, '%.1f' % (total / 1e6), *('%.0f' % (100 * part / total) for part in parts.values()), ', '.join(dearest)]


def main():
    parser = argparse.ArgumentParser(description="Says what a program's instructions go into.")
    parser.add_argument('program')
    parser.add_argument('works', nargs='*', metavar='WORK', help=', '.join(WORKS))
    parser.add_argument('--scale', default='1/64')
    given = parser.parse_args()
    program = os.path.abspath(given.program)
    if set(given.works) - set(WORKS):
        parser.error('the works are ' + ', '.join(WORKS))
    print('| ' + ' | '.join(['work', 'millions', *(kind for kind, _ in KINDS), 'other', 'dearest functions']) + ' |')
    return print_rows(given.works or WORKS, lambda name, folder: row_of(program, name, given.scale, folder))


if __name__ == '__main__':
    sys.exit(main())
