#!/usr/bin/env python3
"""tests/check_table.py PROGRAM: the tables that `table` makes of the text of each example and case, and of texts that nobody should give it.

oracle/table.py makes each table once more, by what docs/FORMATS.md says. A table is read back as CSV, its columns are counted, and the rows of
POS and BAL are those of the text. Where sqlite3 is there, it takes a table in, and keeps the zeros in front of CUSIPs and accounts.
The last line is `N passed, M failed`; the exit status is 0 where M is 0.
"""
import csv
import importlib
import io
import os
import re
import shutil
import subprocess
import sys
import tempfile

TOP = os.path.dirname(os.path.dirname(os.path.abspath(__file__)))
sys.path.insert(0, os.path.join(TOP, 'oracle'))
table = importlib.import_module('table')
FOLDERS = ('examples', 'tests/cases', 'tests/version-1')
HEAD = b'report,date,kind,row,cusip,account,free,lent,out,shares\n'
REPORT = b"""trade A1 accepted
REPORT cycle 2025-03-04 NIGHT
POS 037833100 0001                  -40
POOL 037833100 free 20 lent 0 out 0
BAL 037833100 0000                   20
END
"""
# What a line of a report is changed to, which is none; and lines that may stand outside of one.
NO_LINES = [b'', b' ', b'END ', b'end', b'REPORT cycle none', b'trade A1 accepted', b'POS 037833100 0001                  -40 ', b'POS 037833100 0001 -40',
            b'POS 037833100 1                     -40', b'POS 03783310 0001                   -40', b'POS 037833100 0001                  4-0',
            b'POS 037833100 0001                    -', b'POS 037833100 0001                     ', b'POS "37833100 0001                  -40',
            b'BAL 037833100 0000                  -20', b'POOL 037833100 free 20 lent 0', b'POOL 037833100 free 20 lent 0 out 0 out 0', b'POOL 037833100 free  20 lent 0 out 0',
            b'POOL 037833100 free -1 lent 0 out 0', b'POOL 037833100 free 20 lent 0 out', b'POOL 0378331005 free 20 lent 0 out 0', b'POS 037833100 0001                  -40\r', b'\xff' * 300,
            b'POS 037833100 0001 ' + b' ' * 2_000_000 + b'-40']
NO_HEADS = [b'REPORT', b'REPORT cycle', b'REPORT cycle none ', b'REPORT cycle NONE', b'REPORT cycle 2025-03-04', b'REPORT cycle 2025-03-04 night', b'REPORT cycle 2025-3-4 NIGHT', b'REPORTS']


def run(program, words, text):
    """The exit status and both outputs of a program."""
    ended = subprocess.run([*program, *words], input=text, capture_output=True, check=False)
    return ended.returncode, ended.stdout, ended.stderr


def texts():
    """The texts of runs: the outputs of the folders, by their names, and some that nobody should give."""
    for folder in FOLDERS:
        for name in sorted(os.listdir(os.path.join(TOP, folder))):
            if name.endswith('.out'):
                with open(os.path.join(TOP, folder, name), 'rb') as text:
                    yield f'{folder}/{name}', text.read()
    yield 'nothing', b''
    yield 'one report', REPORT
    yield 'a report with no LF at its end', REPORT[:-1]
    yield 'a report of no cycle', REPORT.replace(b'2025-03-04 NIGHT', b'none')
    yield 'three reports', REPORT + REPORT.replace(b'NIGHT', b'DAY') + REPORT.replace(b'-40', b' 41')
    yield 'reports with CR LF', REPORT.replace(b'\n', b'\r\n')
    yield 'a line of 5 MB', b'x' * 5_000_000 + b'\n' + REPORT
    for place, line in enumerate(REPORT.splitlines(keepends=True)):
        yield f'cut before line {place + 1}', REPORT[:REPORT.index(line)]
        yield f'cut within line {place + 1}', REPORT[:REPORT.index(line) + len(line) // 2]
    for wrong in NO_LINES:
        for line in REPORT.splitlines()[2:5]:
            yield f'{wrong[:40]} in place of {line}', REPORT + REPORT.replace(line, wrong)
    for wrong in NO_HEADS:
        yield f'{wrong} as a head', REPORT + REPORT.replace(b'REPORT cycle 2025-03-04 NIGHT', wrong)


def faults(program, name, text):
    """What is wrong with the tables of a text, in words."""
    tables = {}
    for words in ([], ['--last']):
        told = run([program, 'table'], words, text)
        want = table.answer(text, bool(words))
        if told != want:
            yield f'{name}, {words}: status {told[0]}, {told[2][:200]}, where {want[0]}, {want[2][:200]} is wanted, or other rows'
        if told[0] == 0:
            tables[bool(words)] = told[1]
    if len(tables) < 2:
        return
    rows = list(csv.reader(io.StringIO(tables[False].decode('ascii'))))
    if any(len(row) != 10 for row in rows) or not tables[False].startswith(HEAD):
        yield f'{name}: a row has another number of columns'
    shown = [[row[3], row[4], row[5], row[9]] for row in rows[1:] if row[3] != 'POOL']
    if shown != [line.split() for line in text.decode('latin-1').split('\n') if re.match('POS |BAL ', line)]:
        yield f'{name}: the rows of positions and balances are not those of the text'
    last = [row for row in rows[1:] if row[0] == rows[-1][0]]
    if text.count(b'REPORT cycle ') == len({row[0] for row in rows[1:]}) and list(csv.reader(io.StringIO(tables[True].decode('ascii'))))[1:] != last:
        yield f'{name}: the last report is another one'


def in_database(program):
    """What is wrong with a table that sqlite3 takes in, in words."""
    with tempfile.TemporaryDirectory() as folder:
        path = os.path.join(folder, 'table.csv')
        with open(path, 'wb') as out:
            out.write(run([program, 'table'], [], REPORT)[1])
        asked = '.mode csv\n.import %s reports\nselect cusip, account, sum(shares) from reports where row <> \'POOL\' group by cusip, account order by account;\n' % path
        ended = subprocess.run(['sqlite3'], input=asked, capture_output=True, text=True, check=False)
        if ended.stdout.split() != ['037833100,0000,20', '037833100,0001,-40']:
            yield f'sqlite3 reads {ended.stdout}, {ended.stderr}'


def main():
    if len(sys.argv) != 2:
        print(__doc__, file=sys.stderr)
        print('0 passed, 1 failed')
        return 2
    program = os.path.abspath(sys.argv[1])
    passed, failed = 0, 0
    found = [(name, list(faults(program, name, text))) for name, text in texts()]
    if shutil.which('sqlite3'):
        found.append(('sqlite3', list(in_database(program))))
    for _, wrong in found:
        for what in wrong:
            print('FAIL', what)
        failed += len(wrong)
        passed += not wrong
    print(f'{passed} passed, {failed} failed')
    return 0 if failed == 0 and passed else 1


if __name__ == '__main__':
    sys.exit(main())
