#!/usr/bin/env python3
"""Tries `check` on random inputs: it must tell each fault of each row, each opening that does not hold, each header that is
none and each line that is no command, at the line where it stands, and nothing else; behind heads that are wrong too, once each line
that names a head is taken for it. It must note each id of a trade that comes again.

    check.py PROGRAM --seed N --count K [--from F]

The inputs are the texts that fuzz.py runs. What is wrong with one is found out here by the oracle's readings of fields, rows
and lines, from what docs/FORMATS.md says of them. The last line is `N passed, M failed`; the exit status is 0 where M is 0 and
N is not.
"""
import collections
import random
import re
import subprocess
import sys
import tempfile

import cnsd_oracle
import fuzz

# What may stand in a line beside the name of a head, and the heads by their names.
BESIDE = b'\t\n\r "():[]{}\xbb\xbf\xef'
HEADS = {b'openings': b'[openings]\n', b'opening': b'[openings]\n', b'trades': b'[trades]\n', b'trade': b'[trades]\n', b'script': b'[script]\n', b'scripts': b'[script]\n'}
OPENINGS = b'account,cusip,shares'.split(b',')
TRADES = b'trade,settle,buyer,seller,cusip,quantity'.split(b',')
MOST = 1000             # of a part that are told one by one


def faults_of(row, readers):
    """How many faults a row has, field by field."""
    if len(row) != len(readers):
        return 1
    faults = 0
    for text, (read, *given) in zip(row, readers):
        try:
            read(text, *given)
        except cnsd_oracle.Fault:
            faults += 1
    return faults


TRADE_READERS = [(cnsd_oracle.read_id,), (cnsd_oracle.read_date,), (cnsd_oracle.read_member,), (cnsd_oracle.read_member,),
                 (cnsd_oracle.read_cusip,), (cnsd_oracle.read_number, 1, 999999999999)]
OPENING_READERS = [(cnsd_oracle.read_member,), (cnsd_oracle.read_cusip,), (cnsd_oracle.read_number, 0, cnsd_oracle.SHARES_LIMIT)]


class Openings:
    """The openings that hold so far."""

    def __init__(self):
        self.held, self.sums = set(), collections.Counter()

    def refuses(self, row):
        member, issue, shares = cnsd_oracle.read_opening(row)
        if (issue, member) in self.held or self.sums[issue] + shares > cnsd_oracle.SHARES_LIMIT:
            return True
        self.held.add((issue, member))
        self.sums[issue] += shares
        return False


def in_section(text, first, header, readers, openings=None):
    """The lines of what is wrong in a section, each as often as something is told of it."""
    records = cnsd_oracle.numbered_records(text)
    lines = [first + records[0][0] - 1] if records and records[0][1] != header else []
    for number, row in records[1:]:
        faults = faults_of(row, readers)
        if faults == 0 and openings is not None:
            faults = 1 if openings.refuses(row) else 0
        if len(row) == len(header) and row[0] == header[0]:
            faults = 1                  # a second header is told once
        lines += [first + number - 1] * faults
    return lines


def in_script(lines, first):
    """The lines of a script that are no commands, or may not stand where they do."""
    wrong, beside = [], 0
    for number, line in enumerate(lines, first):
        if not line or line.startswith(b'#'):
            continue
        command = cnsd_oracle.read_command(line)
        if command is None or (beside and command[0] == 'BESIDE'):
            wrong.append(number)
        elif command[0] == 'BESIDE':
            beside = command[1][1] + 1
        beside = max(0, beside - 1)
    return wrong


def wanted(text):
    """The lines of what is wrong with a text; None where its heads are."""
    try:
        openings, trades, script = cnsd_oracle.split_sections(text)
    except cnsd_oracle.BadInput:
        return None
    trades_at = 3 + openings.count(b'\n')
    script_at = trades_at + trades.count(b'\n') + 1
    parts = [in_section(openings, 2, OPENINGS, OPENING_READERS, Openings()),
             in_section(trades, trades_at, TRADES, TRADE_READERS),
             in_script(script, script_at)]
    if any(len(part) > MOST for part in parts):
        return []
    return [line for part in parts for line in part]


def mended(text):
    """A text in which each line that names a head is that head."""
    lines = re.findall(rb'[^\n]*\n|[^\n]+', text)
    return b''.join(HEADS.get(line.translate(None, BESIDE).lower(), line) for line in lines)


def noted(text):
    """What is to be noted of ids that come again: the line of each such row, and that of the first one with the id."""
    try:
        openings, trades, _ = cnsd_oracle.split_sections(text)
    except cnsd_oracle.BadInput:
        return []
    first, again = {}, []
    for number, row in cnsd_oracle.numbered_records(trades)[1:]:
        try:
            name = cnsd_oracle.read_id(row[0])
        except cnsd_oracle.Fault:
            continue
        line = 2 + openings.count(b'\n') + number
        if name in first:
            again.append((line, first[name]))
        else:
            first[name] = line
    return again


def notes(error):
    """The lines that notes tell of; None where they are not of their form."""
    *lines, last = error.split(b'\n')
    if last:
        return None
    found = [re.fullmatch(rb'-:(\d+): note: trade `\w+` stands in line (\d+) too: .*', line) for line in lines[:-1]]
    counted = not lines or lines[-1].startswith(b'%d id' % len(found))
    return [(int(note[1]), int(note[2])) for note in found] if all(found) and counted else None


def told(out):
    """The lines that a check's output tells of; None where it is not of that form."""
    *lines, last = out.split(b'\n')
    if last or (lines and b' of heads and headers, ' not in lines[-1]):
        return None
    return [int(line.split(b':')[1]) for line in lines[:-1]]


def is_right(text, status, out, error):
    """Whether what a check did is right."""
    want = wanted(text)
    if notes(error) != noted(text) or status != (0 if want == [] else 1):
        return False
    if want is None:
        heads = len(re.findall(rb'^-:\d+: (?:no line is `\[|the first line is `)', out, re.M))
        return 1 <= heads <= 3 and told(out) is not None and told(out)[heads:] == (wanted(mended(text)) or [])
    return out == b'' if not want else told(out) == want


def main():
    given = fuzz.input_arguments('Tries check on random inputs.').parse_args()
    program = fuzz.found_program(given.program)
    if program is None:
        return 1
    passed, clean, number = 0, 0, given.first
    while passed < given.count:
        text = fuzz.Maker(random.Random('%d/%d/check' % (given.seed, number))).text()
        done = subprocess.run([program, 'check'], input=text, capture_output=True, timeout=fuzz.SECONDS)
        if not is_right(text, done.returncode, done.stdout, done.stderr):
            with tempfile.NamedTemporaryFile(suffix='.in', delete=False) as left:
                left.write(text)
            print('input %d of seed %d: program and oracle differ' % (number, given.seed))
            print('wanted %s, told %s, status %s, %s' % (wanted(text), told(done.stdout), done.returncode, done.stderr))
            print('left in %s' % left.name)
            print('again: check.py %s --seed %d --from %d --count 1' % (given.program, given.seed, number))
            print('%d passed, 1 failed' % passed)
            return 1
        clean += done.returncode == 0
        passed += 1
        number += 1
    print('%d inputs of seed %d: no difference; in %d nothing is wrong' % (passed, given.seed, clean))
    print('%d passed, 0 failed' % passed)
    return 0 if passed > 0 else 1


if __name__ == '__main__':
    sys.exit(main())
