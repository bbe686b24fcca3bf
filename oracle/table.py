#!/usr/bin/env python3
"""Prints the table of the reports in the text of a run, as CSV.

    table.py [--last] [FILE]

A second reading of docs/FORMATS.md, 'Output lines' and 'The report'; without FILE standard input is read. Where the text is
refused the fault is told on standard error, and the exit status is 2; then the rows before the fault are printed, or with
--last none.
"""
import re
import sys

HEAD = re.compile(rb'REPORT cycle (?:none|([0-9]{4}-[0-9]{2}-[0-9]{2}) (NIGHT|DAY))')
CUSIP = rb'([0-9A-Z*@#]{9})'
POS = re.compile(rb'POS ' + CUSIP + rb' ([0-9]{4}) (?=.{20}$) *(-?[0-9]{1,20})', re.S)
BAL = re.compile(rb'BAL ' + CUSIP + rb' ([0-9]{4}) (?=.{20}$) *([0-9]{1,20})', re.S)
POOL = re.compile(rb'POOL ' + CUSIP + rb' free ([0-9]{1,20}) lent ([0-9]{1,20}) out ([0-9]{1,20})')
COLUMNS = b'report,date,kind,row,cusip,account,free,lent,out,shares'


class Refused(Exception):
    """A text that is no text of a run."""


def columns_of(line):
    """What a line of a report has in the columns from `row` on, or None where it is none."""
    for name, form in ((b'POS', POS), (b'BAL', BAL)):
        found = form.fullmatch(line)
        if found:
            cusip, account, shares = found.groups()
            return [name, b'"%s"' % cusip, b'"%s"' % account, b'', b'', b'', shares]
    found = POOL.fullmatch(line)
    if found:
        cusip, free, lent, out = found.groups()
        return [b'POOL', b'"%s"' % cusip, b'', free, lent, out, b'']
    return None


def rows_of(text):
    """The rows, each with the number of its report first."""
    lines = text.split(b'\n')
    if lines[-1] == b'':
        lines.pop()
    number, cycle = 0, None
    inside = False
    for place, line in enumerate(lines, 1):
        if inside:
            if line == b'END':
                inside = False
                continue
            columns = columns_of(line)
            if columns is None:
                raise Refused('line %d is no line of a report' % place)
            yield number, b','.join([b'%d' % number, *cycle, *columns])
        elif line.startswith(b'REPORT'):
            head = HEAD.fullmatch(line)
            if head is None:
                raise Refused('line %d is no line of a report' % place)
            inside, number = True, number + 1
            cycle = [part or b'' for part in head.groups()]
            yield number, None
    if inside:
        raise Refused('the last report has no END')


def answer(text, last):
    """The exit status, the table, and what is told on standard error."""
    rows, held = [COLUMNS], []
    try:
        for _number, row in rows_of(text):
            if row is None:
                held.clear()
            elif last:
                held.append(row)
            else:
                rows.append(row)
    except Refused as fault:
        return 2, b'\n'.join(rows) + b'\n', b'cnsd: %s\n' % str(fault).encode()
    return 0, b'\n'.join(rows + held) + b'\n', b''


def main(words):
    names = [word for word in words if word != '--last']
    if names:
        with open(names[0], 'rb') as file:
            text = file.read()
    else:
        text = sys.stdin.buffer.read()
    status, out, told = answer(text, '--last' in words)
    sys.stdout.buffer.write(out)
    sys.stderr.buffer.write(told)
    return status


if __name__ == '__main__':
    sys.exit(main(sys.argv[1:]))
