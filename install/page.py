#!/usr/bin/env python3
"""Writes the manual page cnsd(1): what the program says of itself by --help, and docs/FAULTS.md.

    install/page.py PROGRAM

The page goes to standard output. Words, options, commands and exit statuses are those that PROGRAM's own help
prints, so that the page and the help have one source.
"""
import os
import re
import subprocess
import sys

TOP = os.path.dirname(os.path.dirname(os.path.abspath(__file__)))
FAULTS = os.path.join(TOP, 'docs', 'FAULTS.md')


def said(program, *words):
    """What a command of the program prints."""
    return subprocess.run([program, *words], capture_output=True, text=True, check=True).stdout


def plain(text):
    """A text with nothing in it that roff reads as more than text."""
    text = text.replace('\\', '\\e').replace('-', '\\-')
    return '\\&' + text if text.startswith(('.', "'")) else text


def marked(text):
    """A text of Markdown, with `words` set bold."""
    return ''.join('\\fB%s\\fR' % plain(part) if at % 2 else plain(part).replace('\\&', '') for at, part in enumerate(text.split('`')))


def as_it_stands(text):
    """Lines that are set as they are."""
    return ['.nf', *(plain(line) for line in text.splitlines()), '.fi']


def cells(row):
    """The cells of a row of a table."""
    return [cell.strip() for cell in row.strip().strip('|').split('|')]


def of_table(rows):
    """A table of faults: each as an item, what it means and what to do. (The first two rows are its head.)"""
    lines = []
    for row in map(cells, rows[2:]):
        first, *rest = row if not row[0].isdigit() else [row[1] + ' (status ' + row[0] + ')', row[2]]
        lines += ['.TP', marked(first), *(marked(text) for text in rest)]
    return lines


def of_markdown(text):
    """Sections of Markdown, but for the first one's head: heads, paragraphs and tables."""
    lines, rows = [], []
    for line in [*text.splitlines(), '']:
        if line.startswith('|'):
            rows.append(line)
            continue
        if rows:
            lines += of_table(rows)
            rows = []
        if line.startswith('## '):
            lines.append('.SS ' + marked(line[3:]))
        elif line.startswith('# '):
            continue
        elif line:
            lines.append(marked(line))
        elif lines and not lines[-1].startswith('.'):
            lines.append('.PP')
    return lines


def page(program):
    """The lines of the page."""
    whole, run, check, table, cusip = [said(program, *words, '--help') for words in ([], ['run'], ['check'], ['table'], ['cusip'])]
    name, version = said(program, '--version').split()[:2]
    about = whole.splitlines()[0]
    options, teaches = run.split('\n\nThe input is', 1)
    usages = [re.search(r'^Usage: (.*)$', text, re.M)[1] for text in (run, check, table, cusip)]
    with open(FAULTS, encoding='utf-8') as faults:
        told = faults.read()
    return [
        '.TH %s 1 "" "%s %s"' % (name.upper(), name, version),
        '.SH NAME', '%s \\- %s' % (name, plain(about)),
        '.SH SYNOPSIS', *(line for usage in usages for line in ('.B ' + plain(usage), '.br')),
        '.SH DESCRIPTION', *as_it_stands(options),
        '.PP', *as_it_stands('The input is' + teaches),
        '.SH CHECKS', *as_it_stands(check),
        '.SH TABLES', *as_it_stands(table),
        '.SH CUSIPS', *as_it_stands(cusip),
        '.SH FAULTS', *of_markdown(told),
    ]


def tell(lines_of, usage):
    """Prints the lines that are made of the program which the command line names; answers the exit status."""
    if len(sys.argv) != 2:
        print(usage, file=sys.stderr)
        return 2
    print('\n'.join(lines_of(sys.argv[1])))
    return 0


if __name__ == '__main__':
    sys.exit(tell(page, __doc__))
