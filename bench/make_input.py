#!/usr/bin/env python3
"""Writes a large input on standard output: always the same text for the same arguments.

    make_input.py N [--members M] [--issues I] [--net]
    make_input.py N [--members M] [--issues I] --sellers S --rounds R
    make_input.py N --longs

N trades between M members in I issues. The script is `TAKE ALL`; with --net two cycles
and a report follow it, and between them every trade becomes due.

With --rounds the first S members sell to the others, and hold what they sell. R rounds
follow, each a cycle, a pump, a lot of each issue and a pump, and at the end a report.

With --longs one member sells one issue to N others, which are all served by one lot.
"""
import argparse
import random
import sys

CHARACTERS = '0123456789ABCDEFGHIJKLMNOPQRSTUVWXYZ*@#'
DATES = ['2025-03-%02d' % day for day in (3, 4, 5, 6, 7, 10, 11, 12, 13, 14)]


def check_digit(eight):
    """The check digit of a CUSIP's first eight characters."""
    total = 0
    for place, character in enumerate(eight, 1):
        value = CHARACTERS.index(character) * (2 if place % 2 == 0 else 1)
        total += value // 10 + value % 10
    return str((10 - total % 10) % 10)


def cusip(number):
    """A CUSIP with a right check digit, another one for each number."""
    eight = '%06d%s%s' % (100000 + number * 37 % 900000, CHARACTERS[10 + number % 26], CHARACTERS[number % 10])
    return eight + check_digit(eight)


def rounds(given, issues):
    """The dates of the rounds, and their lines."""
    step = len(DATES) // given.rounds
    lines = []
    for number in range(1, given.rounds + 1):
        lines += ['CYCLE NIGHT %s' % DATES[number * step - 1], 'PUMP']
        lines += ['ALLOCATE %s' % issue for issue in issues] + ['PUMP']
    return lines + ['REPORT']


def longs(count):
    """One lot for so many members, each with a trade of its own."""
    issue = cusip(0)
    out = ['[openings]', 'account,cusip,shares', '9999,%s,%d' % (issue, 100 * count)]
    out += ['[trades]', 'trade,settle,buyer,seller,cusip,quantity']
    out += ['T%07d,%s,%d,9999,%s,100' % (number, DATES[0], number, issue) for number in range(1, count + 1)]
    return out + ['[script]', 'TAKE ALL', 'CYCLE NIGHT %s' % DATES[0], 'PUMP', 'ALLOCATE %s' % issue]


def main():
    parser = argparse.ArgumentParser(description='Writes a large input on standard output.')
    parser.add_argument('trades', type=int)
    parser.add_argument('--members', type=int, default=500)
    parser.add_argument('--issues', type=int, default=200)
    parser.add_argument('--net', action='store_true')
    parser.add_argument('--sellers', type=int, default=0)
    parser.add_argument('--rounds', type=int, default=0)
    parser.add_argument('--longs', action='store_true')
    given = parser.parse_args()
    if given.longs:
        sys.stdout.write('\n'.join(longs(given.trades)) + '\n')
        return
    rng = random.Random(given.trades)
    issues = [cusip(number) for number in range(given.issues)]
    out = ['[openings]']
    if given.sellers:
        out.append('account,cusip,shares')
        out += ['%d,%s,1000000000000' % (member, issue) for issue in issues for member in range(1, given.sellers + 1)]
    out += ['[trades]', 'trade,settle,buyer,seller,cusip,quantity']
    for number in range(1, given.trades + 1):
        if given.sellers:
            buyer, seller = rng.randint(given.sellers + 1, given.members), rng.randint(1, given.sellers)
        else:
            buyer = rng.randint(1, given.members)
            seller = (buyer + rng.randint(0, given.members - 2)) % given.members + 1
        out.append('T%07d,%s,%d,%d,%s,%d' % (number, rng.choice(DATES), buyer, seller, rng.choice(issues), rng.randint(1, 99999)))
    out += ['[script]', 'TAKE ALL']
    if given.rounds:
        out += rounds(given, issues)
    elif given.net:
        out += ['CYCLE NIGHT %s' % DATES[4], 'CYCLE NIGHT %s' % DATES[-1], 'REPORT']
    text = '\n'.join(out) + '\n'
    if len(text) > 67108864:
        sys.exit('make_input.py: %d bytes are more than an input may have' % len(text))
    sys.stdout.write(text)


if __name__ == '__main__':
    main()
