#!/usr/bin/env python3
"""Writes a work to measure by on standard output: always the same text for the same arguments.

    make_works.py WORK [--scale 1/16]

netting   1,000,000 trades of 500 members in 2,000 issues, a night cycle and a report
cycles    100,000 trades over 50 days, a night and a day cycle on each with exemptions and priorities, and a pump after each
lots      20,000 trades in 200 issues over 5 days, with lots of every issue between pumps twice a day
longs     one issue of which 9,000 members are long; over ten days a deposit of a twentieth of what is owed, a cycle, a pump, a
          lot, and a pump
link      200,000 lines, mostly SEND, ORDER and REPLY, repeated and out of order
reading   rows as those of netting, and TAKE ALL
letters, commas, unknown, reports, pumps, empty
          64 MiB of rows of one letter, of one row of commas, of lines that are no command, of REPORT and of PUMP on
          nothing, and of empty rows

--scale multiplies the trades (netting, reading), trades and issues (cycles, lots), longs (longs), lines (link) or bytes (the others).
"""
import argparse
import datetime
import fractions
import random
import sys

from make_input import check_digit

LETTERS = '0123456789ABCDEFGHJKLMNPQRSTUVWXYZ'
LIMIT = 67_108_864
FIRST = datetime.date(2025, 3, 3)


def issues_of(rng, count):
    """So many CUSIPs, each once."""
    found = set()
    while len(found) < count:
        eight = ''.join(rng.choice(LETTERS) for _ in range(8))
        found.add(eight + check_digit(eight))
    return rng.sample(sorted(found), count)


def sides(rng, members):
    """A buyer and another member who sells."""
    buyer = seller = rng.choice(members)
    while seller == buyer:
        seller = rng.choice(members)
    return buyer, seller


def business_days(count):
    """So many business days from the first one on."""
    found, day = [], FIRST
    while len(found) < count:
        if day.weekday() < 5:
            found.append(day.isoformat())
        day += datetime.timedelta(days=1)
    return found


def text_of(openings, trades, script):
    """An input of these rows and lines."""
    parts = ['[openings]']
    if openings:
        parts.append('account,cusip,shares')
        parts += ['%d,%s,%d' % row for row in openings]
    parts += ['[trades]', 'trade,settle,buyer,seller,cusip,quantity', *trades, '[script]', *script]
    return '\n'.join(parts) + '\n'


def trade(name, day, parties, issue, quantity):
    return '%s,%s,%d,%d,%s,%d' % (name, day, *parties, issue, quantity)


def settings(rng, members, issues, exempt):
    """An exemption, where one is wanted, and a priority."""
    if exempt:
        member, issue = rng.choice(members), rng.choice(issues)
        yield 'EXEMPT %d %s %d' % (member, issue, rng.choice([0, 10, 100, 1_000]))
    member, issue = rng.choice(members), rng.choice(issues)
    yield 'PRIORITY %d %s %s' % (member, issue, rng.choice(['ON', 'OFF']))


def netting_rows(rng, scale):
    """The day, and rows of 61 bytes: ids of 16 and quantities of 12 digits."""
    issues, members, day = issues_of(rng, 2_000), rng.sample(range(1000, 10_000), 500), business_days(1)[0]
    rows = []
    for number in range(int(1_000_000 * scale)):
        parties = sides(rng, members)
        name = 'T%08X%07d' % (rng.randrange(36**5), number)
        quantity = rng.randrange(100_000_000_000, 1_000_000_000_000)
        rows.append(trade(name, day, parties, rng.choice(issues), quantity))
    return day, rows


def netting(rng, scale):
    day, rows = netting_rows(rng, scale)
    return text_of([], rows, ['TAKE ALL', 'CYCLE NIGHT ' + day, 'REPORT'])


def reading(rng, scale):
    return text_of([], netting_rows(rng, scale)[1], ['TAKE ALL'])


def cycles(rng, scale):
    count = int(100_000 * scale)
    issues, members, calendar = issues_of(rng, max(2, int(500 * scale))), rng.sample(range(1, 10_000), 200), business_days(50)
    # (a few shorts stay without shares, and are ordered again in each cycle)
    openings = [(member, issue, rng.randrange(10_000, 1_000_000)) for issue in issues for member in members if rng.random() < 0.97]
    rows = []
    for number in range(count):
        parties = sides(rng, members)
        # (a trade is taken two days before it settles)
        day, quantity = calendar[min(number * 50 // count + 2, 49)], rng.randrange(1, 1_000)
        rows.append(trade('T%d' % number, day, parties, rng.choice(issues), quantity))
    script, taken = [], 0
    for place, day in enumerate(calendar):
        upto = count * (place + 1) // 50
        if upto > taken:
            script.append('TAKE %d' % (upto - taken))
        taken = upto
        for _ in range(max(1, int(40 * scale))):
            script += settings(rng, members, issues, True)
        script += ['CYCLE NIGHT ' + day, 'PUMP', 'CYCLE DAY ' + day, 'PUMP']
    return text_of(openings, rows, [*script, 'REPORT'])


def lots(rng, scale):
    count = int(20_000 * scale)
    issues, members, calendar = issues_of(rng, max(2, int(200 * scale))), rng.sample(range(1, 10_000), 100), business_days(5)
    openings = [(member, issue, rng.randrange(0, 5_000)) for issue in issues for member in rng.sample(members, 40)]
    rows = []
    for number in range(count):
        parties = sides(rng, members)
        day, quantity = calendar[number * 5 // count], rng.randrange(1, 1_000)
        rows.append(trade('T%d' % number, day, parties, rng.choice(issues), quantity))
    script = ['TAKE ALL']
    for day in calendar:
        for kind in ('NIGHT', 'DAY'):
            for _ in range(5):
                script += settings(rng, members, issues, False)
            script += ['CYCLE %s %s' % (kind, day), 'PUMP', *['ALLOCATE ' + issue for issue in sorted(issues)], 'PUMP', 'REPORT']
    return text_of(openings, rows, script)


def longs(rng, scale):
    issue, seller, calendar = '03783310' + check_digit('03783310'), 9_999, business_days(10)
    asked = [rng.randrange(20, 1_000) for _ in range(int(9_000 * scale))]
    rows = [trade('T%d' % member, calendar[0], (member, seller), issue, quantity) for member, quantity in enumerate(asked, 1)]
    script = ['TAKE ALL']
    for number, day in enumerate(calendar, 1):
        # (most longs stay long)
        script.append('DEPOSIT %d %d %s %d' % (seller, number, issue, sum(asked) // 20))
        script += ['CYCLE NIGHT ' + day, 'PUMP', 'ALLOCATE ' + issue, 'PUMP']
    return text_of([], rows, [*script, 'REPORT'])


def link(rng, scale):
    lines = int(200_000 * scale)
    orders = max(1, lines // 20)
    issues, members, day = issues_of(rng, 100), rng.sample(range(1, 10_000), 300), business_days(1)[0]
    # (one seller in each trade and no pair twice, so that each trade makes one order)
    pairs = rng.sample([(issue, member) for issue in issues for member in members[1:]], orders)
    rows = [trade('T%d' % number, day, (members[0], member), issue, rng.randrange(1, 1_000)) for number, (issue, member) in enumerate(pairs)]
    openings = [(member, issue, rng.randrange(0, 1_000)) for issue, member in pairs[::2]]
    script, sent, delivered = ['TAKE ALL', 'CYCLE NIGHT ' + day], 0, 0
    while len(script) < lines - 1:
        draw = rng.random()
        if draw < 0.3 or sent == 0:
            script.append('SEND %d' % rng.randrange(1, orders + 1))
            sent += 1
        elif draw < 0.65 or delivered == 0:
            script.append('ORDER %d' % rng.randrange(1, sent + 1))
            delivered += 1
        else:
            script.append('REPLY %d' % rng.randrange(1, delivered + 1))
    return text_of(openings, rows, [*script, 'REPORT'])


def room(scale):
    """How many bytes rows or lines may have."""
    return int(LIMIT * scale) - len(text_of([], [], ['TAKE ALL']))


def of_rows(row):
    """As many rows as there is room for."""
    return lambda _, scale: text_of([], [row] * (room(scale) // (len(row) + 1)), ['TAKE ALL'])


def of_lines(line):
    """As many lines as there is room for."""
    return lambda _, scale: text_of([], [], [line] * (room(scale) // (len(line) + 1)))


def commas(_, scale):
    return text_of([], [',' * (room(scale) - 1)], ['TAKE ALL'])


# Each work, and the word that its random numbers begin with.
WORKS = {
    'netting': (netting, 'w1'),
    'cycles': (cycles, 'w2'),
    'lots': (lots, 'w3'),
    'longs': (longs, 'w5'),
    'link': (link, 'w4'),
    'reading': (reading, 'w6'),
    'letters': (of_rows('x'), ''),
    'commas': (commas, ''),
    'unknown': (of_lines('FOO'), ''),
    'reports': (of_lines('REPORT'), ''),
    'pumps': (of_lines('PUMP'), ''),
    'empty': (of_rows(''), ''),
}


def text_of_work(name, scale):
    make, word = WORKS[name]
    return make(random.Random(word + ' 1'), scale)


def main():
    parser = argparse.ArgumentParser(description='Writes a work to measure by on standard output.')
    parser.add_argument('work', choices=WORKS)
    parser.add_argument('--scale', type=fractions.Fraction, default=fractions.Fraction(1))
    given = parser.parse_args()
    sys.stdout.write(text_of_work(given.work, given.scale))


if __name__ == '__main__':
    main()
