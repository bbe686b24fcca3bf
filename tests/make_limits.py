#!/usr/bin/env python3
"""Makes an input at a limit of the program, and what is to be written for it.

    make_limits.py --names [--quick]
    make_limits.py NAME INPUT OUTPUT

The first form writes the names, with --quick of those alone that take some seconds at most. The second
one writes the two files. What is to be written follows from the rules by the input's own plain
shape; no program and no oracle is asked.
"""
import datetime
import sys

MOST = 1000000
DATE = '2025-03-03'
FIRST = '000000000'             # the least of all CUSIPs
CHARACTERS = '0123456789ABCDEFGHIJKLMNOPQRSTUVWXYZ*@#'


def cusip(number):
    """A CUSIP with a right check digit: the least one for 0, and a greater one for a greater number."""
    eight = '%08d' % number
    total = 0
    for place, character in enumerate(eight, 1):
        value = CHARACTERS.index(character) * (2 if place % 2 == 0 else 1)
        total += value // 10 + value % 10
    return eight + str((10 - total % 10) % 10)


def trade(number, buyer, seller, issue, quantity):
    return 'T%d,%s,%d,%d,%s,%d' % (number, DATE, buyer, seller, issue, quantity)


def accepted(count):
    return ['trade T%d accepted' % number for number in range(1, count + 1)]


def passed_on(number, packet, moved):
    """What a pump tells of an order that moves all it asks for; its packets have one number."""
    return ['send %d packet %d' % (number, packet), 'exec %d moved %d packet %d' % (number, moved, packet),
            'confirm %d moved %d done' % (number, moved)]


def trades():
    """As many trades as can be accepted, one more, and some of them again."""
    rows = [trade(number, 1 + number % 9998, 9999, cusip(number % 700), number) for number in range(1, MOST + 1)]
    more = [trade(MOST + 1, 1, 2, FIRST, 1), rows[0], rows[-1], rows[0] + '0', trade(MOST + 2, 7, 7, FIRST, 1),
            trade(MOST + 1, 1, 2, FIRST, 1)]
    out = accepted(MOST) + ['trade T%d refused Full' % (MOST + 1), 'trade T1 refused Same',
                            'trade T%d refused Same' % MOST,
                            'trade T1 refused Conflict', 'trade T%d refused SameMember' % (MOST + 2),
                            'trade T%d refused Full' % (MOST + 1)]
    return [], rows + more, ['TAKE ALL'], out


def openings():
    """Each member with an opening in two issues, two in a third; the shares of an issue are all that may be."""
    rows, out = [], ['REPORT cycle none']
    for issue in (cusip(0), cusip(1)):
        shares = [10 ** 14] * 9998 + [10 ** 18 - 9998 * 10 ** 14]
        rows += ['%d,%s,%d' % (member, issue, held) for member, held in enumerate(shares, 1)]
        out += ['BAL %s %04d %20d' % (issue, member, held) for member, held in enumerate(shares, 1)]
    rows += ['1,%s,1' % cusip(2), '9999,%s,%d' % (cusip(2), 10 ** 18 - 1)]
    out += ['BAL %s 0001 %20d' % (cusip(2), 1), 'BAL %s 9999 %20d' % (cusip(2), 10 ** 18 - 1), 'END']
    return rows[::-1], [], ['REPORT'], out


def longs():
    """One lot that serves every member but the one that sold to them."""
    count, asked = 9998, [1 + member * 7 % 1000 for member in range(9998)]
    total, issue, ticket = sum(asked), cusip(0), 0
    rows = [trade(member, member, 9999, issue, asked[member - 1]) for member in range(1, count + 1)]
    lines = ['TAKE ALL', 'CYCLE NIGHT ' + DATE, 'PUMP', 'ALLOCATE ' + issue, 'PUMP', 'REPORT']
    out = accepted(count) + ['cycle %s NIGHT due %d' % (DATE, count), 'order 1 COVER 9999 %s %d' % (issue, total)]
    out += passed_on(1, 1, total) + ['lot 1 poured %d longs %d' % (total, count)]
    for member in range(1, count + 1):
        out.append('ticket %04d start %d asked %d' % (member, ticket, asked[member - 1]))
        ticket += asked[member - 1]
    out.append('close granted %d' % total)
    out += ['order %d DELIVERY %04d %s %d' % (member + 1, member, issue, asked[member - 1])
            for member in range(1, count + 1)]
    for member in range(1, count + 1):
        out += passed_on(member + 1, member + 1, asked[member - 1])
    out.append('REPORT cycle %s NIGHT' % DATE)
    out += ['BAL %s %04d %20d' % (issue, member, asked[member - 1]) for member in range(1, count + 1)]
    return ['9999,%s,%d' % (issue, total + 5)], rows, lines, out + ['BAL %s 9999 %20d' % (issue, 5), 'END']


def shares():
    """As many trades as can be accepted, each of the largest quantity, from one member to another."""
    each, issue = 999999999999, cusip(0)
    total = MOST * each
    rows = [trade(number, 2, 1, issue, each) for number in range(1, MOST + 1)]
    lines = ['TAKE ALL', 'EXEMPT 1 %s %d' % (issue, 10 ** 18), 'CYCLE NIGHT ' + DATE, 'EXEMPT 1 %s 0' % issue,
             'CYCLE DAY ' + DATE,
             'REPORT', 'PUMP', 'ALLOCATE ' + issue, 'REPORT', 'PUMP', 'REPORT']
    held = ['BAL %s 0001 %20d' % (issue, 10 ** 18 - total)]
    out = accepted(MOST) + ['exempt ok', 'cycle %s NIGHT due %d' % (DATE, MOST), 'exempt ok',
                            'cycle %s DAY due 0' % DATE,
                            'order 1 COVER 0001 %s %d' % (issue, total), 'REPORT cycle %s DAY' % DATE,
                            'POS %s 0001 %20d' % (issue, -total), 'POS %s 0002 %20d' % (issue, total),
                            'BAL %s 0001 %20d' % (issue, 10 ** 18), 'END']
    out += passed_on(1, 1, total) + ['lot 1 poured %d longs 1' % total, 'ticket 0002 start 0 asked %d' % total,
                                     'close granted %d' % total,
                                     'order 2 DELIVERY 0002 %s %d' % (issue, total), 'REPORT cycle %s DAY' % DATE,
                                     'POS %s 0002 %20d' % (issue, total),
                                     'POOL %s free 0 lent 0 out %d' % (issue, total),
                                     'BAL %s 0000 %20d' % (issue, total)] + held + ['END']
    out += passed_on(2, 2, total) + ['REPORT cycle %s DAY' % DATE] + held + ['BAL %s 0002 %20d' % (issue, total),
                                                                             'END']
    return ['1,%s,%d' % (issue, 10 ** 18)], rows, lines, out


def orders():
    """As many orders as there are numbers: a cover of each trade. Then a lot whose delivery has no number left.

    A second cycle finds each short covered by an open order, and orders nothing.
    """
    each = 1000                                              # sellers of an issue
    rows = [trade(1, 2, 1, FIRST, 10)]
    out = ['order 1 COVER 0001 %s 10' % FIRST]
    for number in range(2, MOST + 1):
        seller, issue, quantity = (number - 2) % each + 1, cusip((number - 2) // each + 1), 1 + number % 77
        rows.append(trade(number, 9999, seller, issue, quantity))
        out.append('order %d COVER %04d %s %d' % (number, seller, issue, quantity))
    lines = ['TAKE ALL', 'CYCLE NIGHT ' + DATE, 'CYCLE DAY ' + DATE, 'SEND %d' % MOST, 'SEND %d' % (MOST + 1), 'SEND 1', 'ORDER 2',
             'REPLY 1', 'LOT ' + FIRST,
             'RESERVE 1 2', 'CLOSE 1', 'LOOK 1', 'RESTART CLEAR', 'SEND %d' % MOST, 'ALLOCATE ' + FIRST, 'LOOK 2']
    refused = ['ticket 0002 start 0 asked 10', 'close refused NumbersSpent', 'look poured 10 asked 10 sealed no']
    out = accepted(MOST) + ['cycle %s NIGHT due %d' % (DATE, MOST)] + out
    out += ['cycle %s DAY due 0' % DATE, 'send %d packet 1' % MOST, 'send refused UnknownMove']
    out += ['send 1 packet 2', 'exec 1 moved 10 packet 1', 'confirm 1 moved 10 done',
            'lot 1 poured 10 longs 1'] + refused
    out += ['restart CLEAR records %d kept no' % (MOST + 3), 'send %d packet 3' % MOST,
            'lot 2 poured 10 longs 1'] + refused
    return ['1,%s,10' % FIRST], rows, lines, out


def lots():
    """As many lots as there may be, one after another, and one more."""
    lines, out = [], []
    for number in range(1, MOST + 1):
        lines += ['LOT ' + FIRST, 'CLOSE %d' % number]
        out += ['lot %d poured 0 longs 0' % number, 'close granted 0']
    lines += ['LOT ' + FIRST, 'LOOK %d' % MOST, 'LOOK %d' % (MOST + 1), 'ALLOCATE ' + cusip(1), 'RESTART CLEAR',
              'LOT ' + FIRST]
    out += ['lot refused LotsSpent', 'look refused StaleLot', 'look refused NoLot', 'lot refused LotsSpent',
            'restart CLEAR records %d kept no' % MOST, 'lot refused LotsSpent']
    return [], [], lines, out

def open_lots():
    """As many lots as there may be, all open at once, each of an issue of its own."""
    lines = ['LOT ' + cusip(number) for number in range(1, MOST + 1)]
    out = ['lot %d poured 0 longs 0' % number for number in range(1, MOST + 1)]
    lines += ['LOT ' + cusip(0), 'LOT ' + cusip(MOST), 'POUR 1', 'POUR %d' % MOST, 'CYCLE NIGHT 2025-03-04', 'CLOSE 1',
              'LOOK 1', 'LOOK 2', 'RESTART CLEAR', 'LOOK 2', 'LOT ' + cusip(0)]
    out += ['lot refused LotsSpent', 'lot refused LotAlready', 'pour 0', 'pour 0', 'cycle refused LotsOpen', 'close granted 0',
            'look refused StaleLot', 'look poured 0 asked 0 sealed no', 'restart CLEAR records 1 kept no',
            'look refused StaleLot', 'lot refused LotsSpent']
    return [], [], lines, out


def cycles():
    """100,000 trades of one seller over 50 days with a cycle on each, and one lot: what is left is a plain sum."""
    count, days, issues, seller = 100000, 50, 701, 9999
    dates = [str(datetime.date(2025, 3, 3) + datetime.timedelta(day)) for day in range(days)]
    rows, due = [], [{} for _ in range(days)]                # of a day, by issue: its shares by member
    for number in range(1, count + 1):
        day, issue, member, quantity = number % days, number % issues, 1 + number * 7919 % 9998, 1 + number % 977
        rows.append('T%d,%s,%d,%d,%s,%d' % (number, dates[day], member, seller, cusip(issue), quantity))
        bought = due[day].setdefault(issue, {})
        bought[member] = bought.get(member, 0) + quantity
    lines, out, orders = ['TAKE ALL'], accepted(count), []
    for day, date in enumerate(dates):
        lines.append('CYCLE NIGHT ' + date)
        out.append('cycle %s NIGHT due %d' % (date, count // days))
        for issue in sorted(due[day]):
            orders.append((issue, sum(due[day][issue].values())))
            out.append('order %d COVER %d %s %d' % (len(orders), seller, cusip(issue), orders[-1][1]))
    for number, (issue, asked) in enumerate(orders, 1):
        out += passed_on(number, number, 0 if issue else asked)
    before, total = {}, {}
    for day in range(days):
        for issue, bought in due[day].items():
            for member, shares in bought.items():
                total.setdefault(issue, {}).setdefault(member, 0)
                total[issue][member] += shares
                if issue == 0 and day < days - 1:
                    before[member] = True
    longs = sorted(before) + sorted(set(total[0]) - set(before))
    given, start = sum(total[0].values()), 0
    out.append('lot 1 poured %d longs %d' % (given, len(longs)))
    for member in longs:
        out.append('ticket %04d start %d asked %d' % (member, start, total[0][member]))
        start += total[0][member]
    out.append('close granted %d' % given)
    first = len(orders) + 1
    out += ['order %d DELIVERY %04d %s %d' % (number, member, cusip(0), total[0][member])
            for number, member in enumerate(longs, first)]
    # A cover that moved nothing is confirmed, so the pump sends the deliveries alone.
    for number, member in enumerate(longs, first):
        out += passed_on(number, number, total[0][member])
    out.append('REPORT cycle %s NIGHT' % dates[-1])
    for issue in range(1, issues):
        out += ['POS %s %04d %20d' % (cusip(issue), member, total[issue][member]) for member in sorted(total[issue])]
        out.append('POS %s %d %20d' % (cusip(issue), seller, -sum(total[issue].values())))
    out += ['BAL %s %04d %20d' % (cusip(0), member, total[0][member]) for member in sorted(total[0])]
    lines += ['PUMP', 'ALLOCATE ' + cusip(0), 'PUMP', 'REPORT']
    return ['%d,%s,%d' % (seller, cusip(0), given + 5)], rows, lines, out + [
        'BAL %s %d %20d' % (cusip(0), seller, 5), 'END']


QUICK = [openings, longs]
LIMITS = QUICK + [cycles, trades, shares, orders, lots, open_lots]


def main(words):
    if words and words[0] == '--names' and words[1:] in ([], ['--quick']):
        for make in QUICK if words[1:] else LIMITS:
            print(make.__name__)
        return 0
    known = {make.__name__: make for make in LIMITS}
    if len(words) != 3 or words[0] not in known:
        sys.stderr.write(__doc__)
        return 2
    held, rows, lines, out = known[words[0]]()
    with open(words[1], 'w') as file:
        file.write('\n'.join(['[openings]', 'account,cusip,shares'] + held
                             + ['[trades]', 'trade,settle,buyer,seller,cusip,quantity'] + rows
                             + ['[script]'] + lines + ['']))
    with open(words[2], 'w') as file:
        file.write('\n'.join(out + ['']))
    return 0


if __name__ == '__main__':
    sys.exit(main(sys.argv[1:]))
