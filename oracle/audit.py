#!/usr/bin/env python3
"""A second reading of what is read from journals, to compare the program with.

    audit.py journal dump FILE [--csv]
    audit.py journal check DIR [--openings FILE] [--verbose]
    audit.py explain DIR MEMBER CUSIP [--openings FILE]
    audit.py PROGRAM --seed N --count K [--from F]

The first three answer what `cnsd` answers, from docs/FORMATS.md, 'What is read from journals', and docs/BOOK.md alone. The
rules of the book are those of cnsd_oracle.py, and nothing here shares code with the program.

The last makes random runs as fuzz.py and headline.py make them, with failures, restarts, lost and repeated packets, and takes
both nodes' journals from the oracle's own book: some with executions of version 1, some with what a crash may leave behind
their last record. In half of the inputs one thing is changed: a byte, or a number of a record; a record is dropped, repeated, or
changes places with another; the depository goes another way from a record on; a file is an earlier one, is cut, has bytes
appended, or is the other node's. Of each input the program has to write what is written here, byte for byte and with the same
status: the check with the openings in a file, and without, where the folder may keep these or others, each also with --verbose;
both dumps, also as CSV; and some explanations. Nothing in the folder may be changed by that. Journals that nobody changed have
to agree, and a run over a copy of them has to report the sums and balances that the check tells.

Before the last line, `N passed, M failed`, it is told what was met, and how often a change was seen.
"""
import argparse
import collections
import os
import random
import re
import shutil
import struct
import subprocess
import sys
import tempfile

sys.path.insert(0, os.path.dirname(os.path.abspath(__file__)))
import cnsd_oracle  # noqa: E402
import fuzz  # noqa: E402
import headline  # noqa: E402
import journals  # noqa: E402
from cnsd_oracle import (KIND_NAMES, NUMBER_LIMIT, SHARES_LIMIT, Accept, Allocate, Cycle, Confirm, Exec, Exempt, Fault, Order,  # noqa: E402
                         Own, Priority, Ticket, Trade)
from journals import CLOSED, KINDS, OPEN, SORTS  # noqa: E402

NAMES = ('clear.journal', 'depot.journal')
LONGEST = 1048576                                   # bytes of a payload that counts
LONGEST_TAIL = LONGEST + 6                          # the longest record with both gates
MOST_TICKETS = 9999
OPENING_HEADER = b'account,cusip,shares'
OTHER_OPENINGS = 'openings.csv: other openings than those of the first run'


class CannotRead(Exception):
    """A file that cannot be read; its text is what standard error gets."""


# ---------------------------------------------------------------- a journal's file

def records_in(file):
    """(the byte of its gate, its payload) of each record that counts, and the byte behind the last one."""
    found, at = [], 0
    while file[at:at + 1] == OPEN and len(file) >= at + 5:
        size = int.from_bytes(file[at + 1:at + 5], 'big')
        behind = at + 5 + size
        if size > LONGEST or behind >= len(file):       # the next gate is to be there
            break
        found.append((at, file[at + 5:behind]))
        at = behind
    return found, at


def what_follows(file, end):
    """How many bytes follow the records, a gate among them, and whether that is nothing, as a crash may leave them, or damage."""
    rest = file[end:]
    if rest in (b'', CLOSED):
        return len(rest), 'nothing'
    if len(rest) > LONGEST_TAIL:
        return len(rest), 'damage'
    behind = 5 + int.from_bytes(rest[1:5], 'big')
    is_unopened = rest[:1] != OPEN and len(rest) >= 5 and rest[behind:behind + 1] == CLOSED
    return len(rest), 'crash' if len(rest) == 1 or rest[:1] == CLOSED or is_unopened else 'damage'


def follows_text(count, kind):
    if kind == 'nothing':
        return 'nothing follows'
    return '%d bytes follow%s' % (count, ', as a crash may leave them' if kind == 'crash' else ' that no crash leaves: damage')


# ---------------------------------------------------------------- records

class Closed(Allocate):
    """A closed lot, with what the oracle's book has no need of."""

    def __new__(cls, issue, poured, tickets, opened, upto, sealed):
        closed = super().__new__(cls, issue, poured, tickets)
        closed.opened, closed.upto, closed.sealed = opened, upto, sealed
        return closed


class Payload(journals.Fields):
    """The fields of a payload, each in its range."""

    def within(self, size, low, high):
        number = self.number(size)
        if not low <= number <= high:
            raise ValueError('a number is out of its range')
        return number

    def member(self):
        return self.within(2, 1, 9999)

    def issue(self):
        return cnsd_oracle.read_cusip(self.take(9))

    def shares(self, low=0, high=SHARES_LIMIT):
        return self.within(8, low, high)

    def move(self):
        return self.within(8, 1, NUMBER_LIMIT)

    def flag(self):
        return self.within(1, 0, 1) == 1

    def day(self):
        return cnsd_oracle.read_date(b'%04d-%02d-%02d' % self.date())

    def cycle(self):
        return Cycle(self.day(), self.within(1, 0, 1))

    def ticket(self):
        return Ticket(self.member(), self.shares(), self.shares(1))


def read_trade(fields):
    trade = Trade(cnsd_oracle.read_id(fields.take(fields.within(1, 1, 16))), fields.day(), fields.member(), fields.member(),
                  fields.issue(), fields.shares(1, 999999999999))
    if trade.buyer == trade.seller:
        raise ValueError('a trade with oneself')
    return Accept(trade)


def read_closed(fields):
    issue, opened, upto, poured, sealed = fields.issue(), fields.number(8), fields.number(8), fields.shares(), fields.flag()
    tickets = [fields.ticket() for _ in range(fields.within(4, 0, MOST_TICKETS))]
    starts = [ticket.start for ticket in tickets]
    if opened > upto or starts != sorted(starts):
        raise ValueError('a lot that was opened after its last pour, or tickets out of order')
    return Closed(issue, poured, tickets, opened, upto, sealed)


def read_exec(fields, has_cycle):
    kind, number = KINDS[fields.within(1, 1, 2)], fields.move()
    cycle = fields.cycle() if has_cycle else None
    order = Order(number, cycle, kind, fields.member(), fields.issue(), fields.shares(1))
    return Exec(order, fields.shares(0, order.asked))


# How the fields of a payload are read, by its version and kind.
READERS = {
    (1, 1): read_trade,
    (1, 2): lambda f: Exempt(f.member(), f.issue(), f.shares()),
    (1, 3): lambda f: Priority(f.member(), f.issue(), f.flag()),
    (1, 4): lambda f: f.cycle(),
    (1, 5): read_closed,
    (1, 6): lambda f: Confirm(f.move(), f.shares()),
    (1, 7): lambda f: read_exec(f, False),
    (2, 7): lambda f: read_exec(f, True),
    (2, 8): lambda f: Own(SORTS[f.within(1, 1, 2)], f.member(), f.move(), f.issue(), f.shares(1)),
}


def read_record(payload):
    """The record that a payload is, of either node; None where it is none."""
    fields = Payload(payload)
    try:
        record = READERS[fields.number(1), fields.number(1)](fields)
        fields.end()
    except (KeyError, ValueError, Fault):
        return None
    return record


def is_of(name, record):
    """Whether a record is one of the journal of this name."""
    return record is not None and isinstance(record, (Exec, Own)) == (name == NAMES[1])


# ---------------------------------------------------------------- words

def day_text(day):
    return '%04d-%02d-%02d' % day


def cycle_text(cycle):
    return '%s %s' % (day_text(cycle.date), KIND_NAMES[cycle.kind])


def order_text(order):
    told = '%s %04d %s %d' % (order.kind, order.member, order.issue.decode(), order.asked)
    return told + (' cycle ' + cycle_text(order.cycle) if order.cycle else '')


def words_of(record, payload):
    """The words of a record; of a closed lot those of its first line."""
    if isinstance(record, Accept):
        trade = record.trade
        return 'trade %s settle %s buyer %04d seller %04d %s %d' % (trade.id.decode(), day_text(trade.settle), trade.buyer, trade.seller,
                                                                    trade.issue.decode(), trade.quantity)
    if isinstance(record, Exempt):
        return 'exempt %04d %s %d' % (record.member, record.issue.decode(), record.shares)
    if isinstance(record, Priority):
        return 'priority %04d %s %s' % (record.member, record.issue.decode(), 'ON' if record.on else 'OFF')
    if isinstance(record, Cycle):
        return 'cycle ' + cycle_text(record)
    if isinstance(record, Closed):
        return 'allocate %s opened %d upto %d poured %d sealed %s tickets %d' % (
            record.issue.decode(), record.opened, record.upto, record.poured, 'yes' if record.sealed else 'no', len(record.tickets))
    if isinstance(record, Confirm):
        return 'confirm %d moved %d' % record
    if isinstance(record, Exec):
        return 'exec %d %s moved %d' % (record.order.number, order_text(record.order), record.moved)
    if isinstance(record, Own):
        return '%s %04d number %d %s %d' % (record.sort.lower(), record.member, record.number, record.issue.decode(), record.shares)
    return 'none %d bytes' % len(payload)


# ---------------------------------------------------------------- a dump

def dump_text(file):
    """The dump of a journal's file, and the exit status."""
    found, end = records_in(file)
    lines, is_bad = [], False
    for place, (byte, payload) in enumerate(found, 1):
        record = read_record(payload)
        is_bad = is_bad or record is None
        lines.append('record %d byte %d %s' % (place, byte, words_of(record, payload)))
        if isinstance(record, Closed):
            lines += ['ticket %04d start %d asked %d' % ticket for ticket in record.tickets]
    count, kind = what_follows(file, end)
    lines.append('end byte %d: %s' % (end, follows_text(count, kind)))
    return in_lines(lines), 1 if is_bad or kind == 'damage' else 0


COLUMNS = 'place,byte,kind,trade,number,date,cycle,member,buyer,seller,cusip,shares,moved,start,opened,upto,flag'.split(',')


def in_lines(lines):
    return ''.join(line + '\n' for line in lines)


def quoted_member(number):
    return '"%04d"' % number


def quoted_issue(issue):
    return '"%s"' % issue.decode()


def cells_of_cycle(cycle):
    return {'date': day_text(cycle.date), 'cycle': KIND_NAMES[cycle.kind]} if cycle else {}


def cells_of(record, payload):
    """What stands in the row of a record, besides its place and byte."""
    if record is None:
        return {'kind': 'none', 'shares': len(payload)}
    if isinstance(record, Accept):
        trade = record.trade
        return {'kind': 'trade', 'trade': trade.id.decode(), 'date': day_text(trade.settle), 'buyer': quoted_member(trade.buyer),
                'seller': quoted_member(trade.seller), 'cusip': quoted_issue(trade.issue), 'shares': trade.quantity}
    if isinstance(record, Cycle):
        return {'kind': 'cycle', **cells_of_cycle(record)}
    if isinstance(record, Confirm):
        return {'kind': 'confirm', 'number': record.number, 'moved': record.moved}
    if isinstance(record, Closed):
        return {'kind': 'allocate', 'number': len(record.tickets), 'cusip': quoted_issue(record.issue), 'shares': record.poured,
                'opened': record.opened, 'upto': record.upto, 'flag': 'yes' if record.sealed else 'no'}
    if isinstance(record, Exec):
        order = record.order
        return {'kind': order.kind.lower(), 'number': order.number, **cells_of_cycle(order.cycle), 'member': quoted_member(order.member),
                'cusip': quoted_issue(order.issue), 'shares': order.asked, 'moved': record.moved}
    cells = {'member': quoted_member(record.member), 'cusip': quoted_issue(record.issue)}
    if isinstance(record, Exempt):
        return {'kind': 'exempt', **cells, 'shares': record.shares}
    if isinstance(record, Priority):
        return {'kind': 'priority', **cells, 'flag': 'ON' if record.on else 'OFF'}
    return {'kind': record.sort.lower(), **cells, 'number': record.number, 'shares': record.shares}


def row_of(cells):
    assert not set(cells) - set(COLUMNS)
    return ','.join(str(cells.get(name, '')) for name in COLUMNS)


def dump_csv(file):
    """The dump of a journal's file as CSV, and the exit status."""
    found, end = records_in(file)
    rows = [','.join(COLUMNS)]
    for place, (byte, payload) in enumerate(found, 1):
        record = read_record(payload)
        rows.append(row_of({'place': place, 'byte': byte, **cells_of(record, payload)}))
        for ticket in record.tickets if isinstance(record, Closed) else []:
            rows.append(row_of({'place': place, 'byte': byte, 'kind': 'ticket', 'member': quoted_member(ticket.member),
                                'shares': ticket.asked, 'start': ticket.start}))
    count, kind = what_follows(file, end)
    rows.append(row_of({'byte': end, 'kind': 'end', 'shares': count, 'flag': kind}))
    return in_lines(rows), dump_text(file)[1]


# ---------------------------------------------------------------- what may stand behind which records

def have_numbers(records, orders, record):
    """Whether there are numbers for the orders that a record makes."""
    made = cnsd_oracle.made_by(records + [record], orders)
    return not made or len(orders) + len(made) <= NUMBER_LIMIT


def is_allocable(records, orders, closed):
    """Whether a closed lot fits the records before it, and the orders that these made; of its places nothing is asked."""
    positions, still = cnsd_oracle.positions(records, orders), cnsd_oracle.open_asked(records, orders, 'DELIVERY')
    behind, served = 0, set()
    for member, start, asked in closed.tickets:
        place = closed.issue, member
        if start != behind or member in served or asked > positions.get(place, 0) - still.get(place, 0):
            return False
        behind += asked
        served.add(member)
    return closed.poured <= cnsd_oracle.available(records, orders, closed.issue) and have_numbers(records, orders, closed)


def may_follow(records, orders, record):
    """Whether a record of the clearing node may stand behind these."""
    if isinstance(record, Accept):
        known = {accepted.trade.id for accepted in cnsd_oracle.of_kind(Accept, records)}
        return record.trade.id not in known and len(known) < NUMBER_LIMIT
    if isinstance(record, Cycle):
        return all(cycle < record for cycle in cnsd_oracle.of_kind(Cycle, records)) and have_numbers(records, orders, record)
    if isinstance(record, Closed):
        return is_allocable(records, orders, record)
    if isinstance(record, Confirm):
        is_open = 1 <= record.number <= len(orders) and record.number not in cnsd_oracle.confirmed(records)
        return is_open and record.moved <= orders[record.number - 1].asked
    return True


def replay_clear(given):
    """The records of the clearing node, their orders, and the first place, from 0, whose record may not stand there, or None."""
    records, orders = [], []
    for place, record in enumerate(given):
        if not is_of(NAMES[0], record) or not may_follow(records, orders, record):
            return records, orders, place
        records.append(record)
        orders = cnsd_oracle.orders_of(records, orders, place)
    return records, orders, None


def is_new(records, record):
    """Whether the number of a movement, or that of a member's instruction, is new."""
    if isinstance(record, Exec):
        return all(held.order.number != record.order.number for held in cnsd_oracle.of_kind(Exec, records))
    return all((held.member, held.number) != (record.member, record.number) for held in cnsd_oracle.of_kind(Own, records))


def fits_balance(openings, records, record):
    """Whether the shares of a record of the depository are those that it has to move behind these."""
    if isinstance(record, Exec):
        had = cnsd_oracle.balance(openings, records, cnsd_oracle.parties(record.order)[0], record.order.issue)
        return record.moved == min(record.order.asked, had)
    if record.sort == 'DEPOSIT':
        return cnsd_oracle.issue_sum(openings, records, record.issue) + record.shares <= SHARES_LIMIT
    return record.shares <= cnsd_oracle.balance(openings, records, record.member, record.issue)


class Least:
    """The least openings that records allow: no openings allow all of those that `add` took, and one that it refused.

    What is asked of an opening by all records so far is to be at least so much, or just so much. All that is against
    large openings is the limit of an issue, so that the least ones are the best.
    """

    def __init__(self):
        self.least, self.known = {}, set()          # by issue and account; those of which it is known just
        self.change = collections.Counter()         # since the beginning
        self.own, self.peak = collections.Counter(), collections.Counter()     # deposits less withdrawals; the most that they were

    def demand(self, place, shares, exactly):
        """Whether an account may have had so many shares, or just so many; its opening is as that asks."""
        if place[1] == 0:
            self.known.add(place)                   # the CNS account begins with none
        wanted, held = shares - self.change[place], self.least.setdefault(place, 0)
        if place in self.known or (exactly and wanted < held):
            return wanted == held if exactly else wanted <= held
        self.least[place] = wanted if exactly else max(held, wanted)
        if exactly:
            self.known.add(place)
        return True

    def add(self, record):
        """Whether some openings allow a record behind those before it."""
        issue, added = cnsd_oracle.changes(record)
        if isinstance(record, Exec):
            giver = cnsd_oracle.parties(record.order)[0]
            fits = self.demand((issue, giver), record.moved, record.moved < record.order.asked)
        else:
            fits = record.sort == 'DEPOSIT' or self.demand((issue, record.member), record.shares, False)
            self.own[issue] += cnsd_oracle.brought(record)
            self.peak[issue] = max(self.peak[issue], self.own[issue])
        for account, shares in added.items():
            self.change[issue, account] += shares
            self.least.setdefault((issue, account), 0)
        opened = sum(shares for (where, _), shares in self.least.items() if where == issue)
        return fits and opened + self.peak[issue] <= SHARES_LIMIT


def replay_depot(given, openings):
    """The records of the depository, what is known of its openings, and the first place, from 0, whose record may not stand there.

    Without openings these are the least that the records allow.
    """
    records, least = [], Least()
    for place, record in enumerate(given):
        if not is_of(NAMES[1], record) or not is_new(records, record):
            return records, least, place
        if not (least.add(record) if openings is None else fits_balance(openings, records, record)):
            return records, least, place
        records.append(record)
    return records, least, None


# ---------------------------------------------------------------- files

def read_file(path):
    try:
        with open(path, 'rb') as file:
            return file.read()
    except OSError as error:
        raise CannotRead('cnsd: %s: %s (os error %d)\n' % (path, os.strerror(error.errno), error.errno)) from error


def openings_of(path):
    """The openings of a file that hold, and a line for each that does not."""
    lines = []
    try:
        rows = cnsd_oracle.rows_under(OPENING_HEADER, read_file(path))
    except cnsd_oracle.BadInput as fault:
        raise CannotRead('cnsd: %s\n' % fault) from fault
    openings = cnsd_oracle.good_openings(rows, lines.append)
    return openings, ['openings: ' + line.removeprefix('opening ').replace(' fault', ':', 1) for line in lines]


def with_shares(openings):
    return {place: shares for place, shares in openings.items() if shares}


def read_openings(folder, path):
    """The openings of this file, or else of the folder, None where there are none; and the lines of what is wrong with them."""
    kept = os.path.join(folder, 'openings.csv')
    is_kept = os.path.exists(kept)
    if path is None:
        return openings_of(kept) if is_kept else (None, [])
    openings, lines = openings_of(path)
    if is_kept and with_shares(openings_of(kept)[0]) != with_shares(openings):
        lines.insert(0, OTHER_OPENINGS)
    return openings, lines


class Kept:
    """Both journals of a folder, and the openings, as they are read and replayed."""

    def __init__(self, folder, path):
        self.files = [read_file(os.path.join(folder, name)) for name in NAMES]
        self.openings, self.bad_openings = read_openings(folder, path)
        self.found = [[(byte, payload, read_record(payload)) for byte, payload in records_in(file)[0]] for file in self.files]
        given = [[record for _, _, record in found] for found in self.found]
        self.records, self.orders, bad_clear = replay_clear(given[0])
        self.moves, self.least, bad_depot = replay_depot(given[1], self.openings)
        self.bad = [self.bad_line(0, bad_clear), self.bad_line(1, bad_depot)]

    def bad_line(self, side, place):
        """The line of the first record that may not stand where it stands, or None."""
        if place is None:
            return None
        byte, payload, record = self.found[side][place]
        why = WHY[type(record)] if is_of(NAMES[side], record) else 'no record of this journal'
        return '%s: record %d byte %d %s: %s' % (NAMES[side], place + 1, byte, words_of(record, payload), why)


WHY = {
    Accept: 'its id is that of an earlier trade, or the book is full',
    Cycle: 'it is not later than the one before it, or its orders pass 1000000',
    Closed: 'its tickets or shares do not fit the records before it',
    Confirm: 'no order of this number is open for so many shares',
    Exec: 'its number was executed before, or the shares moved do not fit the balance',
    Own: 'its number was used before, or its shares do not fit the balance',
}


# ---------------------------------------------------------------- a check of both

SUMS = ('longs', 'shorts', 'free', 'out', 'brought', 'taken')


def sums_of(records, orders):
    """The six sums of each issue that has one of them."""
    sums = collections.defaultdict(collections.Counter)
    for (issue, _), position in cnsd_oracle.positions(records, orders).items():
        sums[issue]['longs' if position > 0 else 'shorts'] += abs(position)
    moved = cnsd_oracle.confirmed(records)
    for order in orders:
        done = moved.get(order.number)
        if done is not None:
            sums[order.issue]['brought' if order.kind == 'COVER' else 'taken'] += done
        elif order.kind == 'DELIVERY':
            sums[order.issue]['out'] += order.asked
    for issue in sums:
        sums[issue]['free'] = cnsd_oracle.available(records, orders, issue)
    return {issue: sums[issue] for issue in sorted(sums) if any(sums[issue].values())}


def sums_text(sums):
    return ', '.join('%s %d' % (name, sums[name]) for name in SUMS)


def clear_lines(kept, verbose):
    cycles = cnsd_oracle.of_kind(Cycle, kept.records)
    yield 'the latest cycle is ' + cycle_text(cycles[-1]) if cycles else 'no cycle was run'
    sums = sums_of(kept.records, kept.orders)
    for issue in sums if verbose else []:
        yield '%s %s' % (issue.decode(), sums_text(sums[issue]))
    yield '%s, in %d issues' % (sums_text(sum(sums.values(), collections.Counter())), len(sums))


def depot_lines(kept, verbose):
    if kept.openings is None:
        for place in sorted(kept.least.least):
            yield '%s %04d change %d least %d' % (place[0].decode(), place[1], kept.least.change[place], kept.least.least[place])
        return
    places = set(kept.openings)
    for record in kept.moves:
        issue, added = cnsd_oracle.changes(record)
        places |= {(issue, account) for account in added}
    for issue, account in sorted(places) if verbose else []:
        balance = cnsd_oracle.balance(kept.openings, kept.moves, account, issue)
        if balance:
            yield '%s %04d balance %d' % (issue.decode(), account, balance)


def breaches_of(number, execution, order, confirmed):
    """What is told of a movement: how it was executed, ordered and confirmed, each where it was."""
    if execution:
        if order is None:
            yield 'executed as %s, never ordered' % order_text(execution.order)
        elif not cnsd_oracle.agree(execution.order, order):
            yield 'executed as %s, ordered as %s' % (order_text(execution.order), order_text(order))
        if execution.order.kind == 'DELIVERY' and execution.moved < execution.order.asked:
            yield 'a delivery of %d moved %d' % (execution.order.asked, execution.moved)
    if confirmed is not None:
        if execution is None:
            yield 'confirmed with %d, never executed' % confirmed
        elif execution.moved != confirmed:
            yield 'confirmed with %d, executed with %d' % (confirmed, execution.moved)


def both_lines(kept):
    """The lines of the breaches, and that of the counts."""
    executed = {record.order.number: record for record in cnsd_oracle.of_kind(Exec, kept.moves)}
    confirmed, ordered = cnsd_oracle.confirmed(kept.records), {order.number: order for order in kept.orders}
    lines, agreed = [], 0
    for number in sorted(executed.keys() | confirmed.keys()):
        execution, order = executed.get(number), ordered.get(number)
        told = breaches_of(number, execution, order, confirmed.get(number))
        lines += ['both: movement %d: %s' % (number, breach) for breach in told]
        if execution and order:
            same = [(one.kind, one.member, one.issue) for one in (execution.order, order)]
            agreed += same[0] == same[1] and confirmed.get(number) == execution.moved
    return lines, 'both: %d executed, %d confirmed, %d executed and not confirmed, %d ordered and not executed' % (
        len(executed), agreed, len(executed) - agreed, len(ordered.keys() - executed.keys()))


def check(folder, openings=None, verbose=False):
    """What a check writes on standard output and on standard error, and its exit status."""
    try:
        kept = Kept(folder, openings)
    except CannotRead as fault:
        return '', str(fault), 2
    lines, faults = list(kept.bad_openings), len(kept.bad_openings)
    for side, lines_of in enumerate((clear_lines, depot_lines)):
        found, end = records_in(kept.files[side])
        count, kind = what_follows(kept.files[side], end)
        text = follows_text(count, kind)
        if kind == 'damage' and not found:
            text = text.replace('damage', 'no journal')
        told = ['%d records in %d bytes' % (len(found), end), text] + ([] if kept.bad[side] else list(lines_of(kept, verbose)))
        lines += ['%s: %s' % (NAMES[side], line) for line in told] + [line for line in (kept.bad[side],) if line]
        faults += (kind == 'damage') + (kept.bad[side] is not None)
    if not any(kept.bad):
        breaches, counts = both_lines(kept)
        lines += breaches + [counts]
        faults += len(breaches)
    lines.append('%d faults' % faults if faults else 'agreed')
    return in_lines(lines), '', 1 if faults else 0


def check_text(folder, openings=None, verbose=False):
    """What a check writes on standard output, and its exit status."""
    told, _, status = check(folder, openings, verbose)
    return told, status


# ---------------------------------------------------------------- an explanation

def with_sums(amounts):
    """The lines of a register: each amount, the sum so far, and words."""
    total = 0
    for amount, words in amounts:
        total += amount
        yield '%20d %20d %s' % (amount, total, words)


def move_words(order):
    return '%s %d asked %d' % (order.kind.lower(), order.number, order.asked)


def trade_words(trade):
    return 'trade %s settle %s' % (trade.id.decode(), day_text(trade.settle))


def position_register(records, orders, member, issue):
    """(amount, words) of each line before POS, and the words of those that wait."""
    amounts, undue, confirmed = [], [], set()
    for record in records:
        if isinstance(record, Accept) and record.trade.issue == issue and member in (record.trade.buyer, record.trade.seller):
            undue.append(record.trade)
        elif isinstance(record, Cycle):
            for trade in [trade for trade in undue if trade.settle <= record.date]:
                bought = trade.buyer == member
                words = '%s due %s %s' % (trade_words(trade), cycle_text(record),
                                          'bought from %04d' % trade.seller if bought else 'sold to %04d' % trade.buyer)
                amounts.append((trade.quantity if bought else -trade.quantity, words))
            undue = [trade for trade in undue if trade.settle > record.date]
        elif isinstance(record, Confirm):
            confirmed.add(record.number)
            order = orders[record.number - 1]
            if (order.member, order.issue) == (member, issue):
                amounts.append((record.moved if order.kind == 'COVER' else -record.moved, move_words(order)))
    waiting = ['%s %s %d %s %04d' % (trade_words(trade), *(('bought', trade.quantity, 'from', trade.seller) if trade.buyer == member
                                                           else ('sold', trade.quantity, 'to', trade.buyer))) for trade in undue]
    waiting += [move_words(order) for order in orders if (order.member, order.issue) == (member, issue) and order.number not in confirmed]
    exempt = cnsd_oracle.last_set(Exempt, records).get((issue, member))
    priority = cnsd_oracle.last_set(Priority, records).get((issue, member))
    waiting += ['exempt %d' % exempt.shares] if exempt and exempt.shares else []
    return amounts, waiting + (['priority'] if priority and priority.on else [])


def balance_register(opening, records, member, issue):
    """(amount, words) of each line before BAL."""
    amounts = [(opening, 'opening')] if opening else []
    for record in records:
        where, added = cnsd_oracle.changes(record)
        if where == issue and member in added:
            words = move_words(record.order) if isinstance(record, Exec) else '%s %d' % (record.sort.lower(), record.number)
            amounts.append((added[member], words))
    return amounts


def explain_text(folder, member, issue, openings=None):
    """What an explanation writes on standard output, its lines of standard error, and its exit status."""
    try:
        kept = Kept(folder, openings)
    except CannotRead as fault:
        return '', str(fault).splitlines(), 2
    if any(kept.bad) or any(line != OTHER_OPENINGS for line in kept.bad_openings):
        return '', check(folder, openings)[0].splitlines(), 1
    moves, waiting = position_register(kept.records, kept.orders, member, issue)
    opening = (kept.least.least if kept.openings is None else kept.openings).get((issue, member), 0)
    shares = balance_register(opening, kept.moves, member, issue)
    told = issue.decode(), member
    lines = ['EXPLAIN %04d %s' % (member, issue.decode()), *with_sums(moves)]
    lines.append('POS %s %04d %20d' % (*told, sum(amount for amount, _ in moves)))
    lines += ['WAITING ' + words for words in waiting] + list(with_sums(shares))
    lines += ['BAL %s %04d %20d' % (*told, sum(amount for amount, _ in shares)), 'END']
    return in_lines(lines), [], 0


# ---------------------------------------------------------------- in place of the program

# The options of each command: whether a value stands behind them.
OPTIONS = {'dump': {'--csv': False}, 'check': {'--openings': True, '--verbose': False}, 'explain': {'--openings': True}}


def options_of(name, words):
    """The options among the words behind a command's name, and the other words; None where an option has no value."""
    given, rest, words = {}, [], list(words)
    while words:
        word = words.pop(0)
        if word not in OPTIONS[name]:
            rest.append(word)
        elif not OPTIONS[name][word]:
            given[word] = True
        elif words:
            given[word] = words.pop(0)
        else:
            return None
    return None if any(word.startswith('-') for word in rest) else (given, rest)


def answer(words):
    """(standard output, standard error, exit status) of a command line, without its first word."""
    name, behind = (words[1], words[2:]) if words[:1] == ['journal'] and len(words) > 1 else (words[0], words[1:])
    found = options_of(name, behind) if name in OPTIONS and (name == 'explain') == (words[0] == 'explain') else None
    if not found or len(found[1]) != (3 if name == 'explain' else 1):
        return '', 'error: a command line that asks for nothing\n', 1
    given, (place, *rest) = found
    if name == 'check':
        return check(place, given.get('--openings'), '--verbose' in given)
    if name == 'dump':
        try:
            told, status = (dump_csv if '--csv' in given else dump_text)(read_file(place))
        except CannotRead as fault:
            return '', str(fault), 2
        return told, '', status
    try:
        member, issue = cnsd_oracle.read_member(rest[0].encode()), cnsd_oracle.read_cusip(rest[1].encode())
    except Fault as fault:
        return '', 'error: %s\n' % fault, 1
    told, lines, status = explain_text(place, member, issue, given.get('--openings'))
    return told, in_lines(lines), status


# ---------------------------------------------------------------- journals of random runs

class Recorder(cnsd_oracle.Book):
    """The oracle's book, which also keeps what the record of a closed lot tells of its places."""

    def lot_open(self, issue):
        number = super().lot_open(issue)
        self.lots[number - 1].opened = self.lots[number - 1].upto = len(self.clear.records)
        return number

    def lot_pour(self, number):
        added = super().lot_pour(number)
        self.lots[number - 1].upto = len(self.clear.records)
        return added

    def commit_with_orders(self, record):
        if isinstance(record, Allocate):
            lot = self.open_lots[record.issue]
            record = Closed(*record, lot.opened, lot.upto, lot.sealed)
        return super().commit_with_orders(record)


def spell_clear(record):
    """The payload of a record of the clearing node."""
    if isinstance(record, Accept):
        trade = record.trade
        return (bytes([1, 1, len(trade.id)]) + trade.id + struct.pack('>HBBHH', *trade.settle, trade.buyer, trade.seller)
                + trade.issue + struct.pack('>Q', trade.quantity))
    if isinstance(record, Exempt):
        return struct.pack('>BBH', 1, 2, record.member) + record.issue + struct.pack('>Q', record.shares)
    if isinstance(record, Priority):
        return struct.pack('>BBH', 1, 3, record.member) + record.issue + bytes([record.on])
    if isinstance(record, Cycle):
        return struct.pack('>BBHBBB', 1, 4, *record.date, record.kind)
    if isinstance(record, Confirm):
        return struct.pack('>BBQQ', 1, 6, *record)
    head = bytes([1, 5]) + record.issue + struct.pack('>QQQBI', record.opened, record.upto, record.poured, record.sealed, len(record.tickets))
    return head + b''.join(struct.pack('>HQQ', *ticket) for ticket in record.tickets)


def spell(record):
    return journals.spell_depot(record) if isinstance(record, (Exec, Own)) else spell_clear(record)


# The bytes of the openings, whether all of them hold, and those that do; the records of both nodes, and of each node the one whose commit
# failed, which may have come to stand.
Made = collections.namedtuple('Made', 'openings all_hold held clear depot undecided')


def made_run(rng, seed, number):
    """A random run of the oracle's book, of a text that can be run."""
    if rng.random() < 0.5:
        shake, text = headline.make_input(seed, number, True)[:2]
    else:
        shake, text = (fuzz.shake_number(rng) if rng.random() < 0.4 else None), b''
        while not is_good(text):
            text = fuzz.Maker(rng, shake).text()
    opening_text, trade_text, script = cnsd_oracle.split_sections(text)
    openings = cnsd_oracle.good_openings(cnsd_oracle.rows_under(OPENING_HEADER, opening_text), lambda line: None)
    all_hold = rng.random() < 0.8                   # else some rows may not
    if all_hold:
        rows = [b'%d,%s,%d\n' % (account, issue, shares) for (issue, account), shares in openings.items()]
        opening_text = OPENING_HEADER + b'\n' + b''.join(rows)
    run = cnsd_oracle.Run(cnsd_oracle.rows_under(b'trade,settle,buyer,seller,cusip,quantity', trade_text), openings, script, shake)
    run.book = Recorder(openings)
    run.run()
    nodes = run.book.clear, run.book.depot
    return Made(opening_text, all_hold, openings, run.book.clear.records, run.book.depot.records, [node.undecided for node in nodes])


def is_good(text):
    try:
        opening_text, trade_text, _ = cnsd_oracle.split_sections(text)
        cnsd_oracle.rows_under(OPENING_HEADER, opening_text)
        cnsd_oracle.rows_under(b'trade,settle,buyer,seller,cusip,quantity', trade_text)
    except cnsd_oracle.BadInput:
        return False
    return len(text) <= cnsd_oracle.INPUT_LIMIT


def crash_tail(rng, record):
    """What may stand behind the last record after a crash, where this record was under way."""
    body = struct.pack('>I', len(spell(record))) + spell(record) + CLOSED
    gate = bytes([rng.choice([byte for byte in range(256) if byte not in (0, 0xa5)])])
    more = bytes(rng.randrange(256) for _ in range(rng.choice([0, 0, 1, 40])))
    torn = bytes(byte if rng.random() < 0.7 else rng.randrange(256) for byte in body[:rng.randint(0, len(body))])
    return rng.choice([bytes([rng.randrange(256)]), CLOSED + torn, CLOSED + body + more, gate + body + more])


# ---------------------------------------------------------------- changes

def other(rng, number, most=SHARES_LIMIT):
    """Another number, mostly a near one."""
    return rng.choice([near for near in (number - 1, number + 1, number + 10, number // 2, 0, rng.randint(1, 200))
                       if 0 <= near <= most and near != number] or [number + 1])


def changed_order(rng, order):
    kind = rng.randrange(6)
    if kind == 0:
        return order._replace(number=other(rng, order.number, NUMBER_LIMIT) or 1)
    if kind == 1:
        return order._replace(kind='COVER' if order.kind == 'DELIVERY' else 'DELIVERY')
    if kind == 2:
        return order._replace(member=other(rng, order.member, 9999) or 1)
    if kind == 3 and order.cycle:
        return order._replace(cycle=order.cycle._replace(kind=1 - order.cycle.kind))
    return order._replace(asked=other(rng, order.asked) or 1)


def changed_record(rng, record):
    """A record with another number in one of its fields; it may be none that can be read."""
    if isinstance(record, Exec):
        if rng.random() < 0.5:
            return record._replace(moved=other(rng, record.moved, record.order.asked))
        order = changed_order(rng, record.order)
        return Exec(order, min(record.moved, order.asked) if rng.random() < 0.7 else record.moved)
    if isinstance(record, Confirm):
        return rng.choice([record._replace(moved=other(rng, record.moved)), record._replace(number=other(rng, record.number, NUMBER_LIMIT) or 1)])
    if isinstance(record, Accept):
        trade = record.trade
        return Accept(rng.choice([trade._replace(quantity=other(rng, trade.quantity, 10 ** 12) or 1), trade._replace(buyer=other(rng, trade.buyer, 9999) or 1),
                                  trade._replace(settle=(2025, 3, rng.randint(1, 9)))]))
    if isinstance(record, Cycle):
        return rng.choice([Cycle(record.date, 1 - record.kind), Cycle((2025, 3, rng.randint(1, 31)), record.kind)])
    if isinstance(record, Closed):
        return changed_lot(rng, record)
    if isinstance(record, Own):
        return rng.choice([record._replace(shares=other(rng, record.shares) or 1), record._replace(number=other(rng, record.number, NUMBER_LIMIT) or 1),
                           record._replace(sort='DEPOSIT' if record.sort == 'WITHDRAW' else 'WITHDRAW')])
    if isinstance(record, Exempt):
        return record._replace(shares=other(rng, record.shares))
    return record._replace(on=not record.on)


def changed_lot(rng, lot):
    fields = [lot.issue, lot.poured, list(lot.tickets), lot.opened, lot.upto, lot.sealed]
    kind = rng.randrange(7)
    if kind < 3 and lot.tickets:
        place = rng.randrange(len(lot.tickets))
        name = ('member', 'start', 'asked')[kind]
        fields[2][place] = lot.tickets[place]._replace(**{name: other(rng, getattr(lot.tickets[place], name), 9999 if kind == 0 else SHARES_LIMIT)})
    elif kind == 3:
        fields[5] = not lot.sealed
    elif kind == 4:
        fields[4] = other(rng, lot.upto, 2 ** 64 - 1)
    elif kind == 5:
        fields[3] = other(rng, lot.opened, 2 ** 64 - 1)
    else:
        fields[1] = other(rng, lot.poured)
    return Closed(*fields)


def kind_name(record, payload):
    return words_of(record, payload).split(' ')[0]


UNCHANGED = 'nothing changed'


class Journals:
    """Both files of a folder, as they are made and changed."""

    def __init__(self, rng, made):
        self.rng, self.made = rng, made
        self.have_others = False                    # whether the folder keeps other openings than those of the run
        records = [list(made.clear), list(made.depot)]
        for side, undecided in enumerate(made.undecided):
            records[side] += undecided if rng.random() < 0.5 else []
        if rng.random() < 0.4:
            share = rng.choice([0.5, 1])            # as a program of version 1 left them
            records[1] = [record._replace(order=record.order._replace(cycle=None)) if isinstance(record, Exec) and rng.random() < share else record
                          for record in records[1]]
        self.payloads = [[spell(record) for record in of] for of in records]
        assert [[read_record(payload) for payload in of] for of in self.payloads] == records
        self.tails = [CLOSED if not of or rng.random() < 0.6 else crash_tail(rng, rng.choice(of)) for of in records]
        self.files, self.what, self.byte_kind = [self.file(side) for side in (0, 1)], UNCHANGED, None

    def file(self, side):
        return journals.file_of(self.payloads[side])[:-1] + self.tails[side]

    def change(self):
        """One change, of the file of either node; it may come to nothing."""
        rng, before = self.rng, list(self.files)
        side = rng.choice([side for side in (0, 1) if self.payloads[side]] or [0])
        of, size = self.payloads[side], len(self.payloads[side])
        ways = [self.change_byte] * 4 + [self.cut, self.append, self.take_other] + [self.change_records] * (7 if of else 0)
        ways += [self.go_other_way] * (4 if self.payloads[1] else 0)
        what = rng.choice(ways)(side, of, size)
        self.what = UNCHANGED if self.files == before else what

    def change_records(self, side, of, size):
        rng, what = self.rng, self.rng.choice(['a record dropped', 'a record repeated', 'two records swapped', 'an earlier journal'] + ['a number changed'] * 4)
        place = rng.randrange(size)
        if what == 'a record dropped':
            del of[place]
        elif what == 'a record repeated':
            of.insert(rng.choice([place + 1, rng.randint(0, size)]), of[place])
        elif what == 'two records swapped':
            with_this = (place + 1) % size if rng.random() < 0.5 else rng.randrange(size)
            of[place], of[with_this] = of[with_this], of[place]
        elif what == 'an earlier journal':
            del of[place:]
        else:
            of[place] = spell(changed_record(rng, read_record(of[place])))
        self.files[side] = self.file(side)
        return what

    def go_other_way(self, side, of, size):
        """The depository as it would be if one of its records were another, or had never been: each later one moves what there then is."""
        rng, records = self.rng, [read_record(payload) for payload in self.payloads[1]]
        place = rng.randrange(len(records))
        behind = records[place + 1:] if rng.random() < 0.5 else [changed_record(rng, records[place])] + records[place + 1:]
        records = records[:place]
        for record in behind:
            if isinstance(record, Exec):
                had = cnsd_oracle.balance(self.made.held, records, cnsd_oracle.parties(record.order)[0], record.order.issue)
                record = Exec(record.order, min(record.order.asked, had))
            if is_new(records, record) and fits_balance(self.made.held, records, record):
                records.append(record)
        self.payloads[1] = [spell(record) for record in records]
        self.files[1] = self.file(1)
        return 'a depository that went another way'

    def change_byte(self, side, of, size):
        """Mostly one in which a number or a gate stands, so that other records come of it."""
        rng, file = self.rng, bytearray(self.files[side])
        gates = [byte for byte, _ in records_in(bytes(file))[0]]
        place = rng.choice(gates) if gates and rng.random() < 0.15 else rng.randrange(len(file)) if file else 0
        file = file or bytearray(1)
        new = rng.choice([file[place] ^ (1 << rng.randrange(8)), rng.randrange(256), 0, 0xa5, (file[place] + 1) % 256])
        self.byte_kind = 'a byte changed in ' + self.part_at(side, place)
        file[place] = new if new != file[place] else new ^ 1
        self.files[side] = bytes(file)
        return 'a byte changed'

    def part_at(self, side, place):
        """The record in which a byte of a file stands, and whether it is its gate."""
        for byte, payload in records_in(self.files[side])[0]:
            if byte <= place < byte + 5 + len(payload):
                part = 'gate' if place == byte else 'length' if place < byte + 5 else 'payload'
                return '%s, %s' % (kind_name(read_record(payload), payload), part)
        return 'what follows the records'

    def cut(self, side, of, size):
        self.files[side] = self.files[side][:self.rng.randint(0, len(self.files[side]))]
        return 'a file cut'

    def append(self, side, of, size):
        rng = self.rng
        record = OPEN + struct.pack('>I', len(of[0])) + of[0] + CLOSED if of else OPEN
        self.files[side] += rng.choice([record, bytes(rng.randrange(256) for _ in range(rng.choice([1, 2, 5, 60]))), CLOSED * 30, CLOSED * LONGEST_TAIL])
        return 'bytes appended'

    def take_other(self, side, of, size):
        self.files[side] = self.files[1 - side]
        return "the other node's journal"


# ---------------------------------------------------------------- the program beside it

class Difference(Exception):
    pass


def run(program, words):
    """(standard output, standard error, exit status) of a program."""
    done = subprocess.run([program, *words], stdin=subprocess.DEVNULL, capture_output=True, timeout=fuzz.SECONDS)
    return done.stdout.decode('latin-1'), done.stderr.decode('latin-1'), done.returncode


def same(program, words):
    """What both write for a command line, which has to be the same."""
    want, got = answer(words), run(program, words)
    if want != got:
        raise Difference('`%s`: wanted status %d\n%s%sand not %d\n%s%s' % (' '.join(words), want[2], want[0], want[1], got[2], got[0], got[1]))
    return want


def write(path, data):
    with open(path, 'wb') as file:
        file.write(data)


def contents(folder):
    """What stands in a folder: the bytes, mode and time of each file, and the time of the folder."""
    files = {}
    for name in sorted(os.listdir(folder)):
        path = os.path.join(folder, name)
        files[name] = read_file(path), os.stat(path).st_mode, os.stat(path).st_mtime_ns
    return files, os.stat(folder).st_mtime_ns


def openings_in_folder(rng, made, have_others):
    """Those of a run, where all of them hold in any order and perhaps with one of no shares; or others."""
    if not made.all_hold and not have_others:
        return made.openings
    header, *rows = made.openings.split(b'\n') if made.all_hold else [OPENING_HEADER, b'']
    rng.shuffle(rows)
    more = [b'9998,037833100,7'] if have_others else [b'9999,037833100,0']
    return b'\n'.join([header] + rng.choice([rows + more, rows[1:] if have_others else rows])) + b'\n'


def places_to_explain(rng, made):
    """A few members and issues, most of them such as the records name."""
    named = {(trade.buyer, trade.issue) for trade, in cnsd_oracle.of_kind(Accept, made.clear)}
    named |= {(trade.seller, trade.issue) for trade, in cnsd_oracle.of_kind(Accept, made.clear)}
    named |= {(own.member, own.issue) for own in cnsd_oracle.of_kind(Own, made.depot)}
    places = rng.sample(sorted(named), min(len(named), 2))
    return places + [(rng.randint(1, 9999), b'037833100')] * (rng.random() < 0.3 or not places)


# What is counted of the lines of a check.
LINE_KINDS = [(re.compile(form), name) for form, name in (
    (r'(\S+): \d+ bytes follow, as a crash may leave them', r'\1: what a crash may leave'),
    (r'(\S+): \d+ bytes follow that no crash leaves: (.*)', r'\1: \2'),
    (r'(\S+): record \d+ byte \d+ (\w+) .*: (.*)', r'\1: \2: \3'),
    (r'openings: .*', r'openings: a row'),
    (r'openings.csv: .*', r'openings.csv: other openings'),
    (r'both: movement \d+: executed as .*, never ordered', r'both: executed, never ordered'),
    (r'both: movement \d+: executed as .*, ordered as .*', r'both: executed as another order'),
    (r'both: movement \d+: a delivery of \d+ moved \d+', r'both: a delivery that moved less'),
    (r'both: movement \d+: confirmed with \d+, (\w+) .*', r'both: confirmed, \1'),
)]


def line_kinds(lines):
    """The kinds of the lines of a check that are counted, each once."""
    return {found.expand(name) for line in lines for form, name in LINE_KINDS for found in [form.fullmatch(line)] if found}


def run_one(program, seed, number, met, seen):
    rng = random.Random('audit %d %d' % (seed, number))
    made = made_run(rng, seed, number)
    kept = Journals(rng, made)
    if rng.random() < 0.5:
        kept.change()
    met['inputs with ' + kept.what] += 1
    with tempfile.TemporaryDirectory() as above:
        folder, openings = os.path.join(above, 'journals'), os.path.join(above, 'openings')
        os.mkdir(folder)
        for name, file in zip(NAMES, kept.files):
            write(os.path.join(folder, name), file)
        write(openings, made.openings)
        if rng.random() < 0.3:
            kept.have_others = rng.random() < 0.2
            write(os.path.join(folder, 'openings.csv'), openings_in_folder(rng, made, kept.have_others))
            met['inputs with %s openings in the folder' % ('other' if kept.have_others else 'these')] += 1
        before = contents(folder)
        try_all(program, folder, openings, kept, rng, met, seen)
        if contents(folder) != before:
            raise Difference('the folder is not as it was')


def sums_in_report(program, folder, openings):
    """What a run over a copy of the journals reports: for each issue what is long, short, free and out, and the lines of balances."""
    text = b'[openings]\n' + openings + b'[trades]\n[script]\nREPORT\n'
    with tempfile.TemporaryDirectory() as above:
        copy = shutil.copytree(folder, os.path.join(above, 'journals'))
        done = subprocess.run([program, 'run', '--journal', copy], input=text, capture_output=True, timeout=60, check=False)
    sums, balances = collections.defaultdict(lambda: [0, 0, 0, 0]), []
    for words in map(str.split, done.stdout.decode().splitlines()):
        if words[0] == 'POS':
            sums[words[1]][int(words[3]) < 0] += abs(int(words[3]))
        elif words[0] == 'POOL':
            sums[words[1]][2:] = int(words[3]), int(words[7])
        elif words[0] == 'BAL':
            balances.append((words[1], words[2], int(words[3])))
    return {issue: found for issue, found in sums.items() if any(found)}, balances


def compare_with_report(program, folder, openings, text):
    """What a check with all that it can tell says of journals that agree has to be what a run over them reports."""
    sums, balances = {}, []
    for line in text.splitlines():
        issue = re.fullmatch(r'clear.journal: (\S{9}) longs (\d+), shorts (\d+), free (\d+), out (\d+), .*', line)
        balance = re.fullmatch(r'depot.journal: (\S{9}) (\d{4}) balance (\d+)', line)
        if issue and any(map(int, issue.groups()[1:])):
            sums[issue[1]] = list(map(int, issue.groups()[1:]))
        if balance:
            balances.append((balance[1], balance[2], int(balance[3])))
    reported = sums_in_report(program, folder, openings)
    if (sums, balances) != reported:
        raise Difference('a run reports %r, and the check tells\n%s' % (reported, text))


def try_all(program, folder, openings, kept, rng, met, seen):
    """All commands on the journals of a folder."""
    told = []
    for way, given in (('with openings', ['--openings', openings]), ('without --openings', [])):
        for verbose in ([], ['--verbose']):
            text, _, status = same(program, ['journal', 'check', folder, *given, *verbose])
            told += text.splitlines()
        met['checks %s that end by %s' % (way, 'agreed' if status == 0 else 'faults')] += 1
        if kept.have_others and not given:
            continue
        is_seen = status != 0 and int(text.splitlines()[-1].split()[0]) > len(re.findall('^openings', text, re.M))
        if kept.what == UNCHANGED and is_seen:
            raise Difference('journals that nobody changed do not agree:\n' + text)
        if kept.what == UNCHANGED and given and status == 0:
            compare_with_report(program, folder, kept.made.openings, text)
            met['checks whose sums a run reports'] += 1
        for what in [kept.what, kept.byte_kind]:
            if what not in (None, UNCHANGED):
                seen[what][way, is_seen] += 1
    met.update('inputs with the line ' + kind for kind in line_kinds(told))
    for name in NAMES:
        for words in ([], ['--csv']):
            same(program, ['journal', 'dump', os.path.join(folder, name), *words])
    for member, issue in places_to_explain(rng, kept.made):
        given = rng.choice([[], ['--openings', openings]])
        status = same(program, ['explain', folder, rng.choice(['%d', '%04d']) % member, issue.decode(), *given])[2]
        met['explanations with status %d' % status] += 1


def tell(met, seen):
    for what, count in sorted(met.items()):
        print('%8d %s' % (count, what))
    print('what a check told of changes: seen and not seen with openings, seen and not seen without --openings')
    for what in sorted(seen):
        print('%8d %6d %8d %6d  %s' % (*(seen[what][way, is_seen] for way in ('with openings', 'without --openings') for is_seen in (True, False)), what))


def compare(words):
    """Compares a program with what stands above, on random journals."""
    parser = argparse.ArgumentParser(description=__doc__.split('\n', maxsplit=1)[0])
    parser.add_argument('program')
    parser.add_argument('--seed', type=int, required=True)
    parser.add_argument('--count', type=int, required=True)
    parser.add_argument('--from', type=int, default=0, dest='first')
    given = parser.parse_args(words)
    program, passed = os.path.abspath(given.program), 0
    met, seen = collections.Counter(), collections.defaultdict(collections.Counter)
    for number in range(given.first, given.first + given.count):
        try:
            run_one(program, given.seed, number, met, seen)
            passed += 1
        except (Difference, OSError, subprocess.TimeoutExpired) as fault:
            print('FAIL input %d of seed %d: %s' % (number, given.seed, fault))
            print('again: audit.py %s --seed %d --from %d --count 1' % (given.program, given.seed, number))
            break
    tell(met, seen)
    print('%d passed, %d failed' % (passed, 0 if passed == given.count else 1))
    return 0 if passed and passed == given.count else 1


def main(words):
    if words[:1] in (['journal'], ['explain']):
        told, wrong, status = answer(words)
        sys.stdout.write(told)
        sys.stdout.flush()
        sys.stderr.write(wrong)
        return status
    return compare(words)


if __name__ == '__main__':
    sys.exit(main(sys.argv[1:]))
