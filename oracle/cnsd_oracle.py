#!/usr/bin/env python3
"""A second, slow reading of the rules, to compare the program with.

    cnsd_oracle.py [run] < input
    cnsd_oracle.py run --shake NUMBER < input
    cnsd_oracle.py cusip TEXT
    cnsd_oracle.py cusip -- TEXT

It keeps the two nodes' records as lists, oldest first, and everything else is a sum
over a whole list. Most sums are computed anew at each question; a plan and what is
available are kept until the next record, and orders, accepted trades and open lots as
they come, so that a million of each can be asked for. It knows `run` without workers,
with ample memory, and of journal files what a run tells that begins with given records.
"""
import functools
import os
import sys
from collections import namedtuple

INPUT_LIMIT = 67108864
SHARES_LIMIT = 10 ** 18
NUMBER_LIMIT = 1000000
COUNT_LIMIT = 10 ** 9
SHAKE_LIMIT = 2 ** 64 - 1
DRAWS = 16                    # before each pump of a run that is shaken
NIGHT, DAY = 0, 1
KINDS = {b'NIGHT': NIGHT, b'DAY': DAY}
KIND_NAMES = ['NIGHT', 'DAY']


class BadInput(Exception):
    """A fault of the whole input; its text is what standard error gets."""


class Fault(Exception):
    """A text that is not well formed; its text is the fault's name."""


class Refused(Exception):
    """A refused event; its text is the refusal's name."""


# ---------------------------------------------------------------- texts

def read_number(text, low, high):
    if not text.isdigit():
        raise Fault('BadNumber')
    digits = text.lstrip(b'0') or b'0'
    number = int(digits) if len(digits) <= 20 else 10 ** 20
    if not low <= number <= high:
        raise Fault('OutOfRange')
    return number


@functools.lru_cache(maxsize=None)
def read_member(text):
    return read_number(text, 1, 9999)


@functools.lru_cache(maxsize=None)
def read_date(text):
    """A date as a triple, so that dates are ordered as triples are."""
    parts = text.split(b'-')
    if [len(part) for part in parts] != [4, 2, 2] or not all(part.isdigit() for part in parts):
        raise Fault('BadDate')
    year, month, day = [int(part) for part in parts]
    leap = year % 4 == 0 and (year % 100 != 0 or year % 400 == 0)
    days = [31, 29 if leap else 28, 31, 30, 31, 30, 31, 31, 30, 31, 30, 31]
    if not (1900 <= year <= 2199 and 1 <= month <= 12 and 1 <= day <= days[month - 1]):
        raise Fault('BadDate')
    return (year, month, day)


def read_id(text):
    if not 1 <= len(text) <= 16 or text.translate(None, b'ABCDEFGHIJKLMNOPQRSTUVWXYZ0123456789') != b'':
        raise Fault('Id')
    return text


CUSIP_CHARACTERS = b'0123456789ABCDEFGHIJKLMNOPQRSTUVWXYZ*@#'


def check_digit(eight):
    total = 0
    for place, byte in enumerate(eight, 1):
        value = CUSIP_CHARACTERS.index(byte)
        if place % 2 == 0:
            value *= 2
        total += value // 10 + value % 10
    return (10 - total % 10) % 10


@functools.lru_cache(maxsize=None)
def read_cusip(text):
    if len(text) != 9:
        raise Fault('Length')
    for place, byte in enumerate(text, 1):
        if byte not in (CUSIP_CHARACTERS if place <= 8 else b'0123456789'):
            raise Fault('BadChar %d' % place)
    want = check_digit(text[:8])
    if text[8] != ord('0') + want:
        raise Fault('CheckDigit %d' % want)
    return text


# ---------------------------------------------------------------- the input

def raw_lines(text):
    """The lines of a text, each with its LF where it has one."""
    lines = [line + b'\n' for line in text.split(b'\n')]
    lines[-1] = lines[-1][:-1]
    return [line for line in lines if line]


def line_text(raw):
    """What a line says: without its LF and one CR before it."""
    if raw.endswith(b'\r\n'):
        return raw[:-2]
    if raw.endswith(b'\n'):
        return raw[:-1]
    return raw


def split_sections(text):
    """The bytes of the openings and of the trades, and the lines of the script."""
    lines = raw_lines(text)
    said = [line_text(line) for line in lines]
    if not said or said[0] != b'[openings]' or b'[trades]' not in said:
        raise BadInput('bad sections')
    trades = said.index(b'[trades]', 1)
    if b'[script]' not in said[trades:]:
        raise BadInput('bad sections')
    script = said.index(b'[script]', trades)
    return b''.join(lines[1:trades]), b''.join(lines[trades + 1:script]), said[script + 1:]


def numbered_records(text):
    """The records of a text as the `csv` crate reads them, each with the line in which it begins."""
    if text.startswith(b'\xef\xbb\xbf'):
        text = text[3:]
    if b'"' not in text and b'\r' not in text:
        return [(number, line.split(b',')) for number, line in enumerate(text.split(b'\n'), 1) if line]
    records, fields, field = [], [], bytearray()
    state = 'record'          # before a record's first byte
    line = began = 1
    for byte in text:
        char = bytes([byte])
        here, line = line, line + (char == b'\n')
        if state == 'record' and char in b'\r\n':
            continue
        if state == 'record':
            began = here
        if state == 'quoted':
            if char == b'"':
                state = 'quote'
            else:
                field += char
            continue
        if state == 'quote' and char == b'"':
            field += char
            state = 'quoted'
            continue
        if state in ('record', 'field') and char == b'"':
            state = 'quoted'
            continue
        if char == b',':
            fields.append(bytes(field))
            field = bytearray()
            state = 'field'   # before a field's first byte
        elif char in b'\r\n':
            records.append((began, fields + [bytes(field)]))
            fields, field = [], bytearray()
            state = 'record'
        else:
            field += char
            state = 'plain'
    if state != 'record':
        records.append((began, fields + [bytes(field)]))
    return records


def csv_records(text):
    return [fields for _, fields in numbered_records(text)]


def rows_under(header, text):
    records = csv_records(text)
    if records and records[0] != header.split(b','):
        raise BadInput('bad rows')
    return records[1:]


Trade = namedtuple('Trade', 'id settle buyer seller issue quantity')


def told(name, read, *given):
    """Reads, and puts a name before the fault."""
    try:
        return read(*given)
    except Fault as fault:
        raise Fault('%s %s' % (name, fault))


def read_trade(row):
    if len(row) != 6:
        raise Fault('Fields')
    return Trade(read_id(row[0]), told('Settle', read_date, row[1]), told('Buyer', read_member, row[2]),
                 told('Seller', read_member, row[3]), told('Cusip', read_cusip, row[4]),
                 told('Quantity', read_number, row[5], 1, 999999999999))


def read_opening(row):
    if len(row) != 3:
        raise Fault('Fields')
    return (told('Account', read_member, row[0]), told('Cusip', read_cusip, row[1]),
            told('Shares', read_number, row[2], 0, SHARES_LIMIT))


# ---------------------------------------------------------------- records and what they say

Accept = namedtuple('Accept', 'trade')
Exempt = namedtuple('Exempt', 'member issue shares')
Priority = namedtuple('Priority', 'member issue on')
Cycle = namedtuple('Cycle', 'date kind')
Allocate = namedtuple('Allocate', 'issue poured tickets')
Confirm = namedtuple('Confirm', 'number moved')
Exec = namedtuple('Exec', 'order moved')
Own = namedtuple('Own', 'sort member number issue shares')    # a member's own deposit or withdrawal

Order = namedtuple('Order', 'number cycle kind member issue asked')
Ticket = namedtuple('Ticket', 'member start asked')
Planned = namedtuple('Planned', 'member asked group')


def of_kind(kind, records):
    return [record for record in records if isinstance(record, kind)]


def due(records):
    """The accepted trades behind which a cycle stands on or after their date."""
    trades, latest = [], (0, 0, 0)    # of the cycles behind a place
    for record in reversed(records):
        if isinstance(record, Cycle):
            latest = max(latest, record.date)
        elif isinstance(record, Accept) and latest >= record.trade.settle:
            trades.append(record.trade)
    return trades[::-1]


def confirmed(records):
    return {record.number: record.moved for record in of_kind(Confirm, records)}


def positions(records, orders):
    """The position of each issue and member that has ever had one."""
    position = {}
    for trade in due(records):
        for member, change in ((trade.buyer, trade.quantity), (trade.seller, -trade.quantity)):
            position[trade.issue, member] = position.get((trade.issue, member), 0) + change
    moved = confirmed(records)
    for order in orders:
        if order.number in moved:
            change = moved[order.number] if order.kind == 'COVER' else -moved[order.number]
            position[order.issue, order.member] = position.get((order.issue, order.member), 0) + change
    return position


def open_asked(records, orders, kind):
    """What the unconfirmed orders of a kind ask, for each issue and member that has one."""
    moved, asked = confirmed(records), {}
    for order in orders:
        if order.kind == kind and order.number not in moved:
            asked[order.issue, order.member] = asked.get((order.issue, order.member), 0) + order.asked
    return asked


def last_set(kind, records):
    """The last setting of this kind, for each issue and member that has one."""
    return {(record.issue, record.member): record for record in of_kind(kind, records)}


def covers(records, orders):
    """(member, issue, asked) for each cover that a cycle makes, in their order."""
    still, exempt, asked = open_asked(records, orders, 'COVER'), last_set(Exempt, records), []
    for place, position in sorted(positions(records, orders).items()):
        short = -position - still.get(place, 0) - (exempt[place].shares if place in exempt else 0)
        if short > 0:
            asked.append(('COVER', place[1], place[0], short))
    return asked


def grants(tickets, poured):
    """What each ticket gets: the part of its interval below poured."""
    return [max(0, min(ticket.start + ticket.asked, poured) - ticket.start) for ticket in tickets]


def agree(one, other):
    """Whether two orders say the same, of their cycles where both have one."""
    same = one._replace(cycle=None) == other._replace(cycle=None)
    return same and (None in (one.cycle, other.cycle) or one.cycle == other.cycle)


def made_by(records, orders):
    """What the last of these records asks for, given the orders of those before it."""
    last = records[-1]
    if isinstance(last, Cycle):
        return covers(records, orders)
    if isinstance(last, Allocate):
        return [('DELIVERY', ticket.member, last.issue, grant)
                for ticket, grant in zip(last.tickets, grants(last.tickets, last.poured)) if grant > 0]
    return []


def orders_of(records, orders=(), upto=0):
    """All orders, numbered from 1, where the given ones are those of the first `upto` records.

    Each is of the last cycle that stands up to the record that made it.
    """
    orders = list(orders)
    for count in range(upto + 1, len(records) + 1):
        if isinstance(records[count - 1], (Cycle, Allocate)):
            cycles = of_kind(Cycle, records[:count])
            for ask in made_by(records[:count], orders):
                orders.append(Order(len(orders) + 1, cycles[-1] if cycles else None, *ask))
    return orders


def available(records, orders, issue):
    """Confirmed covers' shares less what deliveries have taken or ask for."""
    moved = confirmed(records)
    total = 0
    for order in orders:
        if order.issue == issue and order.kind == 'COVER':
            total += moved.get(order.number, 0)
        if order.issue == issue and order.kind == 'DELIVERY':
            total -= moved.get(order.number, order.asked)
    return total


def plan(records, orders, issue):
    """The members that a lot serves, by group, then member."""
    cycles = [place for place, record in enumerate(records) if isinstance(record, Cycle)]
    before = {}
    if len(cycles) >= 2:
        earlier = records[:cycles[-2] + 1]
        before = positions(earlier, orders_of(earlier))
    still, priority, planned = open_asked(records, orders, 'DELIVERY'), last_set(Priority, records), []
    for place, position in positions(records, orders).items():
        held, member = place
        asked = position - still.get(place, 0)
        if held != issue or asked <= 0:
            continue
        group = 0 if place in priority and priority[place].on else 1 if before.get(place, 0) > 0 else 2
        planned.append(Planned(member, asked, group))
    return sorted(planned, key=lambda one: (one.group, one.member))


def parties(order):
    """The accounts that a movement goes from and to."""
    return (order.member, 0) if order.kind == 'COVER' else (0, order.member)


def brought(own):
    """What a member's own instruction adds to the member's balance."""
    return own.shares if own.sort == 'DEPOSIT' else -own.shares


def changes(record):
    """The issue of a record of the depository, and what it adds to the balance of each account that it names."""
    if isinstance(record, Own):
        return record.issue, {record.member: brought(record)}
    giver, taker = parties(record.order)
    return record.order.issue, {giver: -record.moved, taker: record.moved}


def balance(openings, records, account, issue):
    total = openings.get((issue, account), 0)
    for record in records:
        where, added = changes(record)
        if where == issue:
            total += added.get(account, 0)
    return total


def issue_sum(openings, records, issue):
    """All the shares of an issue: its openings and deposits, less its withdrawals."""
    opened = [shares for (where, _), shares in openings.items() if where == issue]
    return sum(opened) + sum(brought(own) for own in of_kind(Own, records) if own.issue == issue)


# ---------------------------------------------------------------- the words that shake a run

PCG_MULTIPLIER = 6364136223846793005
SEED_INCREMENT = 11634580027462260723


def pcg_word(state):
    """The word of 32 bits that PCG (XSH RR 64/32) gives for a state of 64."""
    folded = ((state ^ (state >> 18)) >> 27) % 2 ** 32
    turned = state >> 59
    return ((folded >> turned) | (folded << (32 - turned))) % 2 ** 32


class Words:
    """The words of the PCG generator that a number starts.

    Its seed are four words of a PCG generator whose state is that number, each taken after a step: the lower and
    the higher half of a state, and those of an increment, which is made odd.
    """

    def __init__(self, number):
        seed = []
        for _ in range(4):
            number = (number * PCG_MULTIPLIER + SEED_INCREMENT) % 2 ** 64
            seed.append(pcg_word(number))
        self.increment = (seed[2] + seed[3] * 2 ** 32) | 1
        self.state = seed[0] + seed[1] * 2 ** 32 + self.increment
        self.step()

    def step(self):
        self.state = (self.state * PCG_MULTIPLIER + self.increment) % 2 ** 64

    def next(self):
        word = pcg_word(self.state)
        self.step()
        return word


# ---------------------------------------------------------------- the two nodes and the links

class Node:
    """A node's records, and a keeper in memory that can be planned to fail."""

    def __init__(self, records=()):
        self.records = list(records)
        self.down = False
        self.planned = None       # None, or whether the record of the failing commit stands
        self.undecided = []       # the record that comes back at a restart

    def check_up(self):
        if self.down:
            raise Refused('Down')

    def commit(self, record):
        if self.planned is None:
            self.records.append(record)
            return
        self.undecided = [record] if self.planned else []
        self.planned = None
        self.down = True
        raise Refused('Device')

    def restart(self):
        kept = 'yes' if self.undecided else 'no'
        self.records += self.undecided
        self.undecided = []
        self.down = False
        return 'records %d kept %s' % (len(self.records), kept)


class Lot:
    def __init__(self, issue, planned, poured):
        self.issue = issue
        self.plan = planned
        self.poured = poured
        self.tickets = []
        self.sealed = False
        self.ended = False
        self.busy = False         # while BESIDE runs its lines


class Book:
    """The clearing node, the depository, the packets and the lots."""

    def __init__(self, openings, clear=(), depot=()):
        self.clear = Node(clear)
        self.depot = Node(depot)
        self.openings = openings
        self.order_packets = []
        self.reply_packets = []
        self.lots = []
        self.open_lots = {}       # those of `lots` that have not ended, by issue
        self.trades = {}          # the accepted trades of the first `trades_upto` records, by id
        self.trades_upto = 0
        self.made = []            # the orders of the first `made_upto` records
        self.made_upto = 0
        self.kept = {}            # what the first `kept_upto` records say, by the question
        self.kept_upto = 0

    # What the lists say.

    def keep(self, question, answer):
        """What a function answers of the records; asked again only where there are more of them."""
        if self.kept_upto != len(self.clear.records):
            self.kept, self.kept_upto = {}, len(self.clear.records)
        if question not in self.kept:
            self.kept[question] = answer()
        return self.kept[question]

    def accepted(self):
        for record in self.clear.records[self.trades_upto:]:
            if isinstance(record, Accept):
                self.trades[record.trade.id] = record.trade
        self.trades_upto = len(self.clear.records)
        return self.trades

    def orders(self):
        if self.made_upto != len(self.clear.records):
            self.made = orders_of(self.clear.records, self.made, self.made_upto)
            self.made_upto = len(self.clear.records)
        return self.made

    def plan(self, issue):
        return self.keep(('plan', issue), lambda: plan(self.clear.records, self.orders(), issue))

    def available(self, issue):
        return self.keep(('available', issue), lambda: available(self.clear.records, self.orders(), issue))

    def lent(self, issue):
        return self.open_lots[issue].poured if issue in self.open_lots else 0

    def free(self, issue):
        return self.available(issue) - self.lent(issue)

    def lot(self, number):
        if not 1 <= number <= len(self.lots):
            raise Refused('NoLot')
        if self.lots[number - 1].ended:
            raise Refused('StaleLot')
        return self.lots[number - 1]

    # Events of the clearing node.

    def take(self, trade):
        self.clear.check_up()
        accepted = self.accepted()
        if trade.buyer == trade.seller:
            raise Refused('SameMember')
        if trade.id in accepted:
            raise Refused('Same' if accepted[trade.id] == trade else 'Conflict')
        if len(accepted) >= NUMBER_LIMIT:
            raise Refused('Full')
        self.clear.commit(Accept(trade))

    def note(self, record):
        """EXEMPT and PRIORITY."""
        self.clear.check_up()
        self.clear.commit(record)

    def commit_with_orders(self, record):
        """Commits a record that may make orders, and answers those."""
        before = self.orders()
        made = made_by(self.clear.records + [record], before)
        if made and len(before) + len(made) > NUMBER_LIMIT:
            raise Refused('NumbersSpent')
        self.clear.commit(record)
        return self.orders()[len(before):]

    def cycle(self, date, kind):
        """How many trades became due, and the orders."""
        self.clear.check_up()
        records = self.clear.records
        if any((date, kind) <= (cycle.date, cycle.kind) for cycle in of_kind(Cycle, records)):
            raise Refused('CycleOrder')
        if self.open_lots:
            raise Refused('LotsOpen')
        count = len(due(records + [Cycle(date, kind)])) - len(due(records))
        return count, self.commit_with_orders(Cycle(date, kind))

    def lot_open(self, issue):
        """The new lot's number."""
        self.clear.check_up()
        if issue in self.open_lots:
            raise Refused('LotAlready')
        if len(self.lots) >= NUMBER_LIMIT:
            raise Refused('LotsSpent')
        self.open_lots[issue] = Lot(issue, self.plan(issue), self.free(issue))
        self.lots.append(self.open_lots[issue])
        return len(self.lots)

    def end(self, lot):
        lot.ended = True
        del self.open_lots[lot.issue]

    def lot_pour(self, number):
        lot = self.lot(number)
        self.clear.check_up()
        added = self.free(lot.issue)
        lot.poured += added
        return added

    def reserve(self, number, member):
        lot = self.lot(number)
        served = [ticket.member for ticket in lot.tickets]
        own = [one for one in lot.plan if one.member == member and member not in served]
        if not own:
            raise Refused('NotLong')
        if any(one.group < own[0].group and one.member not in served for one in lot.plan):
            raise Refused('EarlierGroup')
        if lot.sealed:
            raise Refused('Sealed')
        ticket = Ticket(member, sum(other.asked for other in lot.tickets), own[0].asked)
        lot.tickets.append(ticket)
        return ticket

    def look(self, number):
        """Poured, the sum asked, and whether the lot is sealed."""
        lot = self.lot(number)
        return lot.poured, sum(ticket.asked for ticket in lot.tickets), lot.sealed

    def seal(self, number):
        self.lot(number).sealed = True

    def lot_close(self, number):
        """What was granted, and the orders."""
        lot = self.lot(number)
        self.clear.check_up()
        if not lot.sealed and len(lot.tickets) < len(lot.plan):
            raise Refused('Unserved')
        orders = self.commit_with_orders(Allocate(lot.issue, lot.poured, list(lot.tickets)))
        self.end(lot)
        return sum(order.asked for order in orders), orders

    def send(self, number):
        """The packet's number."""
        self.clear.check_up()
        orders = self.orders()
        if not 1 <= number <= len(orders):
            raise Refused('UnknownMove')
        self.order_packets.append(orders[number - 1])
        return len(self.order_packets)

    def reply_in(self, packet):
        """The reply, and whether it is new."""
        if not 1 <= packet <= len(self.reply_packets):
            raise Refused('NoPacket')
        self.clear.check_up()
        number, moved = self.reply_packets[packet - 1]
        orders, known = self.orders(), confirmed(self.clear.records)
        if not 1 <= number <= len(orders):
            raise Refused('UnknownMove')
        if number in known:
            if known[number] != moved:
                raise Refused('Conflict')
            return number, moved, 'again'
        if moved > orders[number - 1].asked:
            raise Refused('TooMuch')
        self.clear.commit(Confirm(number, moved))
        return number, moved, 'done'

    def restart_clear(self):
        for lot in list(self.open_lots.values()):
            self.end(lot)
        return self.clear.restart()

    # Events of the depository.

    def balance(self, account, issue):
        return balance(self.openings, self.depot.records, account, issue)

    def issue_sum(self, issue):
        return issue_sum(self.openings, self.depot.records, issue)

    def accounts(self):
        """Each issue and account that an opening or a record names, in their order."""
        named = set(self.openings)
        for record in self.depot.records:
            issue, added = changes(record)
            named |= {(issue, account) for account in added}
        return sorted(named)

    def instruct(self, own):
        """`done`, or `again` where it was before."""
        self.depot.check_up()
        for held in of_kind(Own, self.depot.records):
            if (held.member, held.number) == (own.member, own.number):
                if held != own:
                    raise Refused('Conflict')
                return 'again'
        if own.sort == 'DEPOSIT' and self.issue_sum(own.issue) + own.shares > SHARES_LIMIT:
            raise Refused('IssueSum')
        if own.sort == 'WITHDRAW' and self.balance(own.member, own.issue) < own.shares:
            raise Refused('TooFew')
        self.depot.commit(own)
        return 'done'

    def order_in(self, packet):
        """`exec` or `again`, the reply, and the reply's packet."""
        if not 1 <= packet <= len(self.order_packets):
            raise Refused('NoPacket')
        self.depot.check_up()
        order = self.order_packets[packet - 1]
        done = [record for record in of_kind(Exec, self.depot.records) if record.order.number == order.number]
        if done:
            if not agree(done[0].order, order):
                raise Refused('Conflict')
            word, moved = 'again', done[0].moved
        else:
            word, moved = 'exec', min(order.asked, self.balance(parties(order)[0], order.issue))
            self.depot.commit(Exec(order, moved))
        self.reply_packets.append((order.number, moved))
        return word, order.number, moved, len(self.reply_packets)


# ---------------------------------------------------------------- commands

SWITCH = {b'ON': True, b'OFF': False}
FATE = {b'KEEP': True, b'DROP': False}
SIDES = {b'CLEAR': 'CLEAR', b'DEPOT': 'DEPOT'}


def choice(table):
    def read(text):
        if text not in table:
            raise Fault('no such word')
        return table[text]
    return read


def numbers(low, high):
    return lambda text: read_number(text, low, high)


def read_take(text):
    return None if text == b'ALL' else read_number(text, 1, NUMBER_LIMIT)


SHARES = numbers(0, SHARES_LIMIT)
ANY = numbers(0, COUNT_LIMIT)
OWN = [read_member, numbers(1, NUMBER_LIMIT), read_cusip, numbers(1, SHARES_LIMIT)]

# Each command, and the readers of its words.
COMMANDS = {
    b'TAKE': [read_take],
    b'CYCLE': [choice(KINDS), read_date],
    b'REPORT': [],
    b'EXEMPT': [read_member, read_cusip, SHARES],
    b'PRIORITY': [read_member, read_cusip, choice(SWITCH)],
    b'SEND': [ANY],
    b'ORDER': [ANY],
    b'REPLY': [ANY],
    b'PUMP': [],
    b'DEPOSIT': OWN,
    b'WITHDRAW': OWN,
    b'FAIL': [choice(SIDES), choice(FATE)],
    b'RESTART': [choice(SIDES)],
    b'LOT': [read_cusip],
    b'POUR': [ANY],
    b'RESERVE': [ANY, read_member],
    b'LOOK': [ANY],
    b'SEAL': [ANY],
    b'CLOSE': [ANY],
    b'ALLOCATE': [read_cusip],
    b'BESIDE': [read_cusip, numbers(0, 1000)],
}


def read_command(line):
    """The command's name and what it names, or None for a bad command."""
    words = line.split(b' ')
    if words[0] not in COMMANDS or len(words) != len(COMMANDS[words[0]]) + 1:
        return None
    try:
        return words[0].decode(), [read(word) for read, word in zip(COMMANDS[words[0]], words[1:])]
    except Fault:
        return None


class Run:
    """One run of a script: the lines that it prints are in `out`.

    It is shaken by a number where there is one. Over journal files no commit can be planned to fail, and
    the nodes begin with the records that those hold.
    """

    def __init__(self, rows, openings, script, shake=None, journal=False, clear=(), depot=()):
        self.words = None if shake is None else Words(shake)
        self.journal = journal
        self.rows = rows
        self.taken = 0
        self.book = Book(openings, clear, depot)
        self.out = []
        # The lines that are not skipped, with their numbers, and the place of the next.
        self.script = [(number, line) for number, line in enumerate(script, 1) if line and not line.startswith(b'#')]
        self.place = 0

    def say(self, text, *given):
        self.out.append(text % given)

    def run(self):
        while self.place < len(self.script):
            self.step(False)

    def step(self, beside):
        """The next line."""
        number, line = self.script[self.place]
        self.place += 1
        command = read_command(line)
        if command is None or (beside and command[0] == 'BESIDE'):
            self.say('line %d bad command', number)
            return
        name, given = command
        getattr(self, name)(*given)

    def event(self, word, act, *given):
        """What an event answers; where it is refused, the line for that and None."""
        try:
            return act(*given)
        except Refused as refusal:
            self.say('%s refused %s', word, refusal)
            return None

    def say_orders(self, orders):
        for order in orders:
            self.say('order %d %s %04d %s %d', order.number, order.kind, order.member, order.issue.decode(),
                     order.asked)

    # One method for each command.

    def TAKE(self, count):
        end = len(self.rows) if count is None else min(len(self.rows), self.taken + count)
        while self.taken < end:
            row = self.rows[self.taken]
            self.taken += 1
            try:
                trade = read_trade(row)
            except Fault as fault:
                self.say('row %d fault %s', self.taken, fault)
                continue
            word = 'trade ' + trade.id.decode()
            try:
                self.book.take(trade)
                self.say('%s accepted', word)
            except Refused as refusal:
                self.say('%s refused %s', word, refusal)

    def EXEMPT(self, member, issue, shares):
        if self.event('exempt', lambda: self.book.note(Exempt(member, issue, shares)) or True):
            self.say('exempt ok')

    def PRIORITY(self, member, issue, on):
        if self.event('priority', lambda: self.book.note(Priority(member, issue, on)) or True):
            self.say('priority ok')

    def CYCLE(self, kind, date):
        cycled = self.event('cycle', self.book.cycle, date, kind)
        if cycled:
            self.say('cycle %04d-%02d-%02d %s due %d', *date, KIND_NAMES[kind], cycled[0])
            self.say_orders(cycled[1])

    def SEND(self, number):
        packet = self.event('send', self.book.send, number)
        if packet:
            self.say('send %d packet %d', number, packet)
        return packet

    def ORDER(self, packet):
        done = self.event('order', self.book.order_in, packet)
        if done:
            self.say('%s %d moved %d packet %d', *done)
        return done and done[3]

    def REPLY(self, packet):
        done = self.event('reply', self.book.reply_in, packet)
        if done:
            self.say('confirm %d moved %d %s', *done)

    def draw_event(self):
        """Lets happen what the next word names, of the things that there are."""
        word = self.words.next()
        kind, place = word % 4, word // 4
        if kind == 3:
            return
        book = self.book
        things, act = [(book.orders(), self.SEND), (book.order_packets, self.ORDER),
                       (book.reply_packets, self.REPLY)][kind]
        if things:
            act(place % len(things) + 1)

    def PUMP(self):
        for _ in range(DRAWS if self.words else 0):
            self.draw_event()
        known = confirmed(self.book.clear.records)
        for number in [order.number for order in self.book.orders() if order.number not in known]:
            sent = self.SEND(number)
            answered = sent and self.ORDER(sent)
            if answered:
                self.REPLY(answered)

    def instruct(self, own):
        word = own.sort.lower()
        answered = self.event(word, self.book.instruct, own)
        if answered:
            self.say('%s %04d number %d %s', word, own.member, own.number, answered)

    def DEPOSIT(self, *fields):
        self.instruct(Own('DEPOSIT', *fields))

    def WITHDRAW(self, *fields):
        self.instruct(Own('WITHDRAW', *fields))

    def FAIL(self, side, stands):
        if self.journal:
            self.say('fail refused NotPlanned')
            return
        node = self.book.clear if side == 'CLEAR' else self.book.depot
        node.planned = stands
        self.say('fail ok')

    def RESTART(self, side):
        restart = self.book.restart_clear if side == 'CLEAR' else self.book.depot.restart
        self.say('restart %s %s', side, restart())

    def LOT(self, issue):
        number = self.event('lot', self.book.lot_open, issue)
        if number:
            lot = self.book.lots[number - 1]
            self.say('lot %d poured %d longs %d', number, lot.poured, len(lot.plan))
        return number

    def busy(self, number):
        return 1 <= number <= len(self.book.lots) and self.book.lots[number - 1].busy

    def POUR(self, number):
        added = self.event('pour', self.book.lot_pour, number)
        if added is not None:
            self.say('pour %d', added)

    def RESERVE(self, number, member):
        """Answers what stopped it, or None."""
        try:
            if self.busy(number):
                raise Refused('LotBusy')
            ticket = self.book.reserve(number, member)
            self.say('ticket %04d start %d asked %d', *ticket)
        except Refused as refusal:
            self.say('reserve refused %s', refusal)
            return str(refusal)

    def LOOK(self, number):
        seen = self.event('look', self.book.look, number)
        if seen:
            self.say('look poured %d asked %d sealed %s', seen[0], seen[1], 'yes' if seen[2] else 'no')

    def SEAL(self, number):
        if self.event('seal', lambda: self.book.seal(number) or True):
            self.say('seal ok')

    def CLOSE(self, number):
        if self.busy(number):
            self.say('close refused LotBusy')
            return
        closed = self.event('close', self.book.lot_close, number)
        if closed:
            self.say('close granted %d', closed[0])
            self.say_orders(closed[1])

    def serve(self, number):
        """Reserves for each planned member, then the close."""
        for planned in self.book.lots[number - 1].plan:
            stopped = self.RESERVE(number, planned.member)
            if stopped == 'Sealed':
                break
            if stopped:
                return
        self.CLOSE(number)

    def ALLOCATE(self, issue):
        number = self.LOT(issue)
        if number:
            self.serve(number)

    def BESIDE(self, issue, count):
        number = self.LOT(issue)
        if number:
            self.book.lots[number - 1].busy = True
        end = min(len(self.script), self.place + count)
        while self.place < end:
            self.step(True)
        if number:
            self.book.lots[number - 1].busy = False
            self.serve(number)

    def REPORT(self):
        book = self.book
        records, orders = book.clear.records, book.orders()
        cycles = of_kind(Cycle, records)
        if cycles:
            self.say('REPORT cycle %04d-%02d-%02d %s', *cycles[-1].date, KIND_NAMES[cycles[-1].kind])
        else:
            self.say('REPORT cycle none')
        for (issue, member), position in sorted(positions(records, orders).items()):
            if position != 0:
                self.say('POS %s %04d %20d', issue.decode(), member, position)
        self.say_pools()
        self.say_balances()
        self.say('END')

    def say_pools(self):
        book = self.book
        records, orders = book.clear.records, book.orders()
        moved = confirmed(records)
        out = {}
        for order in orders:
            asked = order.asked if order.kind == 'DELIVERY' and order.number not in moved else 0
            out[order.issue] = out.get(order.issue, 0) + asked
        for issue in sorted(out):
            numbers = (book.free(issue), book.lent(issue), out[issue])
            if any(numbers):
                self.say('POOL %s free %d lent %d out %d', issue.decode(), *numbers)

    def say_balances(self):
        for issue, account in self.book.accounts():
            shares = self.book.balance(account, issue)
            if shares != 0:
                self.say('BAL %s %04d %20d', issue.decode(), account, shares)


def good_openings(rows, say):
    """The openings that hold, by issue and member; a line for each that doesn't."""
    openings, sums = {}, {}
    for number, row in enumerate(rows, 1):
        try:
            member, issue, shares = read_opening(row)
            if (issue, member) in openings:
                raise Fault('Double')
            if sums.get(issue, 0) + shares > SHARES_LIMIT:
                raise Fault('IssueSum')
            openings[issue, member] = shares
            sums[issue] = sums.get(issue, 0) + shares
        except Fault as fault:
            say('opening row %d fault %s' % (number, fault))
    return openings


def run_of(text, shake=None, journal=False, clear=(), depot=()):
    """The run of an input, which is over."""
    if len(text) > INPUT_LIMIT:
        raise BadInput('input too long')
    opening_text, trade_text, script = split_sections(text)
    opening_rows = rows_under(b'account,cusip,shares', opening_text)
    rows = rows_under(b'trade,settle,buyer,seller,cusip,quantity', trade_text)
    lines = []
    run = Run(rows, good_openings(opening_rows, lines.append), script, shake, journal, clear, depot)
    run.out = lines
    run.run()
    return run


def answer(text, shake=None, journal=False):
    """(exit status, standard output, standard error) of a run with this input.

    With a number it is shaken; with `journal` it is over journal files that are empty.
    """
    try:
        run = run_of(text, shake, journal)
    except BadInput as fault:
        return 2, b'', b'cnsd: %s\n' % str(fault).encode()
    return 0, ''.join(line + '\n' for line in run.out).encode(), b''


def answer_cusip(text):
    """The same of `cnsd cusip` with this text."""
    try:
        read_cusip(text)
    except Fault as fault:
        return 1, b'%s\n' % str(fault).encode(), b''
    return 0, b'ok\n', b''


def is_shake(text):
    try:
        return read_number(text, 0, SHAKE_LIMIT) >= 0
    except Fault:
        return False


def main(words):
    if words in ([], [b'run']):
        status, out, err = answer(sys.stdin.buffer.read())
    elif words[:2] == [b'run', b'--shake'] and len(words) == 3 and is_shake(words[2]):
        status, out, err = answer(sys.stdin.buffer.read(), int(words[2]))
    elif words[:2] == [b'cusip', b'--'] and len(words) == 3:
        status, out, err = answer_cusip(words[2])
    elif words[:1] == [b'cusip'] and len(words) == 2 and not words[1].startswith(b'-'):
        status, out, err = answer_cusip(words[1])
    else:
        status, out, err = 1, b'', b'cnsd_oracle: only `run`, `run --shake NUMBER`, `cusip TEXT` and `cusip -- TEXT`\n'
    sys.stdout.buffer.write(out)
    sys.stdout.buffer.flush()
    sys.stderr.buffer.write(err)
    return status


if __name__ == '__main__':
    sys.exit(main([os.fsencode(word) for word in sys.argv[1:]]))
