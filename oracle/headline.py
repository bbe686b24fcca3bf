#!/usr/bin/env python3
"""Checks the headline on what a program tells: both books agree, whatever was lost, repeated or restarted.

    headline.py PROGRAM --seed N --count K [--from F] [--no-shaken]

Makes lawful inputs for `run` with lost, repeated and reordered packets, failures, restarts, lots, and members'
own deposits and withdrawals, and a REPORT after each line of the script. Of each input it reads the outcome lines
and the reports alone, and reckons by sums of its own what they have to be: which movements both nodes hold, each
packet, what each deposit and withdrawal is answered, each balance, each position, and the pool of each issue. The
inputs are made as fuzz.py makes them, so that they have something to do; what is checked has no rule of
cnsd_oracle.py. Two in five are run with `--shake` and a random number: of those cnsd_oracle.py gives the words,
which say what is sent or arrives before a pump. With `--no-shaken` none is.
Input number i of a seed is always the same.

At the end it is told what was met. The last line is `N passed, M failed`, where N are the inputs of which
all was as it has to be; the exit status is 0 where M is 0 and N is not.
"""
import collections
import csv
import io
import os
import random
import subprocess
import sys

sys.path.insert(0, os.path.dirname(os.path.abspath(__file__)))
import cnsd_oracle  # noqa: E402
from fuzz import Maker, found_program, input_arguments, shake_number  # noqa: E402

SECONDS = 60                # that a run may take
CNS = 0                     # the CNS account, through which each movement goes
MOST = 10 ** 18             # shares that an issue may have
# What no line says, since no order meets another one under its number, and no reply tells of another movement.
NEVER = [('order', 'Conflict'), ('reply', 'Conflict'), ('reply', 'TooMuch'), ('reply', 'UnknownMove')]

Order = collections.namedtuple('Order', 'kind member issue asked')
Trade = collections.namedtuple('Trade', 'day buyer seller issue quantity')
Own = collections.namedtuple('Own', 'sort member number issue shares')


class Broken(Exception):
    """A part of the headline that does not hold."""


def hold(part, claim, *seen):
    if not claim:
        raise Broken('%s: %s' % (part, ' '.join(str(one) for one in seen)))


# ---- Inputs.

def calm(rng, shake):
    """A maker of lawful rows and commands, where all rows can be read as they stand."""
    maker = Maker(rng, shake)
    maker.row_fault = maker.line_fault = maker.fault = maker.odd = 0
    return maker


def with_reports(lines):
    """The lines with a REPORT after each, and which line each of these reports follows.

    What is told of an allocation, after the lines beside it, has a report of its own.
    """
    lines = collections.deque(line for line in lines if line and not line.startswith(b'#') and line != b'REPORT')
    told, follows, left, beside = [], [], 0, []
    while lines:
        words = lines.popleft().split(b' ')
        if words[0] == b'BESIDE' and not left:
            left, beside = min(int(words[2]), len(lines)), words
            told += [b'BESIDE %s %d' % (words[1], 2 * left + 1), b'REPORT']
        else:
            told += [b' '.join(words), b'REPORT']
            left -= 1 if beside else 0
        follows.append(words)
        if beside and not left:
            told.append(b'REPORT')
            follows.append(beside)
            beside = []
    return told, [[word.decode() for word in words] for words in follows]


def with_losses(rng, lines):
    """The lines with packets between them that arrive late, again, or never, and commits that fail."""
    often, fails, told = rng.choice([0, 0.1, 0.3, 0.5]), rng.choice([0, 0, 0.1, 0.2]), []
    for line in lines:
        side = rng.choice([b'CLEAR', b'CLEAR', b'DEPOT']) if rng.random() < fails else None
        if side:
            told.append(b'FAIL %s %s' % (side, rng.choice([b'KEEP', b'DROP'])))
        told.append(line)
        while rng.random() < often:
            told.append(b'%s %d' % (rng.choice([b'SEND', b'ORDER', b'REPLY']), rng.choice([1, 1, 2, 2, 3, 4, 5, 7])))
        if side:
            told.append(b'RESTART ' + side)
    return told


HEADS = [b'account,cusip,shares', b'trade,settle,buyer,seller,cusip,quantity']


def make_input(seed, number, shaken):
    """What shakes an input, its text, its rows of openings and of trades, and the line that each report follows."""
    how = random.Random('headline/%d/%d/how' % (seed, number))
    shake = shake_number(how)
    if not (how.random() < 0.4 and shaken):
        shake = None
    maker = calm(random.Random('headline/%d/%d' % (seed, number)), shake)
    openings = maker.section(HEADS[0], maker.opening, maker.rng.choice([2, 5, 10]))
    trades = maker.section(HEADS[1], maker.trade, maker.rng.choice([5, 12, 25]))
    maker.trade_rows = cnsd_oracle.rows_under(HEADS[1], trades)
    maker.openings = cnsd_oracle.good_openings(cnsd_oracle.rows_under(HEADS[0], openings), lambda line: None)
    lines, follows = with_reports(with_losses(maker.rng, maker.lines()))
    text = b'[openings]\n' + openings + b'[trades]\n' + trades + b'[script]\n' + b''.join(line + b'\n' for line in lines)
    return shake, text, rows_of(openings), rows_of(trades), follows


def rows_of(section):
    return [row for row in csv.reader(io.StringIO(section.decode('latin-1'), newline='')) if row][1:]


# ---- What both nodes hold, as the lines tell it.

class Books:
    """The movements, trades and lots that the lines so far have told of."""

    def __init__(self, openings, trades):
        self.openings = openings
        self.opening = collections.Counter()
        for account, issue, shares in openings:
            self.opening[int(account), issue] += int(shares)
        self.trades = iter(trades)
        self.accepted, self.due = [], []
        self.exempt = {}
        self.orders = []                                      # by number
        self.executed = {}                                    # what was moved, by number
        self.owns = {}                                        # members' own instructions, by member and number
        self.confirmed = {}                                   # the same, as the clearing node has it
        self.order_packets, self.reply_packets = [], []       # the number; the number and what was moved
        self.lots = []                                        # by number: issue, poured, tickets, or None once ended
        self.records = collections.Counter()                  # how many each node has
        self.planned = {}                                     # by node: how its next commit fails
        self.undecided = {}                                   # by node: whether its last record stands, what it brings
        self.met = collections.Counter()

    # Sums.

    def moved(self, where, wanted):
        """What the movements of these moved, of the orders for which it is wanted."""
        return sum(moved for number, moved in where.items() if wanted(self.orders[number - 1]))

    def owned(self, issue, member=None):
        """What deposits brought, less what withdrawals took."""
        return sum(own.shares if own.sort == 'DEPOSIT' else -own.shares for own in self.owns.values()
                   if own.issue == issue and member in (None, own.member))

    def issue_sum(self, issue):
        """The openings of an issue, with its deposits, less its withdrawals."""
        return sum(shares for (_, where), shares in self.opening.items() if where == issue) + self.owned(issue)

    def balance(self, account, issue):
        """The opening, with what distinct movements and own instructions brought, less what they took."""
        if account == CNS:
            come, gone = 'COVER', 'DELIVERY'
        else:
            come, gone = 'DELIVERY', 'COVER'
        mine = (lambda order: order.issue == issue and account in (CNS, order.member))
        return (self.opening[account, issue] + self.owned(issue, account)
                + self.moved(self.executed, lambda order: mine(order) and order.kind == come)
                - self.moved(self.executed, lambda order: mine(order) and order.kind == gone))

    def position(self, member, issue, movements):
        """The netted trades, with confirmed covers and less confirmed deliveries."""
        bought = sum(one.quantity for one in self.due if (one.buyer, one.issue) == (member, issue))
        sold = sum(one.quantity for one in self.due if (one.seller, one.issue) == (member, issue))
        mine = (lambda order: (order.member, order.issue) == (member, issue))
        return (bought - sold + self.moved(movements, lambda order: mine(order) and order.kind == 'COVER')
                - self.moved(movements, lambda order: mine(order) and order.kind == 'DELIVERY'))

    def places(self):
        """Each issue and member that a due trade names."""
        return sorted({(one.issue, member) for one in self.due for member in (one.buyer, one.seller)})

    def issues(self):
        return sorted({one.issue for one in self.due} | {issue for _, issue in self.opening})

    def open_asked(self, kind, issue, member=None):
        """What unconfirmed orders ask for."""
        return sum(order.asked for number, order in enumerate(self.orders, 1)
                   if number not in self.confirmed and (order.kind, order.issue) == (kind, issue)
                   and member in (None, order.member))

    # What an event brings, at once or once its record is found to stand.

    def covers(self):
        """What is short of each member after a cycle, less open covers and what is exempt."""
        asked = []
        for issue, member in self.places():
            short = (-self.position(member, issue, self.confirmed) - self.open_asked('COVER', issue, member)
                     - self.exempt.get((member, issue), 0))
            asked += [Order('COVER', member, issue, short)] if short > 0 else []
        return asked

    def run_cycle(self, day):
        self.due = [one for one in self.accepted if one.day <= day]
        given = self.covers()
        self.orders += given
        return given

    def deliver(self, lot):
        """The shares poured into a lot go to its tickets, in their order."""
        issue, poured, tickets = lot
        given = [Order('DELIVERY', member, issue, min(asked, poured - start))
                 for member, start, asked in tickets if start < poured]
        self.orders += given
        return given

    def execute(self, number):
        """Moves the lesser of what is asked for and what the giver has."""
        order = self.orders[number - 1]
        giver = order.member if order.kind == 'COVER' else CNS
        self.executed[number] = min(order.asked, self.balance(giver, order.issue))

    def confirm(self, number, moved):
        self.confirmed[number] = moved

    def instruct(self, own):
        self.owns[own.member, own.number] = own

    def commit(self, node, change):
        self.records[node] += 1
        return change()

    def fail(self, node, change):
        """The commit failed as it was planned; what it brings waits for the restart."""
        hold('same', node in self.planned and node not in self.undecided, node, 'failed without a plan')
        self.undecided[node] = (self.planned.pop(node) == 'KEEP', change)

    # ---- The parts of the headline at one line.

    def same(self, number, moved):
        """An executed movement is of an order, moved what its giver had; a delivery all that it asks for."""
        hold('same', 1 <= number <= len(self.orders), 'no order has number', number)
        hold('same', self.executed.get(number) == moved, number, 'moved', moved, 'and not', self.executed.get(number))
        order = self.orders[number - 1]
        hold('same', moved <= order.asked, number, 'moved more than', order.asked)
        hold('same', order.kind == 'COVER' or moved == order.asked, 'delivery', number, 'moved', moved)

    def answer(self, own):
        """What an instruction is answered, or why it is refused."""
        if 'DEPOT' in self.undecided:
            return 'Down'
        held = self.owns.get((own.member, own.number))
        if held:
            return 'again' if held == own else 'Conflict'
        if own.sort == 'DEPOSIT' and self.issue_sum(own.issue) + own.shares > MOST:
            return 'IssueSum'
        if own.sort == 'WITHDRAW' and self.balance(own.member, own.issue) < own.shares:
            return 'TooFew'
        return 'Device' if 'DEPOT' in self.planned else 'done'

    def new_orders(self, given, told):
        """The orders that a line gives are those told after it, under the next numbers."""
        first = len(self.orders) - len(given) + 1
        wanted = ['order %d %s %04d %s %d' % ((first + at,) + order) for at, order in enumerate(given)]
        hold('same', told == wanted, 'orders', told, 'and not', wanted)

    # ---- The parts at a report.

    def check_report(self, lines):
        positions, pools, balances = {}, {}, {}
        for words in (line.split() for line in lines[1:-1]):
            if words[0] == 'POS':
                positions[words[1], int(words[2])] = int(words[3])
            elif words[0] == 'POOL':
                pools[words[1]] = (int(words[3]), int(words[5]), int(words[7]))
            else:
                balances[words[1], int(words[2])] = int(words[3])
        self.check_netted(positions)
        self.check_stock(balances)
        for issue in self.issues():
            self.check_pool(issue, positions, pools.get(issue, (0, 0, 0)))
        self.met['reports'] += 1

    def check_netted(self, positions):
        """Each position is the netted trades, with the confirmed movements as the depository moved them."""
        both = {number: self.executed.get(number) for number in self.confirmed}
        hold('same', both == self.confirmed, 'confirmed', self.confirmed, 'executed', both)
        wanted = {place: self.position(place[1], place[0], both) for place in self.places()}
        hold('netted', positions == {place: held for place, held in wanted.items() if held}, positions, wanted)

    def check_stock(self, balances):
        """Each balance is its opening, the distinct movements and own instructions; none is below 0.

        Those of an issue are together what was opened and what instructions brought, which is no more than it may have.
        """
        places = {(issue, account) for account, issue in self.opening}
        places |= {(own.issue, own.member) for own in self.owns.values()}
        for order in self.orders:
            places |= {(order.issue, order.member), (order.issue, CNS)}
        wanted = {place: self.balance(place[1], place[0]) for place in places}
        hold('stock', all(held >= 0 for held in wanted.values()), wanted)
        hold('stock', balances == {place: held for place, held in wanted.items() if held}, balances, wanted)
        for issue in {issue for issue, _ in places}:
            held = sum(shares for (where, _), shares in balances.items() if where == issue)
            hold('stock', held == self.issue_sum(issue) <= MOST, issue, held, self.issue_sum(issue))

    def check_pool(self, issue, positions, pool):
        """Longs are shorts and free, lent and out together; no share is lost; deliveries are backed."""
        held = [position for (where, _), position in positions.items() if where == issue]
        hold('pool', sum(held) == sum(pool), issue, 'longs less shorts', sum(held), 'pool', pool)
        lent = sum(lot[1] for lot in self.lots if lot and lot[0] == issue)
        out = self.open_asked('DELIVERY', issue)
        hold('pool', pool[1:] == (lent, out), issue, 'lent and out', pool[1:], 'and not', (lent, out))
        of = (lambda kind: lambda order: (order.kind, order.issue) == (kind, issue))
        covered, delivered = self.moved(self.confirmed, of('COVER')), self.moved(self.confirmed, of('DELIVERY'))
        hold('pool', sum(pool) + delivered == covered, issue, 'pool', pool, 'delivered', delivered, 'covered', covered)
        brought = self.moved(self.executed, of('COVER'))
        hold('backed', delivered + out <= brought, issue, delivered, out, brought)


# ---- Lines.

class Reader:
    """Reads the lines that one line of the script tells, and changes the books by them."""

    def __init__(self, books, shake):
        self.books = books
        self.words = None if shake is None else cnsd_oracle.Words(shake)
        self.command = []
        self.packet = 0                                       # of a pump: the last one that was put on a link
        self.drawn = {}                                       # the lot of an allocation, by the command's name
        self.arrived = {'ORDER': [], 'REPLY': []}             # the packets, as they arrive

    def of_packet(self, packets, name):
        """What the packet holds that the command lets arrive, or the last one of a pump."""
        number = int(self.command[1]) if self.command[0] == name else self.packet
        hold('link', 1 <= number <= len(packets), 'packet', number, 'was never put')
        arrived = self.arrived[name]
        if number in arrived:
            self.met('packets that arrive again')
        elif arrived and number < max(arrived):
            self.met('packets that arrive late')
        arrived.append(number)
        return packets[number - 1]

    def count_lost(self):
        for name, packets in (('ORDER', self.books.order_packets), ('REPLY', self.books.reply_packets)):
            self.books.met['packets lost'] += len(packets) - len(set(self.arrived[name]))

    def drawn_command(self):
        """The command that stands for the next draw, or None."""
        word = self.words.next()
        name, things = [('SEND', self.books.orders), ('ORDER', self.books.order_packets),
                        ('REPLY', self.books.reply_packets), ('', [])][word % 4]
        return [name, str(word // 4 % len(things) + 1)] if things else None

    def read(self, command, lines):
        """Reads what a command told; before a pump each draw that comes to an event told a line."""
        lines = collections.deque(lines)
        for _ in range(cnsd_oracle.DRAWS if command[0] == 'PUMP' and self.words else 0):
            drawn = self.drawn_command()
            if drawn:
                hold('link', lines, 'no line of the draw', drawn)
                self.read_lines(drawn, collections.deque([lines.popleft()]))
                self.met('draws that come to an event')
        self.read_lines(command, lines)

    def read_lines(self, command, lines):
        self.command = command
        while lines:
            words = lines.popleft().split(' ')
            orders = []
            while lines and lines[0].startswith('order ') and lines[0].split(' ')[1].isdigit():
                orders.append(lines.popleft())
            name = words[0] if words[1:2] != ['refused'] and words[2:3] != ['refused'] else 'refused'
            getattr(self, 'read_' + name)(words, orders)

    def met(self, what):
        self.books.met[what] += 1

    def read_line(self, words, orders):
        self.met('bad commands')

    def read_opening(self, words, orders):
        account, issue, shares = self.books.openings[int(words[2]) - 1]
        self.books.opening[int(account), issue] -= int(shares)

    def read_row(self, words, orders):
        next(self.books.trades)

    def next_trade(self):
        row = next(self.books.trades)
        return Trade(row[1], int(row[2]), int(row[3]), row[4], int(row[5]))

    def read_trade(self, words, orders):
        trade = self.next_trade()
        self.books.commit('CLEAR', lambda: self.books.accepted.append(trade))
        self.met('trades')

    def read_exempt(self, words, orders):
        self.books.commit('CLEAR', self.setting())

    def read_priority(self, words, orders):
        self.books.commit('CLEAR', self.setting())

    def setting(self):
        words = self.command
        if words[0] != 'EXEMPT':
            return lambda: None
        return lambda: self.books.exempt.update({(int(words[1]), words[2]): int(words[3])})

    def read_cycle(self, words, orders):
        before = len(self.books.due)
        self.books.new_orders(self.books.commit('CLEAR', lambda: self.books.run_cycle(words[1])), orders)
        hold('netted', int(words[4]) == len(self.books.due) - before, words)
        self.met('cycles')

    def read_lot(self, words, orders):
        self.books.lots.append((self.command[1], int(words[3]), []))
        hold('pool', int(words[1]) == len(self.books.lots), 'lot', words[1])
        self.drawn[self.command[0]] = len(self.books.lots)

    def lot(self):
        """The number of the lot that the command names, or that it opened."""
        return int(self.command[1]) if self.command[0] in ('RESERVE', 'POUR', 'CLOSE') else self.drawn[self.command[0]]

    def read_pour(self, words, orders):
        issue, poured, tickets = self.books.lots[self.lot() - 1]
        self.books.lots[self.lot() - 1] = (issue, poured + int(words[1]), tickets)

    def read_ticket(self, words, orders):
        self.books.lots[self.lot() - 1][2].append((int(words[1]), int(words[3]), int(words[5])))

    def read_look(self, words, orders):
        pass

    def read_seal(self, words, orders):
        pass

    def read_close(self, words, orders):
        number = self.lot()
        lot, self.books.lots[number - 1] = self.books.lots[number - 1], None
        given = self.books.commit('CLEAR', lambda: self.books.deliver(lot))
        hold('pool', int(words[2]) == sum(order.asked for order in given), 'granted', words[2], given)
        self.books.new_orders(given, orders)
        self.met('lots closed with orders' if given else 'lots closed')

    def read_send(self, words, orders):
        number = int(words[1])
        hold('link', 1 <= number <= len(self.books.orders), 'send', number)
        self.books.order_packets.append(number)
        self.packet = len(self.books.order_packets)
        hold('link', int(words[3]) == self.packet, 'packet', words[3])
        self.met('orders sent')

    def told_reply(self, words):
        """The number and the shares of a line of the depository, whose reply is the next packet."""
        number, moved = int(words[1]), int(words[3])
        hold('link', self.of_packet(self.books.order_packets, 'ORDER') == number, words)
        self.books.reply_packets.append((number, moved))
        self.packet = len(self.books.reply_packets)
        hold('link', int(words[5]) == self.packet, 'packet', words[5])
        return number, moved

    def read_exec(self, words, orders):
        number, moved = self.told_reply(words)
        hold('stock', number not in self.books.executed, number, 'was executed twice')
        self.books.commit('DEPOT', lambda: self.books.execute(number))
        self.books.same(number, moved)
        self.met('executed')

    def read_again(self, words, orders):
        self.books.same(*self.told_reply(words))
        self.met('repeats at the depository')

    def read_confirm(self, words, orders):
        number, moved = int(words[1]), int(words[3])
        hold('link', self.of_packet(self.books.reply_packets, 'REPLY') == (number, moved), words)
        self.books.same(number, moved)
        hold('same', (number in self.books.confirmed) == (words[4] == 'again'), words)
        if words[4] == 'done':
            self.books.commit('CLEAR', lambda: self.books.confirm(number, moved))
        self.met('confirmed' if words[4] == 'done' else 'repeats at the clearing node')

    def read_own(self, words, orders):
        """What an instruction is answered, also where it is refused."""
        sort, member, number, issue, shares = self.command
        own = Own(sort, int(member), int(number), issue, int(shares))
        answer = self.books.answer(own)
        done = ['%04d' % own.member, 'number', str(own.number), answer]
        wanted = [sort.lower()] + (done if answer in ('done', 'again') else ['refused', answer])
        hold('stock', words == wanted, words, 'and not', wanted)
        if answer == 'done':
            self.books.commit('DEPOT', lambda: self.books.instruct(own))
        elif answer == 'Device':
            self.books.fail('DEPOT', lambda: self.books.instruct(own))
        self.met('%s %s' % (wanted[0], answer))

    read_deposit = read_withdraw = read_own

    def read_fail(self, words, orders):
        self.books.planned[self.command[1]] = self.command[2]
        self.met('failures planned')

    def read_restart(self, words, orders):
        """The node has the records that it had, and where one was kept the one that was undecided."""
        books, node = self.books, words[1]
        if node == 'CLEAR':
            books.lots = [None] * len(books.lots)
        stands, change = books.undecided.pop(node, (False, None))
        hold('same', words[5] == ('yes' if stands else 'no'), words)
        if stands:
            books.commit(node, change)
        hold('same', int(words[3]) == books.records[node], words, 'and not', books.records[node])
        self.met('restarts' if change is None else 'restarts with the undecided record' if stands
                 else 'restarts without the undecided record')

    def read_refused(self, words, orders):
        books = self.books
        if words[0] in ('deposit', 'withdraw'):
            self.read_own(words, orders)
            return
        hold('same', (words[0], words[-1]) not in NEVER, words)
        if words[0] == 'trade':
            trade = self.next_trade()
        self.met('refused ' + words[-1])
        if words[-1] != 'Device':
            return
        if words[0] == 'trade':
            books.fail('CLEAR', lambda: books.accepted.append(trade))
        elif words[0] in ('exempt', 'priority'):
            books.fail('CLEAR', self.setting())
        elif words[0] == 'cycle':
            day = self.command[2]
            books.fail('CLEAR', lambda: books.run_cycle(day))
        elif words[0] == 'close':
            lot = books.lots[self.lot() - 1]
            books.fail('CLEAR', lambda: books.deliver(lot))
        elif words[0] == 'reply':
            number, moved = self.of_packet(books.reply_packets, 'REPLY')
            books.fail('CLEAR', lambda: books.confirm(number, moved))
        else:
            number = self.of_packet(books.order_packets, 'ORDER')
            books.fail('DEPOT', lambda: books.execute(number))


# ---- Runs.

def check(out, openings, trades, follows, shake):
    """Reads all that a run tells, and answers what was met."""
    books = Books(openings, trades)
    reader = Reader(books, shake)
    lines = collections.deque(out.decode('ascii').splitlines())
    for command in follows:
        told, report = [], []
        while lines and not lines[0].startswith('REPORT '):
            told.append(lines.popleft())
        while not report or report[-1] != 'END':
            hold('report', lines, 'no report after', command)
            report.append(lines.popleft())
        reader.read(command, told)
        books.check_report(report)
    hold('report', not lines, 'more lines', list(lines)[:3])
    reader.count_lost()
    return books.met


def try_input(program, seed, number, shaken):
    """What was met in an input, or None where a part of the headline does not hold of it."""
    shake, text, openings, trades, follows = make_input(seed, number, shaken)
    words = ['run'] if shake is None else ['run', '--shake', str(shake)]
    run = subprocess.run([program] + words, input=text, capture_output=True, timeout=SECONDS)
    try:
        hold('status', run.returncode == 0, run.returncode, run.stderr)
        return check(run.stdout, openings, trades, follows, shake)
    except Exception as broken:
        print('FAIL input %d of seed %d, by `%s`: %s: %s' % (number, seed, ' '.join(words), type(broken).__name__,
                                                             broken))
        print(text.decode('latin-1'))
        print(run.stdout.decode('latin-1'), flush=True)
        return None


def main():
    asked = input_arguments(__doc__).parse_args()
    program = found_program(asked.program)
    if program is None:
        return 1
    passed, failed, met = 0, 0, collections.Counter()
    for number in range(asked.first, asked.first + asked.count):
        found = try_input(program, asked.seed, number, asked.shaken)
        if found is None:
            failed += 1
        else:
            passed, met = passed + 1, met + found
    for what, count in sorted(met.items()):
        print('%9d  %s' % (count, what))
    print('%d passed, %d failed' % (passed, failed))
    return 1 if failed or not passed else 0


if __name__ == '__main__':
    sys.exit(main())
