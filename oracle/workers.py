#!/usr/bin/env python3
"""Compares a program that allocates by workers with an oracle that is guided by what the program tells.

    workers.py PROGRAM --seed N --count K [--from F] [--workers 1,2,3-64] [--times T] [--no-shaken]
    workers.py PROGRAM --seed N --count K [--from F] --plain [--no-shaken]

Three things are left open where workers draw tickets: the order of the members within a group of a plan; how
many members of it had a ticket when a line sealed the lot; and how much of what the plan asks a look at the lot
saw meanwhile. There the oracle reads the program's next line, tests that it is lawful, and goes on from it. Any
other line, the exit status and standard error have to be the oracle's own, to the byte.

Some inputs are made as fuzz.py makes texts for `run`, some have more lines beside allocations that name their
lot, and some have up to 2,000 members in a plan, so that workers and lines meet. Two in five are run with
`--shake` and a random number; with `--no-shaken` none is. Input number i of a seed is
always the same; what the workers make of it is not, so each is run T times (1) with each number of workers, where
3-64 stands for one of these numbers, another one for each input. A
run that has not ended after 60 seconds is a difference. At the first difference the input is told, and left in
the file workers-difference.in of the working folder. Without one it is told how often each thing that is left
open was met.

With --plain the program is run without `--workers`: one thread's choices are lawful, so this tests the oracle.

The last line is `N passed, M failed`, where N are the inputs without a difference. The exit status is 0 where M
is 0 and N is not.
"""
import collections
import os
import random
import re
import sys

sys.path.insert(0, os.path.dirname(os.path.abspath(__file__)))
import cnsd_oracle  # noqa: E402
import fuzz  # noqa: E402

OPENINGS, TRADES = b'account,cusip,shares', b'trade,settle,buyer,seller,cusip,quantity'
TICKET = re.compile(r'ticket ([0-9]{4}) ')
LOOK = re.compile(r'look poured [0-9]+ asked ([0-9]{1,30}) ')
WORKERS = '1,2,3-64'        # how many workers there are, where the command line does not say
LAWFUL_TOLD = 8             # how many lawful lines are told at a difference
AROUND = 12                 # how many lines before it


# ---- The guided oracle.

class Differs(Exception):
    """Something of a run that is not lawful: what it is, the place of its line or None, and what were lawful."""

    def __init__(self, what, place, lawful):
        super().__init__(what)
        self.what, self.place, self.lawful = what, place, lawful


class Guided(cnsd_oracle.Run):
    """A run that reads what is left open from the lines that a program told."""

    def __init__(self, rows, openings, script, told, workers, shake):
        super().__init__(rows, openings, script, shake)
        self.told = told
        self.workers = workers
        self.seen = {}                                        # the shares asked that were seen last, by busy lot
        self.met = collections.Counter()

    def ahead(self):
        """The program's next line, or None."""
        return self.told[len(self.out)] if len(self.out) < len(self.told) else None

    def number_ahead(self, pattern):
        """The number that the program's next line has where the pattern has one, or None."""
        found = pattern.match(self.ahead() or '')
        return int(found.group(1)) if found else None

    def take(self, lawful):
        """The program's next line, which has to be one of these."""
        if self.ahead() not in lawful:
            raise Differs('standard output', len(self.out), lawful)
        self.out.append(self.ahead())
        return self.out[-1]

    def say(self, text, *given):
        self.take([text % given])

    def LOOK(self, number):
        if not self.busy(number) or self.book.lots[number - 1].ended:
            super().LOOK(number)
            return
        lot = self.book.lots[number - 1]
        least, most = self.seen.get(number, 0), sum(one.asked for one in lot.plan)
        asked = self.number_ahead(LOOK)
        line = 'look poured %d asked %s sealed %s' % (lot.poured, '%s', 'yes' if lot.sealed else 'no')
        if asked is None or not least <= asked <= most:
            raise Differs('standard output', len(self.out), [line % ('A, with A from %d to %d' % (least, most))])
        self.say(line, asked)
        self.seen[number] = asked
        self.met['look at a busy lot: %s' % ('nothing to ask' if most == 0 else part(asked, most))] += 1

    def serve(self, number):
        """The tickets as the program tells them, and the close."""
        lot = self.book.lots[number - 1]
        if lot.ended:
            self.serve_ended(lot)
            return
        sealed, lot.sealed = lot.sealed, False
        for group in sorted({one.group for one in lot.plan}):
            if not self.draw(lot, group, sealed):
                break
        lot.sealed = sealed
        self.count(lot)
        self.CLOSE(number)

    def draw(self, lot, group, sealed):
        """The tickets of a group in any order; answers whether all were drawn, as they are but for a seal."""
        left = {one.member: one.asked for one in lot.plan if one.group == group}
        end = sum(ticket.asked for ticket in lot.tickets)
        while left:
            member = self.number_ahead(TICKET)
            if member not in left:
                each = ['ticket %04d start %d asked %d' % (one, end, asked) for one, asked in left.items()]
                self.take(['reserve refused Sealed'] * sealed + each)
                return False
            ticket = cnsd_oracle.Ticket(member, end, left.pop(member))
            self.say('ticket %04d start %d asked %d', *ticket)
            lot.tickets.append(ticket)
            end += ticket.asked
        return True

    def serve_ended(self, lot):
        """What is told of a lot that a restart ended: what is entered first is refused."""
        self.met['lot that a restart ended'] += 1
        if not lot.plan:
            self.say('%s refused StaleLot', 'seal' if lot.sealed and self.workers else 'close')
            return
        # Perhaps the seal left no ticket to enter.
        line = self.take(['reserve refused StaleLot'] + ['reserve refused Sealed'] * lot.sealed)
        if line == 'reserve refused Sealed':
            self.met['lot that a restart ended: without a ticket'] += 1
            self.say('seal refused StaleLot')

    def count(self, lot):
        """Counts what the tickets of a lot came to."""
        order = [ticket.member for ticket in lot.tickets]
        planned = [one.member for one in lot.plan]
        self.met['allocation'] += 1
        if order != planned[:len(order)]:
            self.met['tickets in an order other than that of one thread'] += 1
        if self.workers and turns(lot.plan, order, self.workers) >= self.workers:
            self.met['tickets of the workers among one another'] += 1
        if lot.sealed and planned:
            self.met['seal beside an allocation: %s' % part(len(order), len(planned))] += 1


def part(some, whole):
    return 'none' if some == 0 else 'some' if some < whole else 'all'


def turns(plan, order, workers):
    """How often the tickets go over from one worker to another, in the group where they do so most.

    Each is taken to draw for one in so many members of a group; nothing is tested by this.
    """
    side, groups = {}, collections.Counter()
    for one in plan:
        side[one.member] = (one.group, groups[one.group] % workers)
        groups[one.group] += 1
    changes = collections.Counter()
    for before, after in zip(order, order[1:]):
        if side[before][0] == side[after][0] and side[before] != side[after]:
            changes[side[after][0]] += 1
    return max(changes.values(), default=0)


def guided(text, told, workers, shake):
    """The oracle's exit status, standard output and standard error, guided by these lines; and what it met."""
    try:
        opening_text, trade_text, script = cnsd_oracle.split_sections(text)
        opening_rows = cnsd_oracle.rows_under(OPENINGS, opening_text)
        rows = cnsd_oracle.rows_under(TRADES, trade_text)
    except cnsd_oracle.BadInput:
        return cnsd_oracle.answer(text), collections.Counter({'input that is none': 1})
    faults = []
    openings = cnsd_oracle.good_openings(opening_rows, faults.append)
    run = Guided(rows, openings, script, told, workers, shake)
    for line in faults:
        run.say('%s', line)
    run.run()
    return (0, ''.join(line + '\n' for line in run.out).encode('latin-1'), b''), run.met


def judge(text, got, workers, shake=None):
    """What was met in a run, where all of it is lawful."""
    if not isinstance(got[0], int):                           # it did not end, or did not begin
        raise Differs(got[0], None, [])
    told = got[1].decode('latin-1').split('\n')
    want, met = guided(text, told[:-1], workers, shake)
    for what, wanted, written in zip(('exit status', 'standard output', 'standard error'), want, got):
        if wanted != written:
            place = wanted.count(b'\n') if what == 'standard output' else None
            raise Differs(what, place, ['nothing more'] if place is not None else [repr(wanted)])
    return met


# ---- Inputs.

class Beside(fuzz.Maker):
    """Makes an input as fuzz.py does, with more lines beside allocations, most of which name the lot."""

    def __init__(self, rng, shake=None):
        super().__init__(rng, shake)
        self.market = True
        self.members = rng.sample([1, 2, 3, 4, 5, 6, 7, 8, 12, 99, 345, 2000, 9998, 9999], rng.randint(4, 12))
        self.sellers = self.members[:rng.choice([1, 1, 2])]
        self.issues = self.issues[:2]
        self.row_fault = self.fault = rng.choice([0, 0, 0.01])
        self.line_fault = rng.choice([0, 0, 0.05])

    def beside(self, number):
        """A line that runs beside the lot of this number."""
        kinds = [b'LOOK'] * 5 + [b'POUR'] * 3 + [b'RESERVE'] * 3 + [b'SEAL', b'CLOSE', b'PUMP', b'PUMP', b'TAKE']
        kinds += [b'LOT', b'ALLOCATE', b'BESIDE', b'CYCLE', b'PRIORITY', b'EXEMPT', b'SEND', b'ORDER', b'REPLY']
        kinds += [b'REPORT', b'DEPOSIT', b'WITHDRAW'] + [b'FAIL', b'RESTART', b'RESTART'] * self.chance(0.15)
        line = self.command(self.rng.choice(kinds))
        words = line.split(b' ')
        if words[0] in (b'RESERVE', b'LOOK', b'POUR', b'SEAL', b'CLOSE') and self.chance(0.9):
            line = b' '.join([words[0], number] + words[2:])
        return self.spoilt(line) if self.chance(self.fault) else line

    def lot_story(self):
        """An allocation with lines beside it and some behind it."""
        issue = self.lot_issue()
        number = b'%d' % (len(self.book.lots) + 1)
        lines = [b'PRIORITY %d %s ON' % (one.member, issue) for one in self.book.plan(issue) if self.chance(0.2)]
        inner = [self.beside(number) for _ in range(self.rng.choice([0, 1, 2, 4, 8, 12]))]
        if inner and self.chance(0.4):
            inner[self.rng.randrange(len(inner))] = b'SEAL ' + number
        if self.chance(0.3):
            lines.append(self.rng.choice([b'FAIL CLEAR KEEP', b'FAIL CLEAR DROP', self.command()]))
        lines += [b'BESIDE %s %d' % (issue, len(inner) if self.chance(0.9) else len(inner) + 1)] + inner
        return lines + [self.rng.choice([b'LOOK ', b'SEAL ', b'CLOSE ']) + number] * self.rng.choice([0, 1])

    def lines(self):
        self.fault = self.line_fault
        lines = self.start()
        for _ in range(self.rng.randint(1, 5)):
            self.look_at(lines)
            lines += self.lot_story()
            self.look_at(lines)
            lines += [self.command() for _ in range(self.rng.choice([0, 0, 1, 2]))]
            lines += [b'RESTART CLEAR'] if self.book.clear.down and self.chance(0.7) else []
        return lines + [b'REPORT']


class Crowd:
    """Makes an input with many longs in an issue, and allocations of it with lines beside them.

    Few of the shares are there, so that most of the longs are in the next plan too.
    """

    def __init__(self, rng):
        self.rng = rng
        self.issue, self.other = rng.sample(fuzz.ISSUES, 2)
        self.count = rng.choice([10, 40, 150, 500, 1000, 2000])
        self.longs = sorted(rng.sample(range(3, 9999), self.count))
        self.lots = 0

    def rows(self):
        """Openings of two sellers, and trades of two days."""
        rng = self.rng
        openings = [b'%d,%s,%d' % (seller, issue, rng.choice([0, 7, 50, 300, self.count]))
                    for seller in (1, 2) for issue in (self.issue, self.other)]
        second, most = rng.random() * rng.choice([0, 1]), rng.choice([1, 5, 1000])
        trades = [b'L%d,2025-03-%s,%d,%d,%s,%d' % (member, b'04' if rng.random() < second else b'03', member,
                                                   rng.choice([1, 2]), self.issue, rng.randint(1, most))
                  for member in self.longs]
        trades += [b'M%d,2025-03-03,%d,1,%s,10' % (member, member, self.other) for member in self.longs[:5]]
        return openings, trades

    def beside(self, number):
        """A line that runs beside the lot of this number."""
        rng = self.rng
        member = rng.choice(self.longs)
        kind = rng.random()
        if kind < 0.85:
            return rng.choice([b'LOOK %d', b'LOOK %d', b'LOOK %d', b'POUR %d', b'CLOSE %d']) % number
        if kind < 0.95:
            return b'RESERVE %d %d' % (number, member)
        packet = rng.randint(1, 4)
        return rng.choice([b'SEND %d' % packet, b'ORDER %d' % packet, b'REPLY %d' % packet, b'REPORT', b'TAKE 1', b'# -',
                           b'PRIORITY %d %s ON' % (member, self.issue), b'LOT ' + self.issue, b'ALLOCATE ' + self.issue,
                           b'ALLOCATE ' + self.other, b'LOOK %d' % (number + 1), b'CYCLE NIGHT 2025-03-09', b'NOTHING'])

    def allocation(self):
        """An allocation with lines beside it, or by itself."""
        rng = self.rng
        self.lots += 1
        if rng.random() < 0.2:
            return [b'ALLOCATE ' + self.issue]
        inner = [self.beside(self.lots) for _ in range(rng.choice([0, 1, 5, 20, 60, 150, 300]))]
        if rng.random() < 0.6:
            inner.insert(rng.randint(0, len(inner)), b'SEAL %d' % self.lots)
        if rng.random() < 0.1:
            inner.insert(rng.randint(0, len(inner)), b'RESTART CLEAR')
        counted = [line for line in inner if not line.startswith(b'#')]
        fails = [rng.choice([b'FAIL CLEAR KEEP', b'FAIL CLEAR DROP'])] * (rng.random() < 0.1)
        behind = [b'LOOK %d' % self.lots, b'CLOSE %d' % self.lots, b'RESTART CLEAR'] * len(fails)
        own = self.lots
        self.lots += len([line for line in inner if line == b'ALLOCATE ' + self.other])
        return fails + [b'BESIDE %s %d' % (self.issue, len(counted))] + inner + behind + [b'LOOK %d' % own]

    def text(self):
        rng = self.rng
        openings, trades = self.rows()
        lines = [b'TAKE %d' % (len(trades) - rng.choice([0, 0, 4])), b'CYCLE NIGHT 2025-03-03']
        if rng.random() < 0.7:
            lines.append(b'CYCLE DAY 2025-03-04')
        lines += [b'SEND %d' % number for number in (1, 2, 3, 4)]
        lines += [b'%s %d' % (word, number) for number in (1, 2, 3, 4) for word in (b'ORDER', b'REPLY')
                  if rng.random() < 0.7]
        lines += [b'PRIORITY %d %s ON' % (member, self.issue)
                  for member in rng.sample(self.longs, rng.choice([0, 0, 3, self.count // 3]))]
        for _ in range(rng.randint(1, 4)):
            lines += self.allocation()
        parts = [b'[openings]', OPENINGS] + openings + [b'[trades]', TRADES] + trades + [b'[script]'] + lines
        return b'\n'.join(parts + [b'REPORT', b''])


def make_input(seed, number, shaken):
    """A text, and the number that shakes its run or None."""
    how = random.Random('workers/%d/%d/how' % (seed, number))
    shake = fuzz.shake_number(how)
    if not (how.random() < 0.4 and shaken):
        shake = None
    rng = random.Random('workers/%d/%d' % (seed, number))
    make = rng.choice([fuzz.Maker, fuzz.Maker, Beside, Beside, Crowd])
    maker = Crowd(rng) if make is Crowd else make(rng, shake)
    return maker.text(), shake


# ---- Runs.

def tell(text, got, differs):
    """Tells the input, and the line that is not lawful with some lines before it."""
    print('---- input (%d bytes)' % len(text))
    print(fuzz.shown(text))
    print('---- the program: %s' % differs.what)
    if differs.place is not None:
        told = [fuzz.shown(line) for line in got[1].split(b'\n')]
        first = max(0, differs.place - AROUND)
        for place, line in enumerate(told[first:differs.place + 1], first):
            last = ' (the end)' if place == len(told) - 1 else ''
            print('%6d %s %s%s' % (place + 1, '>' if place == differs.place else ' ', line, last))
    if isinstance(got[0], int):
        print('---- exit status %d, standard error: %s' % (got[0], fuzz.shown(got[2][:2000])))
        print('---- lawful' + ('' if len(differs.lawful) <= LAWFUL_TOLD else ' (some of %d)' % len(differs.lawful)))
        for line in differs.lawful[:LAWFUL_TOLD]:
            print('         %s' % line)
    with open('workers-difference.in', 'wb') as out:
        out.write(text)
    print('left in %s' % os.path.abspath('workers-difference.in'))


def try_input(program, given, number, met):
    """Runs an input with each number of workers, and counts what was met; answers whether all was lawful."""
    text, shake = make_input(given.seed, number, given.shaken)
    how_many = random.Random('workers/%d/%d/how many' % (given.seed, number))
    for name, least, most in PLAIN if given.plain else given.workers:
        workers = how_many.randint(least, most)
        words = [b'run'] if given.plain else [b'run', b'--workers', b'%d' % workers]
        words += [] if shake is None else [b'--shake', b'%d' % shake]
        for _ in range(given.times):
            got = fuzz.run_program(program, fuzz.Input(words, text, None))
            try:
                found = judge(text, got, workers, shake)
            except Differs as differs:
                print('input %d of seed %d, by `%s`: program and oracle differ'
                      % (number, given.seed, b' '.join(words).decode()))
                tell(text, got, differs)
                print('again: workers.py %s --seed %d --from %d --count 1 --times 100%s%s'
                      % (given.program, given.seed, number, ' --plain' if given.plain else '',
                         '' if given.shaken else ' --no-shaken'))
                return False
            met['run that is shaken', name] += shake is not None
            for what, times in found.items():
                met[what, name] += times
    return True


def tell_met(met, columns):
    """A column of counts for each number of workers."""
    print(' '.join('%12s' % (name + ' workers') for name in columns))
    for what in sorted({what for what, _ in met}):
        print(' '.join('%12d' % met[what, name] for name in columns) + '  ' + what)


def read_workers(text):
    """Of each word its own text, and the least and the most workers that it stands for."""
    ends = [(word, word.split('-')) for word in text.split(',')]
    return [(word, int(end[0]), int(end[-1])) for word, end in ends]


PLAIN = read_workers('0')


def main():
    parser = fuzz.input_arguments(__doc__)
    parser.add_argument('--workers', type=read_workers, default=WORKERS)
    parser.add_argument('--times', type=int, default=1)
    parser.add_argument('--plain', action='store_true')
    given = parser.parse_args()
    program = fuzz.found_program(given.program)
    if program is None:
        return 1
    met = collections.Counter()
    for passed, number in enumerate(range(given.first, given.first + given.count)):
        if not try_input(program, given, number, met):
            print('%d passed, 1 failed' % passed)
            return 1
    tell_met(met, [name for name, _, _ in (PLAIN if given.plain else given.workers)])
    print('%d passed, 0 failed' % given.count)
    return 0 if given.count > 0 else 1


if __name__ == '__main__':
    sys.exit(main())
