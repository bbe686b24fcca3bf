#!/usr/bin/env python3
"""Compares a program with the oracle on random inputs.

    fuzz.py PROGRAM --seed N --count K [--from F] [--no-shrink] [--no-shaken]
    fuzz.py PROGRAM --seed N --limits

Most inputs are texts for `run`; one in twelve is a text for `cusip`, one in twenty another
command line, and one in two hundred has about as many bytes as an input may have. Two in
five of the texts for `run` are run with `--shake` and a random number, and one in five over
journal files in a new folder; with `--no-shaken` none is shaken, for a program that has no
`--shake` yet, and all other inputs are the same. Input
number i of a seed is always the same, so a difference is found again with `--seed N
--from i --count 1`. At the first difference the input is told in full, then with as many
lines left out as still make a difference; that smaller one is left in the file
fuzz-difference.in of the working folder. Without a difference it is told how often each
kind of line was met.

With --limits there are three inputs: one of a million trades, one of a million orders, and
one of a million lots, with random lines where the next is one too many.

The last line is `N passed, M failed`, where N are the inputs without a difference. The exit
status is 0 where M is 0 and N is not.
"""
import argparse
import collections
import difflib
import os
import random
import shutil
import subprocess
import sys
import tempfile
import time

sys.path.insert(0, os.path.dirname(os.path.abspath(__file__)))
import cnsd_oracle  # noqa: E402

ISSUES = [b'037833100', b'17275R102', b'594918104', b'12345*AA7', b'12345@AA5', b'#12345673']
BAD_ISSUES = [b'037833101', b'03783310', b'0378331000', b'03783a100', b'03783310A', b'', b'594918140', b'#12345670',
              b' 37833100', b'03783310\xff', b'0378\x0033100', b'12345*AA#']
DATES = [b'2025-03-03', b'2025-03-04', b'2025-03-05', b'2025-03-06', b'2025-03-07']
RARE_DATES = [b'1900-01-01', b'2199-12-31', b'2024-02-29', b'2000-02-29', b'2025-12-31']
BAD_DATES = [b'2025-02-29', b'1900-02-29', b'2100-02-29', b'1899-12-31', b'2200-01-01', b'2025-3-4', b'2025-13-01',
             b'2025-00-01', b'2025-01-00', b'2025-04-31', b'2025-03-04 ', b' 2025-03-04', b'20250304', b'2025/03/04',
             b'+025-03-04', b'-001-03-04', b'02025-03-04', b'', b'today', b'2025-03-0x', b'2025-03-32',
             b'2025-03-04T00:00']
NOT_NUMBERS = [b'', b'x', b'1x', b'-1', b'+1', b' 1', b'1 ', b'1.0', b'1e3', b'0x1', b'1,0', b'\xd9\xa1',
               b'99999999999999999999999x']
HUGE = [b'18446744073709551615', b'18446744073709551616', b'18446744073709551617', b'99999999999999999999999999',
        b'1' + b'0' * 60]
MARK = b'\xef\xbb\xbf'
SECONDS = 60                # that a run may take
LIMIT_SECONDS = 600         # the same, at the limits
LONGEST_TOLD = 1000000      # bytes of a text that is told in full
SHAKEN = True               # whether inputs are shaken, where the command line does not say
FOLDER = b'{journal}'       # a word of a command line that stands for a new folder


def own_line(own):
    """The line that gives a member's own instruction."""
    return b'%s %d %d %s %d' % (own.sort.encode(), own.member, own.number, own.issue, own.shares)


class Maker:
    """Makes one input, which is shaken by this number where there is one, and run over journal files or not."""

    def __init__(self, rng, shake=None, journal=False):
        self.rng = rng
        self.shake, self.journal = shake, journal
        self.members = rng.sample([1, 2, 3, 4, 12, 345, 9999], rng.randint(2, 5))
        self.issues = rng.sample(ISSUES, rng.choice([1, 1, 1, 2, 3, 6]))
        self.row_fault = rng.choice([0, 0, 0, 0.02, 0.1, 0.4])  # how often a field or row is made bad
        self.line_fault = rng.choice([0, 0, 0, 0.02, 0.1, 0.4])  # how often a line or word of the script is
        self.fault = self.row_fault
        self.odd = rng.choice([0, 0, 0.02, 0.2])              # how often csv is written in an odd way
        # A market: few members sell what they hold to the others, in one or two issues.
        self.market = rng.random() < 0.5
        if self.market:
            self.members = rng.sample([1, 2, 3, 4, 5, 12, 345, 9999], rng.randint(4, 8))
            self.sellers = self.members[:rng.choice([1, 1, 2])]
            self.issues = self.issues[:rng.choice([1, 1, 2])]
            self.row_fault = self.fault = rng.choice([0, 0, 0.01])
        self.rows = []
        self.day = 0                                          # the next cycle, in half days
        self.trade_rows, self.openings = [], {}
        self.book = None                                      # where the script so far has led, as the oracle sees it

    def chance(self, share):
        return self.rng.random() < share

    def zeros(self, digits):
        return b'0' * self.rng.choice([1, 2, 3, 30]) + digits if self.chance(0.05) else digits

    # Values, good and bad.

    def member(self):
        if self.chance(self.fault):
            return self.rng.choice(NOT_NUMBERS + HUGE + [b'0', b'10000', b'000'])
        return self.zeros(b'%d' % self.rng.choice(self.members))

    def issue(self):
        if self.chance(self.fault):
            return self.rng.choice(BAD_ISSUES)
        return self.rng.choice(self.issues)

    def date(self):
        if self.chance(self.fault):
            return self.rng.choice(BAD_DATES + RARE_DATES)
        return self.rng.choice(DATES if self.chance(0.5) else DATES[:2])

    def quantity(self):
        if self.chance(self.fault):
            return self.rng.choice(NOT_NUMBERS + HUGE + [b'0', b'1000000000000'])
        return self.zeros(b'%d' % self.rng.choice([1, 2, 5, 10, 30, 60, 100, self.rng.randint(1, 200), 999999999999]
                                                  if self.chance(0.05) else [10, 20, 30, 40, 60, 100]))

    def shares(self):
        if self.chance(self.fault):
            return self.rng.choice(NOT_NUMBERS + HUGE + [b'1000000000000000001'])
        return self.zeros(b'%d' % self.rng.choice([0, 10, 25, 40, 60, 100, 150, 300, 1000]
                                                  + ([10 ** 18, 10 ** 18 - 40, 5 * 10 ** 17]
                                                     if self.chance(0.2) else [])))

    def identifier(self):
        if self.chance(self.fault):
            return self.rng.choice([b'', b'a1', b'A' * 17, b'A 1', b'A-1', b'\xff', b'A\x00', b'A"1', MARK + b'A1',
                                    b' A1'])
        if self.chance(0.1):
            return self.rng.choice([b'A' * 16, b'0', b'01', b'Z9'])
        return b'%s%d' % (self.rng.choice([b'A', b'B', b'C']), self.rng.randint(1, 12))

    # Rows.

    def trade(self):
        if self.rows and self.chance(0.15):
            row = list(self.rng.choice(self.rows))
            if self.chance(0.5):
                place = self.rng.randrange(6)
                row[place] = self.trade_field(place)
        else:
            row = [self.trade_field(place) for place in range(6)]
            if self.market and self.chance(0.9):
                row[3] = b'%d' % self.rng.choice(self.sellers)
            while row[2] == row[3] and not self.chance(0.1):
                row[2] = self.member()
        self.rows.append(list(row))
        if self.chance(self.fault / 4):
            row = row[:self.rng.randint(0, 5)] if self.chance(0.5) else row + [b''] * self.rng.randint(1, 3)
        return row

    def trade_field(self, place):
        return [self.identifier, self.date, self.member, self.member, self.issue, self.quantity][place]()

    def opening(self):
        row = [self.member(), self.issue(), self.shares()]
        if self.market and self.chance(0.7):
            row = [b'%d' % self.rng.choice(self.sellers), self.issue(),
                   b'%d' % self.rng.choice([30, 50, 90, 100, 150, 400])]
        if self.chance(self.fault / 4):
            row = row[:self.rng.randint(0, 2)] if self.chance(0.5) else row + [b''] * self.rng.randint(1, 2)
        return row

    def field(self, text):
        """A field as it is written in a row."""
        if self.chance(self.odd):
            kind = self.rng.randrange(8)
            if kind == 0:
                return b'"' + text                             # perhaps never closed
            if kind == 1:
                return b'"' + text + b'"' + self.rng.choice([b'x', b' ', b'""', b'"', b'"y"'])
            if kind == 2:
                return text + b'"'
            if kind == 3:
                return b'"' + text + self.rng.choice([b'\n', b'\r\n', b',', b'""', b'\r']) + b'"'
            if kind == 4:
                return b' "' + text + b'"'
            if kind == 5:
                return b'""' + text
            return b'"' + text.replace(b'"', b'""') + b'"'
        if b'"' in text or self.chance(0.03):
            return b'"' + text.replace(b'"', b'""') + b'"'
        return text

    def row_end(self):
        if self.chance(self.odd):
            return self.rng.choice([b'\r\n', b'\r', b'\n\n', b'\r\n\r\n', b'\n\r', b'\r\r\n', b'\n \n', b'\n""\n',
                                    b'\n,\n', b'\n#\n'])
        return b'\n'

    def section(self, header, make, count):
        if count == 0 and self.chance(0.7):
            return self.rng.choice([b'', b'', header + b'\n', b'\n', b'\r\n'])
        if self.chance(self.odd):
            header = self.rng.choice([MARK + header, b'"' + header.replace(b',', b'","') + b'"', b'\n\r\n' + header,
                                      header + b'\r',
                                      MARK + b'"' + header.replace(b',', b'","') + b'"'])
        if self.chance(self.fault / 10):
            header = self.rng.choice([header.upper(), header + b',', header[:-1], header.replace(b',', b';'),
                                      b' ' + header,
                                      MARK + MARK + header, b'', header.replace(b',', b', '), b'[trades]'])
        rows = [b','.join(self.field(text) for text in make()) + self.row_end() for _ in range(count)]
        return header + b'\n' + b''.join(rows)

    # Scripts. Words are mostly chosen by what the oracle knows after the lines so
    # far, so that most commands have something to do.

    def look_at(self, lines):
        run = cnsd_oracle.Run(self.trade_rows, dict(self.openings), lines, self.shake, self.journal)
        run.run()
        self.book = run.book

    def cycle(self):
        if self.chance(0.2):
            return b'CYCLE %s %s' % (self.rng.choice([b'NIGHT', b'DAY']), self.date())
        self.day += self.rng.choice([0, 1, 1, 1, 2, 3])
        return b'CYCLE %s 2025-03-%02d' % ([b'NIGHT', b'DAY'][self.day % 2], min(3 + self.day // 2, 31))

    def number(self, high):
        if self.chance(self.fault):
            return self.rng.choice(NOT_NUMBERS + HUGE + [b'1000000000', b'1000000001', b'1000000', b'1000001'])
        return self.zeros(b'%d' % self.rng.randint(0, high))

    def known_number(self, known):
        """Mostly one of 1 to known, often the last."""
        if known and self.chance(0.85):
            return b'%d' % (known if self.chance(0.3) else self.rng.randint(1, known))
        return self.number(known + 2)

    def lot_number(self):
        still = [number for number, lot in enumerate(self.book.lots, 1) if not lot.ended]
        if still and self.chance(0.8):
            return b'%d' % self.rng.choice(still)
        return self.known_number(len(self.book.lots))

    def lot_issue(self):
        """Mostly one that has shares for a lot."""
        orders = self.book.orders()
        full = [issue for issue in self.issues if self.book.free(issue) > 0]
        if full and self.chance(0.7) and not self.chance(self.fault):
            return self.rng.choice(full)
        long = [order.issue for order in orders]
        return self.rng.choice(long) if long and self.chance(0.5) else self.issue()

    def place(self):
        """A member and an issue, mostly a pair with a position or an exemption."""
        records = self.book.clear.records
        known = [(member, issue) for issue, member in cnsd_oracle.positions(records, self.book.orders())]
        known += [(record.member, record.issue) for record in records
                  if isinstance(record, (cnsd_oracle.Exempt, cnsd_oracle.Priority))]
        return self.known_place(known)

    def known_place(self, known):
        """A member and an issue, mostly a known pair."""
        if known and self.chance(0.8) and not self.chance(self.fault):
            member, issue = self.rng.choice(known)
            return [b'%d' % member, issue]
        return [self.member(), self.issue()]

    # Members' own instructions.

    def own_place(self, name):
        """Mostly of a member that has shares of the issue; of a deposit also of one that is short of it."""
        book = self.book
        known = [(account, issue) for issue, account in book.accounts()
                 if account > 0 and book.balance(account, issue) > 0]
        if name == b'DEPOSIT':
            held = cnsd_oracle.positions(book.clear.records, book.orders())
            known += [(member, issue) for (issue, member), position in held.items() if position < 0]
        return self.known_place(known)

    def own_number(self):
        if self.chance(0.1):
            return self.rng.choice([self.number(9), b'1000000', b'1000001'])
        return self.zeros(b'%d' % self.rng.randint(1, 9))

    def own_shares(self, name, member, issue):
        """Few, or what the member has of the issue, what the issue has room for, or one more."""
        if not member.isdigit() or self.chance(0.1):
            return self.shares()
        if name == b'DEPOSIT':
            most, few = cnsd_oracle.SHARES_LIMIT - self.book.issue_sum(issue), [5, 10, 40, 100] * 2
        else:
            most, few = self.book.balance(int(member), issue), [1, 5, 10]
        return b'%d' % self.rng.choice([most or 1, most + 1] + few)

    def new_own(self, name):
        member, issue = self.own_place(name)
        return [name, member, self.own_number(), issue, self.own_shares(name, member, issue)]

    def own(self, name):
        """An instruction: a new one, or one that stands already, as it is or with another word."""
        words = self.new_own(name)
        held = cnsd_oracle.of_kind(cnsd_oracle.Own, self.book.depot.records)
        if held and self.chance(0.5):
            words[3] = self.rng.choice(ISSUES)
            stands = own_line(self.rng.choice(held)).split(b' ')
            place = self.rng.choice([place for place in range(5) if words[place] != stands[place]] or [0])
            if self.chance(0.5):
                stands[place] = words[place]
            words = stands
        return b' '.join(words)

    def planned_member(self, number):
        """Mostly a member that the lot has still to serve."""
        if number.isdigit() and 1 <= int(number) <= len(self.book.lots) and self.chance(0.8):
            lot = self.book.lots[int(number) - 1]
            left = [one.member for one in lot.plan if one.member not in [ticket.member for ticket in lot.tickets]]
            if left:
                return b'%d' % self.rng.choice(left)
        return self.member()

    def command(self, *wanted):
        """One good command; of the wanted names where there are some."""
        rng = self.rng
        known = [b'TAKE', b'TAKE', b'CYCLE', b'CYCLE', b'CYCLE', b'REPORT', b'EXEMPT', b'PRIORITY']
        known += [b'SEND', b'ORDER', b'ORDER', b'REPLY', b'REPLY', b'PUMP', b'PUMP']
        known += [b'DEPOSIT', b'WITHDRAW']
        known += [b'FAIL', b'RESTART'] if self.chance(0.4) else []
        known += [b'LOT', b'POUR', b'RESERVE', b'RESERVE', b'LOOK', b'SEAL', b'CLOSE', b'ALLOCATE', b'ALLOCATE',
                  b'BESIDE', b'BESIDE']
        name = rng.choice(wanted or known)
        if name == b'TAKE':
            words = [rng.choice([b'ALL', self.number(4), self.number(4), b'1'])]
        elif name == b'CYCLE':
            return self.cycle()
        elif name in (b'DEPOSIT', b'WITHDRAW'):
            return self.own(name)
        elif name == b'EXEMPT':
            words = self.place() + [self.shares()]
        elif name == b'PRIORITY':
            words = self.place() + [rng.choice([b'ON', b'OFF'])]
        elif name in (b'SEND', b'ORDER', b'REPLY'):
            known = {b'SEND': len(self.book.orders()), b'ORDER': len(self.book.order_packets),
                     b'REPLY': len(self.book.reply_packets)}
            words = [self.known_number(known[name])]
        elif name == b'FAIL':
            words = [rng.choice([b'CLEAR', b'CLEAR', b'DEPOT']), rng.choice([b'KEEP', b'DROP'])]
        elif name == b'RESTART':
            words = [rng.choice([b'CLEAR', b'CLEAR', b'DEPOT'])]
        elif name in (b'LOT', b'ALLOCATE'):
            words = [self.lot_issue()]
        elif name == b'BESIDE':
            words = [self.lot_issue(), rng.choice([b'0', b'1', b'2', b'3', b'4', self.number(6), b'1000', b'1001'])]
        elif name == b'RESERVE':
            number = self.lot_number()
            words = [number, self.planned_member(number)]
        elif name in (b'POUR', b'LOOK', b'SEAL', b'CLOSE'):
            words = [self.lot_number()]
        else:
            words = []
        return b' '.join([name] + words)

    def spoilt(self, line):
        """A line that is most likely no command."""
        rng = self.rng
        words = line.split(b' ')
        kind = rng.randrange(11)
        if kind == 0:
            return line.lower()
        if kind == 1:
            return line.replace(b' ', b'  ', 1)
        if kind == 2:
            return line + rng.choice([b' ', b'\r', b'\t', b' 1', b'\x00', b'\xff', b'\x0b'])
        if kind == 3:
            return rng.choice([b' ', b'\t', MARK]) + line
        if kind == 4:
            return b' '.join(words[:-1])
        if kind == 5:
            rng.shuffle(words)
            return b' '.join(words)
        if kind == 6:
            return line.replace(b' ', b'\t')
        if kind == 7:
            return rng.choice([b' ', b' # x', b'[trades]', b'[script]', b'FOO', b'TAKE', b'CYCLE', b'"REPORT"',
                               b'\x00'])
        if kind == 8:
            return b' '.join([rng.choice([b'DEPOSITS', b'WITHDRAWAL', b'GRANT', b'TAKEN']), self.member(),
                              self.number(4), self.issue(), self.shares()])    # formed like a command
        if kind == 9:
            at = rng.randrange(len(line) + 1)
            return line[:at] + bytes([rng.choice([x for x in range(256) if x != 10])]) + line[at + 1:]
        return bytes(rng.choice([x for x in range(256) if x != 10]) for _ in range(rng.randint(1, 12)))

    def start(self):
        """Lines that lead to where the rarer commands have something to do."""
        lines = [b'TAKE ALL']
        self.day = 1
        for _ in range(self.rng.choice([1, 1, 2, 3])):
            if self.chance(0.2):
                self.look_at(lines)
                lines += [self.command(b'EXEMPT') for _ in range(self.rng.randint(1, 3))]
            lines.append(self.cycle() if self.day > 1 else b'CYCLE NIGHT 2025-03-04')
            self.day = max(2, self.day)
            if self.chance(0.7):
                lines.append(b'PUMP')
        return lines

    def failing_story(self):
        """A commit that fails, what follows while the node is down, and a restart."""
        side = self.rng.choice([b'CLEAR', b'CLEAR', b'DEPOT'])
        lines = [b'FAIL %s %s' % (side, self.rng.choice([b'KEEP', b'DROP']))]
        if side == b'DEPOT' and self.chance(0.7):
            lines += [self.cycle(), b'PUMP']
        lines += [self.command() for _ in range(self.rng.randint(1, 5))]
        if self.chance(0.5):
            packets = len(self.book.order_packets if side == b'DEPOT' else self.book.reply_packets)
            lines += [b'%s %d' % (b'ORDER' if side == b'DEPOT' else b'REPLY', packets + extra) for extra in (0, 1, 5)]
        return lines + [b'RESTART ' + side] * self.rng.choice([0, 1, 1, 1, 2])

    def own_story(self):
        """Instructions between a cycle and its pump, or some that fail, given again before and after a restart."""
        lines = [self.command(b'DEPOSIT', b'WITHDRAW') for _ in range(self.rng.randint(1, 4))]
        if self.chance(0.5):
            return [self.cycle()] + lines + [b'PUMP']
        fail = b'FAIL DEPOT ' + self.rng.choice([b'KEEP', b'DROP'])
        mixed = self.rng.sample(lines * 2, 2 * len(lines))
        restarts = [b'RESTART DEPOT'] * self.rng.choice([0, 1, 1, 1])
        return lines[:self.rng.randint(0, len(lines))] + [fail] + mixed + restarts + lines

    def lot_story(self):
        """A lot with steps of every kind in any order, by itself or beside an allocation."""
        issue = self.lot_issue()
        number = b'%d' % (len(self.book.lots) + 1)
        plan = cnsd_oracle.plan(self.book.clear.records, self.book.orders(), issue)
        members = [b'%d' % one.member for one in plan]
        lines = [self.cycle()] if self.chance(0.3) else []
        for member in members:
            if self.chance(0.25):
                for word in self.rng.choice([[b'ON'], [b'ON'], [b'OFF'], [b'ON', b'OFF'], [b'ON', b'OFF', b'ON']]):
                    lines.append(b'PRIORITY %s %s %s' % (member, issue, word))
        inner = [b'RESERVE %s %s' % (number, member) for member in members if self.chance(0.8)]
        if self.chance(0.5):
            self.rng.shuffle(inner)
        else:
            inner.sort(key=lambda line: self.chance(0.1))      # the plan's own order, with few exceptions
        kinds = [b'LOOK', b'LOOK', b'POUR', b'PUMP', b'SEAL', b'REPORT', b'CLOSE', b'LOT', b'CYCLE', b'TAKE',
                 b'ALLOCATE', b'BESIDE', b'RESERVE', b'EXEMPT', b'PRIORITY', b'DEPOSIT', b'WITHDRAW']
        kinds += [b'RESTART', b'FAIL'] if self.chance(0.3) else []
        for _ in range(self.rng.randint(0, 4)):
            line = self.command(self.rng.choice(kinds))
            words = line.split(b' ')
            if words[0] in (b'RESERVE', b'LOOK', b'POUR', b'SEAL', b'CLOSE') and self.chance(0.8):
                line = b' '.join([words[0], number] + words[2:])
            inner.insert(self.rng.randint(0, len(inner)), line)
        if self.chance(0.4):
            at = self.rng.randint(0, len(inner))
            inner[at:at] = [b'PUMP', b'POUR ' + number] * self.rng.choice([1, 1, 2])
        kind = self.rng.randrange(3)
        if kind == 0:
            return lines + [b'BESIDE %s %d' % (issue, max(0, len(inner) - self.rng.choice([0, 0, 0, 1, -1])))] + inner
        if kind == 1:
            return lines + [b'ALLOCATE ' + issue] + inner
        sealed, closed = self.rng.choice([0, 0, 1]), self.rng.choice([0, 1, 1])
        return lines + [b'LOT ' + issue] + inner + [b'SEAL ' + number] * sealed + [b'CLOSE ' + number] * closed

    def lines(self):
        """The lines of a script."""
        rng = self.rng
        self.fault = self.line_fault
        lines = []
        if self.chance(0.7):
            lines = self.start()
        end = len(lines) + rng.choice([3, 8, 15, 30])
        stories = [self.failing_story, self.own_story] + [self.lot_story] * 4
        while len(lines) < end:
            self.look_at(lines)
            if self.chance(0.18):
                lines += rng.choice(stories)()
            elif self.chance(0.06):
                lines.append(rng.choice([b'', b'# a comment', b'#', b'#TAKE ALL']))
            elif self.chance(0.15):
                still = [number for number, lot in enumerate(self.book.lots, 1) if not lot.ended]
                lines += [b'CLOSE %d' % number for number in still]
            else:
                line = self.command()
                lines.append(self.spoilt(line) if self.chance(self.fault) else line)
        return lines + [b'REPORT']

    def script(self):
        lines = self.lines()
        ends = [b'\r\n' if self.chance(0.5 if self.odd else 0.02) else b'\n' for _ in lines]
        if self.chance(0.1):
            ends[-1] = self.rng.choice([b'', b'\r', b'\r\r\n'])
        return b''.join(line + end for line, end in zip(lines, ends))

    def text(self):
        rng = self.rng
        openings = self.section(b'account,cusip,shares', self.opening, rng.choice([0, 2, 5, 10]))
        trades = self.section(b'trade,settle,buyer,seller,cusip,quantity', self.trade, rng.choice([0, 2, 5, 12, 25]))
        try:
            self.trade_rows = cnsd_oracle.rows_under(b'trade,settle,buyer,seller,cusip,quantity', trades)
            self.openings = cnsd_oracle.good_openings(cnsd_oracle.rows_under(b'account,cusip,shares', openings),
                                                      lambda line: None)
        except cnsd_oracle.BadInput:
            pass
        parts = [b'[openings]\n', openings, b'[trades]\n', trades, b'[script]\n', self.script()]
        if self.chance(self.odd):
            parts = [part.replace(b']\n', b']\r\n') for part in parts]
        if self.chance(self.row_fault / 10):
            place = rng.randrange(len(parts))
            kind = rng.randrange(4)
            if kind == 0:
                del parts[place]
            elif kind == 1:
                rng.shuffle(parts)
            elif kind == 2:
                parts.insert(place, rng.choice([MARK, b'[trades]\n', b'[script]\n', b'[openings]\n', b'\n', b'\r']))
            else:
                parts[0] = rng.choice([b'', b' ', MARK, b'\n']) + parts[0]
        text = b''.join(parts)
        if self.chance(0.03):                                  # some bytes of it are changed
            changed = bytearray(text)
            for _ in range(rng.choice([1, 1, 3, 20])):
                place = rng.randrange(len(changed) + 1)
                what = rng.randrange(3)
                if what == 0 and place < len(changed):
                    changed[place] = rng.randrange(256)
                elif what == 1:
                    changed[place:place] = rng.choice([b'"', b',', b'\r', b'\n', b'\x00', b'\xff', b' '])
                else:
                    del changed[place:place + rng.choice([1, 1, 5, 40])]
            text = bytes(changed)
        elif self.chance(0.01):                                # nothing but bytes
            text = bytes(rng.randrange(256) for _ in range(rng.choice([0, 1, 50, 400])))
        return text


# Command lines. What is wanted of a run is its exit status, standard output and standard error;
# None for a text that is not told here, and must not be empty.

Input = collections.namedtuple('Input', 'words text want shake journal', defaults=(None, False))
FAULTY = (1, b'', None)
# (a folder of the journals that is not there)
NO_FOLDER = [b'run', b'--journal', b'4']
JOURNAL_FAILED = (3, b'', b'cnsd: journal failed\n')
HELP = (0, None, b'')
HELPS = [[b'--help'], [b'-h'], [b'help'], [b'help', b'run'], [b'help', b'check'], [b'help', b'table'], [b'help', b'cusip'], [b'run', b'--help'],
         [b'run', b'-h'], [b'check', b'--help'], [b'table', b'--help'], [b'table', b'-h'], [b'cusip', b'--help'], [b'cusip', b'-h'], [b'--version'], [b'-V']]
NO_COMMANDS = [b'ru', b'RUN', b'Run', b'runs', b'run ', b' run', b'cusi', b'CUSIP', b'cusips', b'cusip=037833100',
               b'', b' ', b'-', b'x', b'037833100', b'r\xc3\xbcn', b'\xff', b'run\xff', b'version', b'start', b'\n',
               b'run\n', b'[openings]', b'plain.in']
NO_OPTIONS = [b'--run', b'-r', b'-x', b'--stage', b'--stage=5', b'--workers=65', b'--workers=x', b'--journal',
              b'--shake=x', b'--shake=-1', b'--shake=18446744073709551616', b'--shake=', b'--shaken',
              b'--quiet', b'-q', b'-1', b'---', b'--=', b'--\xff', b'-\xc3\xa9', b'--versio', b'--hel',
              b'--cusip=037833100', b'--text=037833100']
NO_VALUES = [[b'--workers'], [b'--shake'], [b'--shake', b'-1'], [b'--shake', b'x'], [b'--shake', b''],
             [b'--shake', b'18446744073709551616'], [b'--shake', b'1', b'--shake', b'1'],
             [b'--workers', b'1', b'--workers', b'1'], [b'--workers', b'65'], [b'--workers', b'-1'],
             [b'--journal', b'4', b'--journal', b'4']]
FOREIGN = ['\u00e9', '\u03a9', '\u0663', '\u4e2d', '\U0001f600', '\u00df', '\u0130', '\ufeff', '\u200b', 'e\u0301',
           '\uff11']


def cusip_text(rng):
    """A text for `cusip`, good or bad, without a byte 0."""
    eight = bytes(rng.choice(cnsd_oracle.CUSIP_CHARACTERS) for _ in range(8))
    digit = cnsd_oracle.check_digit(eight)
    text = eight + b'%d' % digit
    kind = rng.randrange(12)
    if kind == 0:
        return eight + b'%d' % rng.randrange(10)
    if kind == 1:
        return text[:rng.randrange(9)]
    if kind == 2:
        return text + bytes(rng.choice(cnsd_oracle.CUSIP_CHARACTERS)
                            for _ in range(rng.choice([1, 1, 2, 100, 5000, 100000])))
    if kind == 3:
        return text.lower()
    if kind == 4:                                              # some other bytes, of ASCII
        changed = bytearray(text)
        for _ in range(rng.choice([1, 1, 2, 9])):
            changed[rng.randrange(9)] = rng.randrange(1, 128)
        return bytes(changed)
    if kind == 5:                                              # other characters, in nine characters or in nine bytes
        place, other = rng.randrange(9), rng.choice(FOREIGN).encode()
        return text[:place] + other + text[place + rng.choice([1, len(other)]):]
    if kind == 6:
        return ''.join(rng.choice(FOREIGN) for _ in range(rng.choice([1, 3, 4, 9, 3000]))).encode()
    if kind == 7:
        return rng.choice([b'-', b'--', b'---', b'-h', b'--help', b'-1',
                           b'-\xc3\xa9']) + text[:rng.choice([0, 1, 7, 8, 9])]
    if kind == 8:
        return rng.choice([b'', b' ', b' ' + text, text + b' ', text + b'\n', text + b'\r', b'"' + text + b'"',
                           eight + b'A', b'help'])
    return text


def cusip_input(rng):
    text = cusip_text(rng)
    dashes = [b'--'] if text.startswith(b'-') or rng.random() < 0.3 else []
    none_read = (0, b'', b'')           # `-` stands for the lines of standard input, of which there are none
    return Input([b'cusip'] + dashes + [text], b'', none_read if text == b'-' else cnsd_oracle.answer_cusip(text))


def command_line(rng):
    """A command line that ends at once: help, the version, a fault, or journals in a folder that is not there."""
    if rng.random() < 0.2:
        return Input(rng.choice(HELPS), b'', HELP)
    text = cusip_text(rng)
    plain, word, option = b'x' + text, rng.choice(NO_COMMANDS), rng.choice(NO_OPTIONS)
    faulty = [[], [word], [option], [word] * 50, [word, b'run'], [option, b'run'],
              [b'run', word, word], [b'run', option], [b'run', b'run', b'run'], [b'run', b'--', plain, text], [b'run', option, b'4'],
              [b'run', word, b'--script', word], [b'check', option], [b'check', word, word], [b'check', b'--strict'],
              [b'run'] + rng.choice(NO_VALUES), [b'run'] + rng.choice(NO_VALUES),
              [b'cusip'], [b'cusip', b'--'],
              [b'cusip', option], [b'cusip', plain, option], [b'cusip', option, plain],
              [b'cusip', plain + b'\xff'], [b'cusip', b'--', b'\xc3' + plain]]
    words = rng.choice(faulty)
    return Input(words, b'', JOURNAL_FAILED if words == NO_FOLDER else FAULTY)


def batch(text, shake=None, journal=False):
    """A text for `run`, shaken by this number, over journal files or not."""
    words = [b'run']
    if shake is not None:
        words += [b'--shake', b'%d' % shake]
    if journal:
        words += [b'--journal', FOLDER]
    return Input(words, text, cnsd_oracle.answer(text, shake, journal), shake, journal)


def shake_number(rng):
    """A number that may shake a run."""
    most = cnsd_oracle.SHAKE_LIMIT
    return rng.choice([0, 1, rng.randint(0, 99), rng.randint(0, 2 ** 32), rng.randint(0, most), most - 1, most])


def long_input(rng):
    """A text with about as many bytes as an input may have."""
    text = Maker(rng).text() + b'\n#'
    size = cnsd_oracle.INPUT_LIMIT + rng.choice([-1, 0, 1, 1, 1, 2, 100000])
    text += rng.choice([b'#', b' ', b'x', b'\xff']) * (size - len(text))
    return batch(text)


def input_number(seed, number, shaken):
    kind = random.Random('%d/%d/kind' % (seed, number)).random()
    rng = random.Random('%d/%d' % (seed, number))
    if kind < 0.08:
        return cusip_input(rng)
    if kind < 0.13:
        return command_line(rng)
    if kind < 0.135:
        return long_input(rng)
    how = random.Random('%d/%d/how' % (seed, number))
    shake, journal = shake_number(how), how.random() < 0.2
    if not (how.random() < 0.4 and shaken):
        shake = None
    return batch(Maker(rng, shake, journal).text(), shake, journal)


# Inputs at the limits: what fills the program up to some places, and random lines behind it.

def any_cusip(number):
    """A CUSIP with a right check digit, another one for each number."""
    eight = b'%08d' % number
    return eight + b'%d' % cnsd_oracle.check_digit(eight)


def full_input(rng):
    """As many accepted trades as there may be, less a few, and then some more."""
    fill = cnsd_oracle.NUMBER_LIMIT - rng.choice([0, 1, 2, 5])
    maker = Maker(rng)
    maker.fault = 0.03
    members, dates = [b'%d' % member for member in maker.members], DATES[:3] + [b'2199-12-31']
    rows = []
    for number in range(fill):
        buyer, seller = rng.sample(members, 2)
        rows.append(b'F%d,%s,%s,%s,%s,%d' % (number, rng.choice(dates), buyer, seller, rng.choice(maker.issues),
                                             1 + number % 900))
    for number in range(40):
        kind = rng.randrange(4)
        if kind == 0:
            rows.append(rng.choice(rows[:fill]))               # the same again
        elif kind == 1:
            rows.append(rng.choice(rows[:fill]) + b'0')        # a conflict
        elif kind == 2:
            rows.append(b','.join(maker.trade()).replace(b'\n', b' ').replace(b'"', b''))
        else:
            rows.append(b'G%d,%s,7,8,%s,10' % (rng.randrange(8), rng.choice(dates), maker.issues[0]))
    first = rng.randrange(1, fill)
    lines = [b'TAKE %d' % first, b'TAKE %d' % (fill - first)]
    for line in rng.sample([b'TAKE 1', b'TAKE 2', b'TAKE 3', b'TAKE 5', b'EXEMPT 7 %s 3' % maker.issues[0],
                            b'CYCLE NIGHT 2025-03-03', b'SEND 1',
                            b'CYCLE DAY 2025-03-04', b'FAIL CLEAR KEEP', b'FAIL CLEAR DROP', b'RESTART CLEAR',
                            b'LOT %s' % maker.issues[0]], 9):
        lines += [line, b'TAKE 2']
    lines += [b'RESTART CLEAR', b'TAKE ALL', b'REPORT']
    return [], rows, lines


def numbers_input(rng):
    """As many orders as there may be, less a few, and then deliveries: one too many, some, and the rest."""
    left = rng.randint(2, 5)                                   # numbers that the covers leave
    longs = left + 1
    pairs = cnsd_oracle.NUMBER_LIMIT - left - 1
    rows = [b'A%d,2025-03-03,%d,1,000000000,10' % (member, member) for member in range(2, longs + 2)]
    for number in range(pairs):
        rows.append(b'B%d,2025-03-03,9999,%d,%s,%d' % (number, 1 + number % 1000, any_cusip(1 + number // 1000),
                                                       1 + number % 77))
    openings = [b'1,000000000,%d' % (10 * longs - rng.choice([0, 0, 5, 9, 10, 15]))]
    lines = [b'TAKE ALL', b'CYCLE NIGHT 2025-03-03', b'SEND 1', b'SEND 1000000', b'SEND %d' % (pairs + 1),
             b'SEND %d' % (pairs + 2), b'ORDER 1',
             b'REPLY 1', b'LOT 000000000']
    lines += [b'RESERVE 1 %d' % member for member in range(2, longs + 3)]
    lines += [b'CLOSE 1', b'LOOK 1', b'RESTART CLEAR', b'LOT 000000000']
    lines += [b'RESERVE 2 %d' % member for member in rng.sample(range(2, longs + 2), rng.randint(0, left))]
    lines += [b'SEAL 2', b'CLOSE 2', b'LOOK 2', b'ALLOCATE 000000000', b'SEND 1000000', b'SEND 1000001']
    return openings, rows, lines


def lots_input(rng):
    """As many lots as there may be, less a few, and then some more; a restart ends those of a round."""
    issues = [any_cusip(number) for number in range(2000)]
    rows = [b'A1,2025-03-03,2,1,000000000,10', b'A2,2025-03-03,3,1,000000000,20',
            b'A3,2025-03-03,3,4,%s,5' % issues[7]]
    openings = [b'1,000000000,25', b'4,%s,5' % issues[7]]
    fill = cnsd_oracle.NUMBER_LIMIT - rng.choice([0, 1, 3, 4])
    lines = [b'TAKE ALL', b'CYCLE NIGHT 2025-03-03', b'PUMP']
    opened = 0
    while opened < fill:
        opening = issues[:fill - opened]
        lines += [b'LOT ' + issue for issue in opening]
        opened += len(opening)
        lines += [b'RESTART CLEAR']
    for _ in range(40):
        number, issue = rng.randint(999995, 1000001), rng.choice(issues[:9])
        line = rng.choice([b'LOT %s' % issue, b'CLOSE %d' % number, b'LOOK %d' % number, b'SEAL %d' % number,
                           b'POUR %d' % number,
                           b'RESERVE %d %d' % (number, rng.randint(2, 3)), b'ALLOCATE %s' % issue,
                           b'BESIDE %s 1' % issue, b'PUMP'])
        lines.append(line)
    return openings, rows, lines + [b'RESTART CLEAR', b'LOT 000000000', b'CYCLE DAY 2025-03-03', b'REPORT']


def limit_inputs(seed):
    for make in (full_input, numbers_input, lots_input):
        openings, rows, lines = make(random.Random('%d/%s' % (seed, make.__name__)))
        heads = [b'[openings]', b'account,cusip,shares'], [b'[trades]',
                                                           b'trade,settle,buyer,seller,cusip,quantity'], [b'[script]']
        text = b'\n'.join(heads[0] + openings + heads[1] + rows + heads[2] + lines + [b''])
        began = time.monotonic()
        one = batch(text)
        spent = time.monotonic() - began
        print('%s: %d lines in %d bytes, the oracle took %.1f seconds' % (make.__name__, text.count(b'\n'), len(text),
                                                                          spent))
        yield one


# Runs.

def run_program(program, one, seconds=SECONDS):
    """(exit status, standard output, standard error)."""
    try:
        with tempfile.TemporaryDirectory() as folder:
            words = [os.fsencode(folder) if word == FOLDER else word for word in one.words]
            done = subprocess.run([program] + words, input=one.text, capture_output=True, timeout=seconds)
    except subprocess.TimeoutExpired:
        return 'no end within %d seconds' % seconds, b'', b''
    except OSError as error:
        return str(error), b'', b''
    return done.returncode, done.stdout, done.stderr


def agree(want, got):
    return all(len(written) > 0 if wanted is None else wanted == written for wanted, written in zip(want, got))


def with_text(one, text):
    """The same with another text for `run`."""
    return batch(text, one.shake, one.journal)


def differs(program, one):
    return not agree(one.want, run_program(program, one))


def smaller(program, one):
    """The same with as many lines of the text left out as still make a difference."""
    lines = one.text.splitlines(True)
    size = max(1, len(lines) // 2)
    while True:
        place, changed = 0, False
        while place < len(lines):
            fewer = lines[:place] + lines[place + size:]
            if differs(program, with_text(one, b''.join(fewer))):
                lines, changed = fewer, True
            else:
                place += size
        if size == 1 and not changed:
            return with_text(one, b''.join(lines))
        size = max(1, size // 2)


def shown(data):
    return data.decode('utf-8', 'backslashreplace').replace('\r', '\\r').replace('\0', '\\0')


def tell(one, got):
    """Tells a difference; a long text by its first and its last bytes."""
    text = one.text if len(one.text) <= LONGEST_TOLD else one.text[:1000] + b'\n..\n' + one.text[-1000:]
    print('---- words: %s' % ' '.join(shown(word[:2000]) for word in one.words))
    print('---- input (%d bytes)' % len(one.text))
    print(shown(text))
    for name, wanted, written in zip(('exit status', 'standard output', 'standard error'), one.want, got):
        if wanted is None and written == b'':
            print('---- %s is empty' % name)
        elif wanted is not None and wanted != written:
            print('---- %s (- oracle, + program)' % name)
            told = [shown(part if isinstance(part, bytes) else str(part).encode()).split('\n')
                    for part in (wanted, written)]
            same = len(os.path.commonprefix(told))
            place = max(0, same - 2)
            for line in difflib.unified_diff(told[0][place:same + 60], told[1][place:same + 60], lineterm='', n=2):
                print(line)


def kind_of(line):
    """What is counted of a line: its first word, the name of a refusal or fault, and what else tells kinds apart."""
    words = line.split(' ')
    for word in ('refused', 'fault'):
        if word in words:
            return ' '.join(words[:1] + [other for other in words[words.index(word):] if not other.isdigit()])
    place = {'order': 2, 'deposit': 4, 'withdraw': 4}.get(words[0])
    return words[0] + (' ' + words[place] if place else '')


def bad_commands(one, lines):
    """What is counted of the bad lines that begin with the name of a command."""
    numbers = [int(line.split(' ')[1]) for line in lines if line.startswith('line ')]
    script = cnsd_oracle.split_sections(one.text)[2] if numbers else []
    words = [script[number - 1].split(b' ')[0] for number in numbers]
    return ['bad command: %s' % word.decode() for word in words if word in cnsd_oracle.COMMANDS]


def kinds(one):
    """What is counted of an input that made no difference."""
    if one.want == HELP:
        return ['command line: help or version']
    if one.want == FAULTY:
        return ['command line: fault']
    lines = one.want[1].decode('ascii').splitlines()
    if one.words[0] == b'cusip':
        return ['cusip: %s' % line.split(' ')[0] for line in lines]
    ended = 'exit status %d %s' % (one.want[0], one.want[2].decode('ascii'))
    how = ['run: shaken'] * (one.shake is not None) + ['run: over journal files'] * one.journal
    return [ended.strip()] + how + [kind_of(line) for line in lines] + bad_commands(one, lines)


def input_arguments(description):
    """The command line of what tries a program on the inputs of a seed."""
    parser = argparse.ArgumentParser(description=description, formatter_class=argparse.RawDescriptionHelpFormatter)
    parser.add_argument('program')
    parser.add_argument('--seed', type=int, default=1)
    parser.add_argument('--count', type=int, default=1000)
    parser.add_argument('--from', type=int, default=0, dest='first')
    parser.add_argument('--shaken', action=argparse.BooleanOptionalAction, default=SHAKEN)
    return parser


def found_program(name):
    """The path of a program; None where there is none, which is then told."""
    program = shutil.which(name)
    if program is None:
        print('no program %s' % name)
        print('0 passed, 1 failed')
        return None
    return os.path.abspath(program)


def main():
    parser = input_arguments('Compares a program with the oracle on random inputs.')
    parser.add_argument('--no-shrink', action='store_true')
    parser.add_argument('--limits', action='store_true')
    given = parser.parse_args()
    program = found_program(given.program)
    if program is None:
        return 1
    met, passed = collections.Counter(), 0
    numbers = range(given.first, given.first + given.count)
    inputs = limit_inputs(given.seed) if given.limits else (input_number(given.seed, number, given.shaken)
                                                              for number in numbers)
    for one in inputs:
        got = run_program(program, one, LIMIT_SECONDS if given.limits else SECONDS)
        if agree(one.want, got):
            met.update(kinds(one))
            passed += 1
            continue
        print('input %d of seed %d: program and oracle differ' % (given.first + passed, given.seed))
        tell(one, got)
        if one.text and len(one.text) <= LONGEST_TOLD and not given.no_shrink:
            one = smaller(program, one)
            print('==== the same difference, or another one, with fewer lines')
            tell(one, run_program(program, one))
        with open('fuzz-difference.in', 'wb') as out:
            out.write(one.text)
        print('left in %s' % os.path.abspath('fuzz-difference.in'))
        print('again: fuzz.py %s --seed %d %s%s' % (given.program, given.seed,
                                                    '--limits' if given.limits
                                                    else '--from %d --count 1' % (given.first + passed),
                                                    '' if given.shaken else ' --no-shaken'))
        print('%d passed, 1 failed' % passed)
        return 1
    for kind, count in sorted(met.items()):
        print('%8d %s' % (count, kind))
    print('%d inputs of seed %d%s: no difference' % (passed, given.seed, ' at the limits' if given.limits else ''))
    print('%d passed, 0 failed' % passed)
    return 0 if passed > 0 else 1


if __name__ == '__main__':
    sys.exit(main())
