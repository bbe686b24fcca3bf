#!/usr/bin/env python3
"""Gives a line that found no memory once more, and looks whether all then goes as it would have gone.

    refuse_again.sh PROGRAM [FILE..]

The inputs are those of refuse_memory.py without `cusip`. Of each script first another form is made that does the same: each
`TAKE` takes one row, lines that are no command are left out, and behind each line stands one that is no command, so that the
numbers in `line N bad command` tell which line wrote what. Each request for memory of a run of this form is refused in
turn, as refuse_memory.py does it. Where an event is refused for that, a second run has the line of this event once more behind the
line that it came from, and the same request is refused:

    for `TAKE 1` the row of the trade stands once more behind its row, and the line is `TAKE 1`;
    where `ALLOCATE` or `BESIDE` opened a lot that then could not be served or closed, the lines are `RESERVE` of each
    member that has no ticket (where workers run, of each member), and `CLOSE`;
    where `BESIDE` opened none, or workers were cut off and the lot was closed without those who had no ticket, `ALLOCATE`;
    else it is the line itself.

Its last report must be that of the run that is refused nothing. All else must be as in that run too, but for the lines
that are refused: not where the line is `PUMP`, which goes on with the next order and gives packets other numbers; where
`BESIDE` opened no lot, as its lines then run before it; or where others draw after workers. A row that stands once more
may move the number of the request a little; where workers run it may move in each run: then the runs that refuse the
same event are looked for among the requests beside it. The threads of workers need not meet it again: such an event is told as not met, and
of an input more must be met than not.

The last line is `N passed, M failed`, where N are the events that were given once more; the exit status is 0 where M is 0 and N is
not.
"""
import collections
import re
import sys

from preload import Failure, refuse_each
from refuse_memory import REFUSED, TRIES_OF_WORKERS, Example, inputs_of, last_report

MARK = b'-'
BAD = re.compile(rb'line (\d+) bad command')
TOLD_ROW = re.compile(rb'(?m)^row \d+ ')
LOT = re.compile(rb'(?m)^lot (\d+) poured')
NEAR = [0] + [step * sign for step in range(1, 13) for sign in (1, -1)]

# What came of an event that found no memory: there was none; it was given once more; or the threads of workers did not meet it again.
NONE, GIVEN, MISSED = 'none', 'given', 'missed'

# Of which line a part of the output is: its place in the script, in the lines of the `BESIDE` there (None: no such line), and
# whether it is what `BESIDE` writes of its lot when it is opened or when it is served.
Owner = collections.namedtuple('Owner', 'place inner part')


class Beside:
    """A line `BESIDE` and the lines that run beside its lot."""

    def __init__(self, cusip, lines):
        self.cusip, self.lines = cusip, lines


def parsed(lines, bad):
    """The lines of a script, with those of a `BESIDE` in it; lines of the numbers `bad`, and skipped ones, are left out."""
    found, at = [], 0
    while at < len(lines):
        line, number = lines[at], at + 1
        at += 1
        if not line or line.startswith(b'#') or number in bad:
            continue
        if not line.startswith(b'BESIDE '):
            found.append(line)
            continue
        _, cusip, count = line.split(b' ')
        inner, left = [], int(count)
        while left and at < len(lines):
            if lines[at] and not lines[at].startswith(b'#'):
                left -= 1
                if at + 1 not in bad:
                    inner.append(lines[at])
            at += 1
        found.append(Beside(cusip, inner))
    return found


def written(items):
    """The lines of a script with a mark behind each, and of each mark whose output it ends."""
    lines, owners = [], []
    for place, item in enumerate(items):
        if isinstance(item, Beside):
            lines += [b'BESIDE %s %d' % (item.cusip, 2 * len(item.lines) + 1), MARK]
            owners.append(Owner(place, None, 'open'))
            for inner, line in enumerate(item.lines):
                lines += [line, MARK]
                owners.append(Owner(place, inner, 'line'))
            lines.append(MARK)
            owners.append(Owner(place, None, 'serve'))
        else:
            lines += [item, MARK]
            owners.append(Owner(place, None, 'line'))
    return lines, owners


def parts_of(out, owners):
    """The lines of an output by the lines that wrote them."""
    parts, at = {owner: [] for owner in owners}, 0
    for line in out.splitlines():
        if BAD.fullmatch(line):
            at += 1
        elif at < len(owners):
            parts[owners[at]].append(line)
    return parts


def members_of(lines):
    """The members of the tickets among some lines; none where they are not told."""
    return [line.split(b' ')[1].lstrip(b'0') for line in lines if line.startswith(b'ticket ') and b'*' not in line]


def with_item(items, owner, new):
    """A script with new lines behind the one that wrote a part of its output."""
    items = list(items)
    if owner.inner is not None:
        old = items[owner.place]
        items[owner.place] = Beside(old.cusip, old.lines[:owner.inner + 1] + new + old.lines[owner.inner + 1:])
    else:
        items[owner.place + 1:owner.place + 1] = new
    return items


class Script:
    """An input, and its script in the other form."""

    def __init__(self, name, command, text, library, folder):
        self.arguments = (command, library, folder)
        self.name = name
        self.head, _, script = text.partition(b'[script]\n')
        original = Example(name, command, text, library, folder)
        if original.whole[0] != 0:
            raise Failure('it ends by status %s' % original.whole[0])
        bad = {int(number) for number in BAD.findall(original.whole[1])}
        items = parsed(script.splitlines(), bad) + [b'REPORT']
        self.items = self.by_single_rows(items)
        self.example = self.made(self.head, self.items)
        self.owners = written(self.items)[1]
        self.whole = self.parts(self.example.whole[1])
        self.has_workers = '--workers' in command
        # Where workers run, no line tells here whose a ticket is: the members of the plan are those that draw without workers.
        self.by_number = self.whole
        if self.has_workers:
            place = command.index('--workers')
            alone = Example(name, command[:place] + command[place + 2:], self.example.text, library, folder)
            self.by_number = self.parts(alone.whole[1])
        self.report = last_report(self.example.whole[1].replace(b'\n' + self.last_mark(self.items) + b'\n', b'\n'))
        if self.report is None:
            raise Failure('it has no last report')

    def made(self, head, items):
        command, library, folder = self.arguments
        return Example(self.name, command, self.text(head, items), library, folder)

    @staticmethod
    def text(head, items):
        return head + b'[script]\n' + b''.join(line + b'\n' for line in written(items)[0])

    @staticmethod
    def last_mark(items):
        return b'line %d bad command' % len(written(items)[0])

    def parts(self, out):
        return parts_of(out, self.owners)

    def by_single_rows(self, items):
        """The items with a `TAKE 1` for each row that a `TAKE` takes."""
        whole = self.made(self.head, items).whole[1]
        parts = parts_of(whole, written(items)[1])
        found = []
        for place, item in enumerate(items):
            if isinstance(item, Beside):
                lines = []
                for inner, line in enumerate(item.lines):
                    lines += self.single(line, parts[Owner(place, inner, 'line')])
                found.append(Beside(item.cusip, lines))
            else:
                found += self.single(item, parts[Owner(place, None, 'line')])
        return found

    @staticmethod
    def single(line, told):
        return [b'TAKE 1'] * len(told) if line.startswith(b'TAKE ') and told else [line]

    def refused_at(self, out):
        """(whose, the line, the lines of the same part) of the first line that found no memory; None without one."""
        for owner, lines in self.parts(out).items():
            for line in lines:
                if line.endswith(REFUSED):
                    return owner, line, lines
        return None

    def repeated(self, owner, line, part):
        """(head, items, whether all is to be as in the whole run) with the line of a refused event once more."""
        item = self.items[owner.place]
        command = item.lines[owner.inner] if owner.inner is not None else item
        head, exact = self.head, True
        if owner.part == 'open':
            return head, with_item(self.items, owner, [b'ALLOCATE ' + item.cusip]), False
        if owner.part == 'serve' or (command.startswith(b'ALLOCATE ') and not line.startswith(b'lot ')):
            if any(told.startswith(b'close granted ') for told in part):       # workers were cut off, and the lot is closed
                cusip = item.cusip if owner.part == 'serve' else command.split(b' ')[1]
                return head, with_item(self.items, owner, [b'ALLOCATE ' + cusip]), False
            if owner.part == 'serve':
                opened = self.whole[Owner(owner.place, None, 'open')]
            else:
                opened = self.whole[owner]
            number = LOT.match(b'\n'.join(opened))[1]
            have = members_of(part)
            new = [b'RESERVE %s %s' % (number, member) for member in members_of(self.by_number[owner]) if member not in have]
            return head, with_item(self.items, owner, new + [b'CLOSE ' + number]), not self.has_workers
        if command.startswith(b'TAKE '):
            head = self.with_row_again(owner)
        if command == b'PUMP':
            exact = False
        return head, with_item(self.items, owner, [command]), exact

    def with_row_again(self, owner):
        """The text before the script with the row once more that a `TAKE 1` takes."""
        taken = 0
        for one in self.owners:
            taken += sum(told.startswith((b'trade ', b'row ')) for told in self.whole[one])
            if one == owner:
                break
        lines = self.head.split(b'\n')
        rows = [place for place, text in enumerate(lines) if text and place > lines.index(b'[trades]') + 1]
        place = rows[taken - 1]
        return b'\n'.join(lines[:place + 1] + [lines[place]] + lines[place + 1:])

    def judge(self, number):
        """NONE where no event was refused, GIVEN or MISSED where one was, and None or what is wrong."""
        (status, out, err), *_ = self.example.refuse(number)
        if status != 0 or err:
            return NONE, None                     # refuse_memory.py looks at how it ended
        found = self.refused_at(out)
        if found is None:
            return NONE, None
        owner, line, _ = found
        head, items, exact = self.repeated(*found)
        text = self.text(head, items)
        tries = TRIES_OF_WORKERS if self.has_workers else 1
        for near in NEAR * tries:
            (status, out, err), *_ = self.example.refuse(number + near, text)
            if status == 0 and not err and self.is_same_event(out, items, owner, line):
                return GIVEN, self.look(out, items, exact)
        if self.has_workers:
            return MISSED, None
        return GIVEN, 'no request near %d refuses the same event where its line stands once more' % number

    def is_same_event(self, out, items, owner, line):
        """Whether the first line that found no memory is this one of this owner, and there is no other."""
        parts = parts_of(out, written(items)[1])
        found = [(one, told) for one, lines in parts.items() for told in lines if told.endswith(REFUSED)]
        return found == [(owner, line)]

    def look(self, out, items, exact):
        """None, or what is wrong with a run that has the line once more."""
        report = last_report(out.replace(b'\n' + self.last_mark(items) + b'\n', b'\n'))
        if report != self.report:
            return 'the last report is another one: %r, not %r' % (report, self.report)
        if exact:
            told = [line for line in out.splitlines() if not BAD.fullmatch(line) and not line.endswith(REFUSED)]
            wanted = [line for line in self.example.whole[1].splitlines() if not BAD.fullmatch(line)]
            for one, other in zip(self.without_numbers(told) + [b''], self.without_numbers(wanted) + [b'']):
                if one != other:
                    return 'it writes %r, not %r' % (one, other)
        return None

    @staticmethod
    def without_numbers(lines):
        """Lines in which faulty rows have no numbers: a row that stands once more moves them."""
        return [TOLD_ROW.sub(b'row ', line) for line in lines]


def judge_all(program, words, preloaded, folder, pool):
    """Of the inputs or scenarios that the words name, how many refusals came to what they should, and how many did not."""
    passed = failed = 0
    for name, arguments, path in inputs_of(words):
        try:
            with open(path, 'rb') as file:
                script = Script(name, [program] + arguments, file.read(), preloaded, folder)
        except (Failure, OSError) as failure:
            print('FAIL %s: %s' % (name, failure))
            failed += 1
            continue
        right, met = 0, collections.Counter()
        numbers = range(1, script.example.requests + 1)
        for number, (how, wrong) in zip(numbers, pool.map(script.judge, numbers)):
            met[how] += 1
            if wrong:
                print('FAIL %s: request %d of %d refused: %s' % (name, number, script.example.requests, wrong))
                failed += 1
            elif how == GIVEN:
                right += 1
        passed += right
        print('%s: %d requests, %d events given once more, %d of them as they should be, %d not met again'
              % (name, script.example.requests, met[GIVEN], right, met[MISSED]))
        if met[MISSED] > met[GIVEN]:
            print('FAIL %s: more events were not met again than met' % name)
            failed += 1
    return passed, failed


if __name__ == '__main__':
    sys.exit(refuse_each(sys.argv[1:], judge_all))
