#!/usr/bin/env python3
"""Refuses the calls of the nodes, of the keepers and of batches each of their requests for memory, one in each run.

    refuse_calls.py PROGRAM [SCENARIO..]

PROGRAM is tests/calls, which refuse_calls.sh builds: it gives calls in a fixed order and writes a line for each, its place, its
name, what it answered, and behind a semicolon what is then to be seen. A call that answers want of memory writes a line
`again` with what is to be seen after that, and is given once more. Each SCENARIO, without one all of SCENARIOS, is run with
nothing refused; then for each of its requests for memory there is a run in which it, and no other, gets no memory
(refuse_memory.c, preloaded). Such a run must end within 20 seconds, in one of these ways:

    by status 0, with the lines of the whole run, and one line `again`, of the call whose request it was. It shows what the
    line before it shows, since nothing has changed, but for the calls of CHANGES;
    the same without a line `again`: the call does without that memory. Of which calls that is so is told. Such a request is
    refused once more in a run of its own, with the next one: a list that grows asks for less where it gets no more;
    by status 3 with `calls: no memory to begin` on standard error and no line, where the request comes before the first call.

Runs of no call, of one, of two and so on tell whose request each is. Where workers run (WITH_WORKERS) they may draw in any
order, and a run may have other requests than the first one, since a thread may take the room of one that has ended: where
a number is not reached in TRIES_OF_WORKERS runs, the run must be as the whole one.

The last line is `N passed, M failed`, where N are the requests that were refused; the exit status is 0 where M is 0 and N
is not.
"""
import collections
import re
import struct
import sys
import tempfile

from preload import SECONDS, Failure, refuse_each, run
from refuse_memory import TRIES_OF_WORKERS

# The scenarios, each with the calls that take memory in it. Each of these must be given once more at some refusal; the other
# calls take none.
SCENARIOS = {
    'list-keeper': 'commit reopen',
    'disk-journal': 'commit of power reopen',
    'clearing': 'cycle exempt lot_close lot_open lot_open_with lot_plan open open_lots pools priority restart rows take_reply take_trade',
    'depository': 'add balances instruct open restart take_order',
    'system': 'Cycle Exempt LotClose LotOpen OrderIn Own Priority ReplyIn RestartClear RestartDepot Send Trade open run unconfirmed',
    'floor': 'Cycle LotOpen OrderIn ReplyIn RestartClear RestartDepot Send Trade begin finish open unconfirmed',
    'desk': 'Cycle OrderIn ReplyIn Send Trade allocate open',
    'workers': 'Cycle OrderIn ReplyIn Send Trade allocate open',
    'batch': 'run_batch run_desk',
    'kept': 'run_batch_kept',
    'kept-on-disks': 'run_batch_kept',
}
WITH_WORKERS = ('desk', 'workers', 'batch')
# More calls than a scenario has.
ALL_CALLS = 1000
BEFORE = b'calls: no memory to begin\n'
AGAIN = b'again '
# Parts of what is seen: the shares that are free and lent, and whether a node, or both, are down.
LENT = re.compile(rb'free (\d+) lent (\d+) ')
DOWN = re.compile(rb' down (?:true|false)\b')
BOTH_DOWN = re.compile(rb' down (true|false) (true|false)')


def without_lots(text):
    """What is seen where the lots have ended: their shares are free."""
    text = LENT.sub(lambda found: b'free %d lent 0 ' % (int(found[1]) + int(found[2])), text)
    return text.replace(b' open true ', b' open false ')


def down(text):
    """What is seen of a node that is down."""
    return DOWN.sub(b' down true', text)


def clear_down(text):
    """What is seen of both nodes where the clearing node is down."""
    return BOTH_DOWN.sub(rb' down true \2', text)


def depot_down(text):
    """What is seen of both nodes where the depository is down."""
    return BOTH_DOWN.sub(rb' down \1 true', text)


# What may be seen after calls that want memory and change something, by what was seen before; None: anything. A restart ends the
# lots of the clearing node and leaves its node down. A disk in memory fails where it has none, and its journal is then down.
# Of events at once those after the one that wants memory come to pass; an allocation leaves its lot open, or closed with
# some of its tickets.
CHANGES = {
    ('disk-journal', b'commit'): lambda text: [text, down(text)],
    ('disk-journal', b'reopen'): lambda text: [text, down(text)],
    ('clearing', b'restart'): lambda text: [down(without_lots(text))],
    ('depository', b'restart'): lambda text: [down(text)],
    ('system', b'RestartClear'): lambda text: [clear_down(without_lots(text))],
    ('system', b'RestartDepot'): lambda text: [depot_down(text)],
    ('system', b'run'): None,
    ('floor', b'RestartClear'): lambda text: [clear_down(without_lots(text))],
    ('floor', b'RestartDepot'): lambda text: [depot_down(text)],
    ('desk', b'allocate'): None,
    ('workers', b'allocate'): None,
}
LINE = re.compile(rb'(\d+) ([a-zA-Z_]+): ')
GIVEN_AGAIN = re.compile(rb'again (\d+) ([a-zA-Z_]+); ')
TICKET = re.compile(rb'(\|ticket) \d{4}')
DELIVERY = re.compile(rb'(\|order \d+ DELIVERY) \d{4}')

# How a run ended, how many requests it had, and how many were refused.
Ran = collections.namedtuple('Ran', 'ended requests refused')

# Whose a refused request is: the name of a call, or none before the first; after how many refusals in a row it was given
# once more, 0 where it was not; and what is wrong, or None.
Judged = collections.namedtuple('Judged', 'name again wrong')

# How many requests in a row are refused at most.
MOST_IN_A_ROW = 2


def seen(line):
    """What a line shows behind its semicolon."""
    return line.partition(b'; ')[2]


class Scenario:
    """A scenario, with the run that is refused nothing."""

    def __init__(self, name, program, preloaded, folder):
        self.name, self.program = name, program
        self.preloaded, self.folder = preloaded, folder
        self.has_workers = name in WITH_WORKERS
        whole = self.refuse(0)
        status, out, err = whole.ended
        if status != 0 or err:
            raise Failure('the whole run: status %s, standard error %r' % (status, err[:200]))
        self.requests, self.lines = whole.requests, out.splitlines()
        self.names = [self.named(place, line) for place, line in enumerate(self.lines)]
        # How many requests come before the end of no call, of one, of two and so on.
        self.up_to = [self.refuse(0, 1, calls).requests for calls in range(len(self.lines) + 1)]
        if not self.lines or self.requests <= self.up_to[0]:
            raise Failure('no call, or none that wants memory')

    @staticmethod
    def named(place, line):
        """The name of the call of a line of the whole run."""
        found = LINE.match(line)
        if not found or int(found[1]) != place:
            raise Failure('line %d of the whole run is %r' % (place + 1, line[:160]))
        return found[2]

    def refuse(self, number, many=1, calls=ALL_CALLS):
        """The run of so many calls of whose requests so many in a row from this number on are refused."""
        with tempfile.NamedTemporaryFile(dir=self.folder) as counts:
            status, out, err = run([self.program, self.name, str(calls)], b'',
                                   {'LD_PRELOAD': self.preloaded, 'REFUSE_AT': str(number), 'REFUSE_HOW_MANY': str(many),
                                    'REFUSE_COUNTS': counts.name})
            requests, refused = struct.unpack('=QQ', counts.read().ljust(16, b'\0'))
        if self.has_workers:
            out = DELIVERY.sub(rb'\1 *', TICKET.sub(rb'\1 *', out))
        return Ran((status, out, err), requests, refused)

    def refuse_some(self, number, many):
        """The run whose requests from this number on are refused; where workers run, the last of some that did not have so many."""
        for _ in range(TRIES_OF_WORKERS if self.has_workers else 1):
            ran = self.refuse(number, many)
            if ran.refused:
                break
        return ran

    def place_of(self, number):
        """The place of the call whose request this is; -1 before the first call."""
        return next((place for place, last in enumerate(self.up_to) if number <= last), len(self.lines)) - 1

    def judge(self, number):
        """Whose request a number is, and what came of its refusal, and of that with the next ones where it does without."""
        for many in range(1, MOST_IN_A_ROW + 1):
            judged = self.judge_some(number, many)
            if judged.again or judged.wrong or judged.name is None:
                break
        return judged

    def judge_some(self, number, many):
        """Whose request a number is, and what came of the refusal of so many in a row from it on."""
        ran = self.refuse_some(number, many)
        (status, out, err), place = ran.ended, self.place_of(number)
        name = self.names[place].decode() if place >= 0 else None
        if status is None:
            return Judged(name, 0, 'no end within %d seconds' % SECONDS)
        if place < 0 and (status, out, err) == (3, b'', BEFORE):
            return Judged(None, 0, None)
        if status != 0 or err:
            return Judged(name, 0, 'status %s, standard error %r' % (status, err[:200]))
        if not 1 <= ran.refused <= many and not self.has_workers:
            return Judged(name, 0, '%d requests were refused' % ran.refused)
        again, wrong = self.look(out.splitlines(), place, many)
        return Judged(name, many if again else 0, wrong)

    def look(self, lines, place, many):
        """Whether the call of a place was given once more, where so many requests were refused; and what is wrong with the
        lines of the run, or None."""
        rest = [line for line in lines if not line.startswith(AGAIN)]
        if rest != self.lines:
            return False, self.first_difference(rest)
        if len(lines) - len(rest) > many:
            return False, '%d calls were given once more' % (len(lines) - len(rest))
        was_given, at, before = False, 0, None
        for line in lines:
            if not line.startswith(AGAIN):
                at, before = at + 1, line
                continue
            wrong = self.look_again(line, at, before)
            # Of requests in a row the last may be one of a later call.
            if not wrong and at != place and (many == 1 or at < place) and not self.has_workers:
                wrong = 'the request is one of call %d, and call %d was given once more' % (place, at)
            if wrong:
                return False, wrong
            was_given = was_given or at == place or self.has_workers
        return was_given, None

    def look_again(self, line, at, before):
        """What is wrong with a line that tells that the call at a place is given once more, behind the line before it; or None."""
        told = GIVEN_AGAIN.match(line)
        if not told or int(told[1]) != at or told[2] != self.names[at]:
            return 'before call %d stands %r' % (at, line[:160])
        allowed = CHANGES.get((self.name, told[2]), lambda text: [text])
        if before is None or allowed is None or seen(line) in allowed(seen(before)):
            return None
        return 'call %d changed\n    - %r\n    + %r' % (at, seen(before)[:300], seen(line)[:300])

    def first_difference(self, rest):
        for place in range(max(len(rest), len(self.lines))):
            wanted = self.lines[place] if place < len(self.lines) else b''
            written = rest[place] if place < len(rest) else b''
            if wanted != written:
                return 'call %d:\n    - %r\n    + %r' % (place, wanted[:300], written[:300])
        return 'no difference'


def tell(scenario, judged):
    """Prints of each call how often it was given, how many requests it has, and after how many it was given once more. Answers
    what is wrong with these numbers."""
    given = collections.Counter(name.decode() for name in scenario.names)
    requests = collections.Counter(one.name for one in judged)
    again = collections.Counter((one.name, one.again) for one in judged)
    print('%s: %d calls, %d requests, %d of them before the first call'
          % (scenario.name, len(scenario.lines), len(judged), requests[None]))
    for name in sorted(given):
        told = '%d times, %d requests, %d given once more' % (given[name], requests[name], again[name, 1])
        if again[name, 2]:
            told += ', %d more where the next request is refused too' % again[name, 2]
        if again[name, 0]:
            told += ', %d done without' % again[name, 0]
        print('    %s: %s' % (name, told))
    takes_memory = SCENARIOS[scenario.name].split()
    wrong = ['%s was not given once more' % name for name in takes_memory if not again[name, 1] + again[name, 2]]
    return wrong + ['%s takes memory' % name for name in sorted(given) if requests[name] and name not in takes_memory]


def judge_all(program, words, preloaded, folder, pool):
    """Of the inputs or scenarios that the words name, how many refusals came to what they should, and how many did not."""
    passed = failed = 0
    for name in words or SCENARIOS:
        if name not in SCENARIOS:
            print('FAIL no scenario %s' % name)
            failed += 1
            continue
        try:
            scenario = Scenario(name, program, preloaded, folder)
        except Failure as failure:
            print('FAIL %s: %s' % (name, failure))
            failed += 1
            continue
        judged = list(pool.map(scenario.judge, range(1, scenario.requests + 1)))
        for wrong in tell(scenario, judged):
            print('FAIL %s: %s' % (name, wrong))
            failed += 1
        for number, one in enumerate(judged, 1):
            if one.wrong:
                print('FAIL %s: request %d of %d, of %s, refused: %s'
                      % (name, number, scenario.requests, one.name or 'no call', one.wrong))
                failed += 1
            else:
                passed += 1
    return passed, failed


if __name__ == '__main__':
    sys.exit(refuse_each(sys.argv[1:], judge_all))
