#!/usr/bin/env python3
"""Refuses a program each of its requests for memory, one in each run.

    refuse_memory.sh PROGRAM [FILE..]

Each FILE is an input of `run`, or of the words in the file NAME.args beside a NAME.in; without one they are
all of examples/, CASES of tests/cases/, CHECKS of tests/faults/, and OVER_JOURNALS once more with journals in files. `cusip 037833100`
comes with them, and what reads journals (READERS), over those of an auditor's afternoon. A first run counts the requests, then for each of them there is a run in which it, and no
other, gets no memory (refuse_memory.c, preloaded). Such a run must end within 20 seconds, in one of
these ways:

    by status 3 with `cnsd: out of memory` on standard error, and a first part of the whole output;
    as the whole run: what needed the memory can do without;
    by status 0 where a line of the output ends with `refused OutOfMemory`, and the lines before the
    first such line are those of the whole output.

A run with workers may have the members of its tickets in any order, and fewer requests than the first one, since a
thread may take the room of one that has ended: where a number is not reached in TRIES_OF_WORKERS runs, the run must
end as the whole one. One with journals in files has a new folder of them; a run after it, which is refused nothing,
must open what is left there, and where the first one ended by status 0 with a report it tells that report, with what
open lots were lent among the free shares.

Of the inputs in ENDS some run must end with the lines that stand there.

Every other end is told. The last line is `N passed, M failed`; the exit status is 0 where M is 0
and N is not.
"""
import collections
import glob
import os
import re
import shutil
import struct
import sys
import tempfile

from preload import SECONDS, Failure, refuse_each, run

HERE = os.path.dirname(os.path.abspath(__file__))
EXAMPLES = os.path.join(HERE, '..', 'examples')
CASES = ['two-trades-netted', 'cover-moved-in-part', 'earlier-longs-first', 'cycle-failed-and-kept', 'cycle-failed-and-dropped',
         'execution-failed-and-kept', 'restart-before-a-close', 'workers-before-a-report']
CHECKS = ['several-faults-in-one-row', 'opening-twice', 'header-missing', 'all-heads-missing', 'beside-in-beside', 'command-misspelt', 'good']
OVER_JOURNALS = [os.path.join(EXAMPLES, name) for name in ['cover-in-part', 'planned-failures', 'restarts-keep', 'lot-poured-twice']]
OVER_JOURNALS += [os.path.join(HERE, 'cases', name) for name in ['cover-moved-in-part', 'execution-failed-and-kept']]
# A restart without memory leaves the node down, its lots ended and its records there; workers that find no memory before their first
# ticket leave a lot that is closed with none.
ENDS = {
    'restart-before-a-close.in': b'restart refused OutOfMemory\nclose refused StaleLot\nsend refused Down\nrestart CLEAR records 6 kept no\n',
    'workers-before-a-report.in': b'lot 1 poured 40 longs 2\nreserve refused OutOfMemory\nclose granted 0\nREPORT cycle 2025-03-04 NIGHT\n'
                                  b'POS 037833100 0001                  -20\nPOS 037833100 0002                   30\n'
                                  b'POS 037833100 0003                   30\nPOOL 037833100 free 40 lent 0 out 0\n'
                                  b'BAL 037833100 0000                   40\nEND\n',
}
JOURNAL = '{journal}'
# What reads the journals of a folder, which stands for FOLDER.
READERS = [['journal', 'check', 'FOLDER'], ['journal', 'check', 'FOLDER', '--verbose', '--openings', 'FOLDER/openings.csv'], ['journal', 'dump', 'FOLDER/clear.journal'],
           ['journal', 'dump', 'FOLDER/depot.journal', '--csv'], ['explain', 'FOLDER', '640', '594918104']]
TRIES_OF_WORKERS = 4
CUSIP = '037833100'
MEMORY = b'cnsd: out of memory\n'
REFUSED = b' refused OutOfMemory'
POOL = re.compile(rb'(?m)^(POOL .{9}) free (\d+) lent (\d+) out')
TICKET = re.compile(rb'(?m)^ticket \d{4}')
DELIVERY = re.compile(rb'(?m)^(order \d+ DELIVERY) \d{4}')


def words_of(path):
    """The words of the command line of an input; one that names a folder of journals has a new one."""
    try:
        with open(os.path.splitext(path)[0] + '.args', encoding='utf-8') as words:
            return [JOURNAL if word.startswith('{journal') else word for word in words.read().split()]
    except OSError:
        return ['run']


def inputs_of(paths):
    """(name, words of the command line, path) of each input; without paths those that are tried."""
    if paths:
        return [(os.path.basename(path), words_of(path), path) for path in paths]
    found = sorted(glob.glob(os.path.join(EXAMPLES, '*.in')))
    found += [os.path.join(HERE, 'cases', name + '.in') for name in CASES]
    over = [path + '.in' for path in OVER_JOURNALS]
    return inputs_of(found) + [(os.path.basename(path) + ' over journals', ['run', '--journal', JOURNAL], path) for path in over]


def last_report(out):
    """The last report of an output, where it is the end of it; else None."""
    place = out.rfind(b'REPORT cycle ')
    return out[place:] if place >= 0 and out.endswith(b'\nEND\n') else None


def without_lots(report):
    """A report with the shares that are lent to open lots among the free ones, as they are where the lots have ended."""
    return POOL.sub(lambda found: b'%s free %d out' % (found[1], int(found[2]) + int(found[3])), report)


def in_any_order(out):
    """An output without the members of tickets and of delivery orders."""
    return DELIVERY.sub(rb'\1 *', TICKET.sub(b'ticket *', out))


# How a run ended and one after it over its journals, how many requests it had, how many were refused.
Refused = collections.namedtuple('Refused', 'ended after requests refused')


class Example:
    """A command line and an input, with the run that is refused nothing."""

    def __init__(self, name, command, text, library, folder):
        self.name, self.command, self.text = name, command, text
        self.library, self.folder = library, folder
        self.is_over_journals = JOURNAL in command
        # How some run must end, and whether one did.
        self.end, self.has_ended_so = ENDS.get(name), False
        self.has_workers = '--workers' in command
        self.whole = self.run(text, {})[0]
        counted, _, self.requests, _ = self.refuse(0)
        if self.whole[0] not in (0, 1, 2):
            raise Failure('the whole run: status %s, standard error %r' % (self.whole[0], self.whole[2][:200]))
        if counted != self.whole:
            raise Failure('the run with the counting library differs from the run without it')
        if self.requests == 0:
            raise Failure('no request for memory was counted')

    def run(self, text, more):
        """How a run of a text ended, and how one over the same journals ended that came after it; None without journals."""
        if not self.is_over_journals:
            return self.told(run(self.command, text, more)), None
        folder = tempfile.mkdtemp(dir=self.folder)
        command = [folder if word == JOURNAL else word for word in self.command]
        ended = run(command, text, more)
        head = text[:text.index(b'[trades]')]
        after = run(command, head + b'[trades]\n[script]\nRESTART CLEAR\nRESTART DEPOT\nREPORT\n', {})
        shutil.rmtree(folder)
        return self.told(ended), after

    def told(self, ended):
        """How a run ended; its output without what workers may do in any order."""
        status, out, err = ended
        return status, in_any_order(out) if self.has_workers else out, err

    def refuse(self, number, text=None):
        """The run whose request of this number is refused: of the text that is given, or of the example's own."""
        with tempfile.NamedTemporaryFile(dir=self.folder) as counts:
            ended, after = self.run(self.text if text is None else text,
                                    {'LD_PRELOAD': self.library, 'REFUSE_AT': str(number), 'REFUSE_COUNTS': counts.name})
            try:
                requests, refused = struct.unpack('=QQ', counts.read())
            except struct.error:
                requests, refused = 0, 0
        return Refused(ended, after, requests, refused)

    def refuse_once(self, number):
        """The run whose request of this number is refused; where workers run, the last of some that did not have so many."""
        for _ in range(TRIES_OF_WORKERS if self.has_workers else 1):
            ran = self.refuse(number)
            if ran.refused:
                break
        return ran

    def judge(self, number):
        """None, or what is wrong with the run whose request of this number is refused."""
        (status, out, err), after, _, refused = self.refuse_once(number)
        if self.end and status == 0 and out.endswith(self.end):
            self.has_ended_so = True
        if status is None:
            return 'no end within %d seconds' % SECONDS
        if refused == 0 and self.has_workers:
            return None if (status, out, err) == self.whole else 'no request was refused, and the run is another'
        if refused != 1:
            return '%d requests were refused' % refused
        wrong = self.judge_after(status, out, after) if self.is_over_journals else None
        if wrong:
            return wrong
        if (status, out, err) == self.whole:
            return None
        if status == 3 and err == MEMORY and self.whole[1].startswith(out):
            return None
        if status == 0 and err == b'' and self.is_refusal(out):
            return None
        return '%s\n%s' % ('ended by signal %d' % -status if status < 0 else 'status %d' % status,
                           self.first_difference(out, err))

    def judge_after(self, status, out, after):
        """None, or what is wrong with the run over the journals that a run with this end left."""
        if after[0] != 0 or after[2]:
            return 'the journals are not opened after it: status %s, standard error %r' % (after[0], after[2][:200])
        wanted, told = last_report(out) if status == 0 else None, last_report(after[1])
        if told is None or (wanted is not None and without_lots(wanted) != without_lots(told)):
            return 'the journals tell another report after it'
        return None

    def is_refusal(self, out):
        lines, whole = out.split(b'\n'), self.whole[1].split(b'\n')
        for place, line in enumerate(lines):
            if line.endswith(REFUSED):
                return lines[:place] == whole[:place]
        return False

    def first_difference(self, out, err):
        lines, whole = out.split(b'\n'), self.whole[1].split(b'\n')
        told = ['standard error: %r' % err[:200]]
        for place in range(max(len(lines), len(whole))):
            wanted = whole[place] if place < len(whole) else b''
            written = lines[place] if place < len(lines) else b''
            if wanted != written:
                told += ['output line %d:' % (place + 1), '- ' + repr(wanted[:160]), '+ ' + repr(written[:160])]
                break
        return '\n'.join('    ' + line for line in told)


def readers(program, folder):
    """The same of READERS, over the journals of two days in a new folder, which they leave as they are."""
    kept = tempfile.mkdtemp(dir=folder)
    for day in ('1', '2'):
        with open(os.path.join(EXAMPLES, 'auditor-afternoon-%s.in' % day), 'rb') as text:
            ended = run([program, 'run', '--journal', kept, '--intact'], text.read(), {})
        if ended[0] != 0:
            raise Failure('the journals that are read were not made: status %s' % ended[0])
    return [(' '.join(words), [word.replace('FOLDER', kept) for word in words], os.devnull) for words in READERS]


def judge_all(program, words, preloaded, folder, pool):
    """Of the inputs or scenarios that the words name, how many refusals came to what they should, and how many did not."""
    passed = failed = 0
    inputs = inputs_of(words)
    if not words:
        inputs += inputs_of([os.path.join(HERE, 'faults', name + '.in') for name in CHECKS])
        inputs += readers(program, folder)
    inputs.append(('cusip %s' % CUSIP, ['cusip', CUSIP], os.devnull))
    for name, arguments, path in inputs:
        try:
            with open(path, 'rb') as file:
                example = Example(name, [program] + arguments, file.read(), preloaded, folder)
        except (Failure, OSError) as failure:
            print('FAIL %s: %s' % (name, failure))
            failed += 1
            continue
        right = 0
        numbers = range(1, example.requests + 1)
        for number, wrong in zip(numbers, pool.map(example.judge, numbers)):
            if wrong:
                print('FAIL %s: request %d of %d refused: %s' % (name, number, example.requests, wrong))
                failed += 1
            else:
                right += 1
        passed += right
        print('%s: %d requests, %d of their refusals as they should be' % (name, example.requests, right))
        if example.end and not example.has_ended_so:
            print('FAIL %s: no run ended with %r' % (name, example.end[:160]))
            failed += 1
    return passed, failed


if __name__ == '__main__':
    sys.exit(refuse_each(sys.argv[1:], judge_all))
