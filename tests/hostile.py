#!/usr/bin/env python3
"""Runs a program on inputs that are meant to harm it, many in a second, and looks at how each run ends.

    tests/hostile.sh PROGRAM [--seed N] [--count K] [--from F] [--lanes L] [--seconds S] [--part NAME] [--left FOLDER]
                     [--corpus FOLDER] [--journals FOLDER] [--write-seeds FOLDER]

The parts, all of them where none is named:

    cases       the inputs of tests/hostile/, each of which a run of this script found once
    changed     K inputs of seed N (100,000 of seed 1), from number F on: texts of examples/, tests/cases/ and of the random
                inputs of oracle/, both journals of runs over a folder, and command lines, each changed in some places
                (hostile_inputs.py)
    prefixes    every proper prefix of ten examples
    bytes       every example with one byte changed, at each place
    large       64 MiB of one byte, of any bytes, of one line, of the longest rows that there may be; and one byte more
    corpus      the files of the folder of --corpus, and of that of --journals, which are two journals and a text each (guided.c)
    resources   what runs out beside memory: a disk, a file, descriptors, readers, rights, stack (hostile_resources.py)

Of each run it is asked that it ends by itself, without a signal; by status 0 with nothing on standard error, by 1 where its
command line is faulty or its text no CUSIP, by 2 or 3 with one of the lines that docs/FORMATS.md has for them; at 2, and where a journal
failed, with nothing on standard output; that it writes lines of the forms of docs/FORMATS.md alone; and that a processor's time
and its memory are within a bound that grows with its bytes (`time_bound`, `memory_bound`). One text in fifty is also compared with
the second reading (oracle/cnsd_oracle.py).
Over journals there is a second run: where the first was refused it is refused by the same words, else it opens what is
left and its report is the last one of the first run.

What is found is told, and left in FOLDER (hostile-found) as the files of a case without its output; a text with as many lines left
out as still show it. The program runs by hostile.c, from as many processes as there are lanes (1). With --seconds the part
`changed` ends after so many.
The last line is `N passed, M failed`; the exit status is 0 where M is 0 and N is not.

These inputs are not led by what they reach in the program. AFL++ leads its own: guided.sh instruments a build that proves nothing and
runs them. It tells a signal, a wrong status and want of time or memory alone; so the inputs that it keeps are looked at here as texts
of `run`, all beside the second reading: `--part corpus --corpus FOLDER`. libFuzzer wants a function in one process, which this
program is not: it ends by `exit`, and its journals and workers are the process's own. --write-seeds leaves the journals and texts of
runs in a folder, as the inputs that AFL++ begins with.
"""
import argparse
import collections
import concurrent.futures
import itertools
import multiprocessing
import os
import random
import re
import shutil
import struct
import subprocess
import sys
import tempfile
import time

import hostile_inputs
from crash import journal, records
from hostile_inputs import CLOSING, Input, cnsd_oracle, fuzz, only_closing, with_closing, without_journal
from hostile_resources import check_resources
from preload import IN_MEMORY, Failure, is_program, say_end

HERE = os.path.dirname(os.path.abspath(__file__))
CASES = os.path.join(HERE, 'hostile')
PARTS = ['cases', 'changed', 'prefixes', 'bytes', 'large', 'corpus', 'resources']
TEN = ['plain-night', 'cover-in-part', 'lot-poured-twice', 'restarts-keep', 'planned-failures', 'repeats-and-reordering',
       'priority-before-need', 'sealed-lot', 'lines-beside-a-lot', 'two-days-1']
NONE, STAYS = 0xFFFFFFFF, 0xFFFFFFFE
LATE = 2000
MADE_TEXTS = 200
AT_ONCE = 500                        # inputs that a lane is given at once
ORACLE_EVERY = 50
# The options of `run`, and values of them that are lawful here.
OPTIONS = {b'--journal': [b'j'], b'--workers': [b'%d' % number for number in range(65)],
           b'--shake': [b'%d' % number for number in (*range(100), cnsd_oracle.SHAKE_LIMIT - 1, cnsd_oracle.SHAKE_LIMIT)]}
LARGE_SECONDS = 300
MOST_TOLD = 20                       # findings that are told and left; more are counted alone
FAULTS = [b'cnsd: input cannot be read\n', b'cnsd: input too long\n', b'cnsd: bad sections\n', b'cnsd: bad rows\n']
FAILURES = [b'cnsd: journal failed\n', b'cnsd: output failed\n', b'cnsd: out of memory\n']
JOURNAL = b'cnsd: journal failed\n'
CLOSING_WORDS = {b'restart', b'REPORT', b'POS', b'POOL', b'BAL', b'END', b''}
REFUSED = (rb'refused (?:Down|SameMember|Same|Conflict|Full|Device|CycleOrder|LotsOpen|NumbersSpent|LotAlready|LotsSpent|NoLot|StaleLot|'
           rb'LotBusy|NotLong|EarlierGroup|Sealed|Unserved|UnknownMove|NoPacket|TooMuch|TooFew|IssueSum|NotPlanned)')
ROW = (rb'fault (?:Fields|Id|(?:Buyer|Seller|Account|Quantity|Shares) (?:BadNumber|OutOfRange)|Settle BadDate|Double|IssueSum|'
       rb'Cusip (?:Length|BadChar [1-9]|CheckDigit \d))')
LINES = re.compile(
    rb'(?:(?:trade [A-Z0-9]{1,16} (?:accepted|' + REFUSED + rb')|(?:opening )?row \d+ ' + ROW + rb'|line \d+ bad command|'
    rb'(?:exempt|priority|seal|fail) ok|cycle \d{4}-\d\d-\d\d (?:NIGHT|DAY) due \d+|order \d+ (?:COVER|DELIVERY) \d{4} [0-9A-Z*@#]{9} \d+|'
    rb'lot \d+ poured \d+ longs \d+|pour \d+|ticket \d{4} start \d+ asked \d+|look poured \d+ asked \d+ sealed (?:yes|no)|'
    rb'close granted \d+|send \d+ packet \d+|(?:exec|again) \d+ moved \d+ packet \d+|confirm \d+ moved \d+ (?:done|again)|'
    rb'restart (?:CLEAR|DEPOT) records \d+ kept (?:yes|no)|'
    rb'(?:deposit|withdraw) \d{4} number \d+ (?:done|again)|'
    rb'(?:exempt|priority|cycle|lot|pour|reserve|look|seal|close|send|order|reply|deposit|withdraw|fail|restart) ' + REFUSED + rb'|'
    rb'REPORT cycle (?:none|\d{4}-\d\d-\d\d (?:NIGHT|DAY))|POS [0-9A-Z*@#]{9} \d{4} [ \d-]{20}|'
    rb'POOL [0-9A-Z*@#]{9} free \d+ lent \d+ out \d+|BAL [0-9A-Z*@#]{9} \d{4} [ \d-]{20}|END)\n)*')
# What stands on standard error beside a fault: notes of a check, how far a run is, and what is wrong with a text that is no table's.
NOTES = re.compile(rb'\A(?:-:\d+: note: trade `\w+` stands in line \d+ too: [^\n]*\n)+\d+ ids? comes? again[^\n]*\n')
PROGRESS = re.compile(rb'^cnsd: \d+ commands run, \d+ bytes written\n', re.M)
NO_TABLE = re.compile(rb'cnsd: (?:line \d+ is no line of a report|the last report has no END)\n')
TABLE_HEAD = b'report,date,kind,row,cusip,account,free,lent,out,shares\n'
COUNTS = re.compile(rb'cnsd: \d+ rows? faulty, \d+ trades? refused, \d+ bad lines?, \d+ events? refused, \d+ device failures?\n')
TOLD = re.compile(rb'(?:[^\n]+:\d+: [^\n]+\n)+\d+ faults?: \d+ of heads and headers, \d+ of openings, \d+ of trades, \d+ of the script(?:; \d+ of these are not shown)?\n')
CUSIP_ANSWER = re.compile(rb'(?:(?:ok|Length|BadChar [1-9]|CheckDigit \d)\n)+')


def time_bound(size):
    """The microseconds of a processor that a run of so many bytes, read and written, may take."""
    return 100000 + 3 * size


def memory_bound(size):
    """The KiB that it may take."""
    return 6 * 1024 + 12 * size // 1024


Ended = collections.namedtuple('Ended', 'status time memory out err')


class Driver:
    """Runs a program by hostile.c, in a room of its own."""

    def __init__(self, driver, program, folder):
        self.room = tempfile.mkdtemp(dir=folder)
        self.process = subprocess.Popen([driver, program, self.room], stdin=subprocess.PIPE, stdout=subprocess.PIPE)

    def run(self, words, text, journals=(STAYS, STAYS), seconds=20):
        """How a run ended. A journal is its bytes, None for no file, or STAYS."""
        line = b''.join(word + b'\0' for word in words)
        sizes = [one if one == STAYS else NONE if one is None else len(one) for one in journals]
        held = b''.join(one for one in journals if isinstance(one, bytes))
        size = len(text) + len(held)
        # Each thread has a stack and an arena of its own, of which next to nothing is written.
        space = 64 * 1024 + 64 * size // 1024 + 256 * 1024 * workers_in(words)
        order = struct.pack('=7I', len(line), len(text), *sizes, min(space, 2 ** 31), seconds, 2 * seconds)
        try:
            self.process.stdin.write(order + line + text + held)
            self.process.stdin.flush()
            told = self.process.stdout.read(48)
            status, spent, memory, out, err, _ = struct.unpack('=6Q', told)
        except (OSError, struct.error):
            raise Failure('the driver ended') from None
        return Ended(status, spent, memory, self.read('out', out), self.read('err', err))

    def read(self, name, size):
        if size == 0:
            return b''
        with open(os.path.join(self.room, name), 'rb') as file:
            return file.read()

    def path(self, side):
        return os.path.join(self.room, 'at', 'j', side + '.journal')

    def kept(self):
        """The bytes of both journals as they are."""
        found = []
        for side in ('clear', 'depot'):
            try:
                with open(self.path(side), 'rb') as file:
                    found.append(file.read())
            except OSError:
                found.append(None)
        return tuple(found)

    def close(self):
        self.process.stdin.close()
        self.process.wait()
        shutil.rmtree(self.room, ignore_errors=True)


def compiled(folder):
    """The program of hostile.c."""
    path = os.path.join(folder, 'hostile')
    done = subprocess.run(['cc', '-O1', '-o', path, os.path.join(HERE, 'hostile.c')], capture_output=True, text=True)
    if done.returncode:
        raise Failure('hostile.c cannot be compiled\n%s' % done.stderr)
    return path


def workers_in(words):
    """As many workers as a command line may mean at most."""
    if not any(b'--workers' in word for word in words):
        return 0
    numbers = [int(word.rpartition(b'=')[2]) for word in words if word.rpartition(b'=')[2].isdigit() and len(word) < 20]
    return max([2, *(number for number in numbers if number <= 64)])


def shaken_by(words):
    """(whether a command line runs a text in turn, the number that shakes it or None)."""
    if words == [b'run']:
        return True, None
    is_shaken = words[:2] == [b'run', b'--shake'] and len(words) == 3 and is_run(words)
    return is_shaken, int(words[2]) if is_shaken else None


def is_run(words):
    """Whether a command line is a lawful one of `run`, by OPTIONS."""
    names, values = words[1::2], words[2::2]
    return words[:1] == [b'run'] and len(names) == len(values) == len(set(names)) and \
        all(value in OPTIONS.get(name, ()) for name, value in zip(names, values))


def judge_table(status, out, err):
    """None, or what is wrong with how `table` ended."""
    if status == 2 and (err in FAULTS or NO_TABLE.fullmatch(err)):
        return None if out in (b'', TABLE_HEAD) or out.startswith(TABLE_HEAD) else 'a table with no head: %r' % out[:200]
    if status == 0 and not err and out.startswith(TABLE_HEAD):
        return None
    return 'status %d of a table with standard error %r' % (status, err[:200])


def judge_end(words, size, ended):
    """None, or what is wrong with how a run ended."""
    status, spent, memory, out, err = ended
    size += len(out)
    if status == LATE:
        return 'no end in time'
    if status >= 1000:
        return 'signal %d' % (status - 1000)
    if status == 121:
        return None                              # the command line is longer than the system takes
    if status > 4 or (status == 4 and b'--strict' not in words):
        return 'status %d' % status
    if spent > time_bound(size):
        return '%d microseconds for %d bytes' % (spent, size)
    if memory > memory_bound(size):
        return '%d KiB for %d bytes' % (memory, size)
    if words[:1] == [b'check']:
        err = NOTES.sub(b'', err)
    if b'--progress' in words:
        err = PROGRESS.sub(b'', err)
    if words in ([b'table'], [b'table', b'--last']) and status in (0, 2):
        return judge_table(status, out, err)
    if b'--strict' in words and COUNTS.fullmatch(err):
        return None if status != 1 and status != 2 and LINES.fullmatch(out) else 'status %d of a strict run with %r' % (status, err)
    if words[:1] == [b'check'] and status == 1 and out:
        return None if TOLD.fullmatch(out) and not err else 'a check with %r and standard error %r' % (out[-200:], err[:200])
    if words[:1] == [b'check'] and status == 2 and err.startswith(b'cnsd: ') and not out:
        return None
    if status == 0 and err:
        return 'status 0 with standard error %r' % err[:200]
    if status == 1:
        if is_run(words):
            return 'status 1 of a lawful command line'
        if out and (words[:1] != [b'cusip'] or not CUSIP_ANSWER.fullmatch(out) or err):
            return 'status 1 with standard output %r' % out[:200]
        if not out and not err:
            return 'status 1 without a word'
    if status == 2 and (out or err not in FAULTS):
        return 'status 2 with %r and standard error %r' % (out[:200], err[:200])
    if status == 3 and (err not in FAILURES or (err == JOURNAL and out)):
        return 'status 3 with %r and standard error %r' % (out[:200], err[:200])
    if status == 3 and err != JOURNAL:
        return 'status 3 with %r' % err              # nothing of this was taken away
    if is_run(words) and not LINES.fullmatch(out):
        left = out[LINES.match(out).end():]
        return 'a line of no form: %r' % left.split(b'\n')[0][:200]
    return None


def last_closing(out):
    """What the closing lines of a script wrote, without what a lot tells that they end; None where they did not."""
    place = out.rfind(b'restart CLEAR ')
    if place < 0:
        return None
    return b'\n'.join(line for line in out[place:].split(b'\n') if line.split(b' ')[0] in CLOSING_WORDS)


def judge(driver, one, with_oracle=False):
    """(what is wrong or None, a word for how it ended)."""
    journals = one.journals if one.journals is not None else (None, None)
    ended = driver.run(one.words, one.text, journals)
    wrong = judge_end(one.words, one.size(), ended)
    said = 'status %d %s' % (ended.status, ended.err.decode('ascii', 'replace').strip() if ended.status in (2, 3) else '')
    if wrong:
        return wrong, said
    if one.want is not None and not fuzz.agree(one.want, ended_as_told(ended)):
        return 'another answer than that of the second reading: %r' % (ended_as_told(ended),), said
    is_in_turn, shake = shaken_by(one.words)
    if with_oracle and is_in_turn:
        want = cnsd_oracle.answer(one.text, shake)
        if not fuzz.agree(want, ended_as_told(ended)):
            return 'another answer than that of the second reading', said
    if one.journals is not None and is_run(one.words):
        wrong = judge_again(driver, one, ended)
        said = 'journals: ' + said
    return wrong, said


def ended_as_told(ended):
    return ended.status, ended.out, ended.err


def judge_again(driver, one, first):
    """None, or what is wrong with a second run over the journals that a first one left."""
    left = driver.kept()
    if first.status == 3:
        again = driver.run(one.words, one.text)
        if ended_as_told(again) != ended_as_told(first):
            return 'a second run over the refused journals ended by %r' % (ended_as_told(again),)
        if driver.kept() != left:
            return 'a second run over the refused journals changed them'
        return None
    closing = only_closing(one.text)
    if first.status != 0 or closing is None:
        return None
    again = driver.run([b'run', b'--journal', b'j'], closing)
    wrong = judge_end(one.words, len(one.text) + sum(len(file or b'') for file in left), again)
    if wrong:
        return 'a second run: %s' % wrong
    if again.status != 0:
        return 'a second run is refused: %r' % (again.err,)
    wanted, told = last_closing(first.out), last_closing(again.out)
    if one.text.endswith(CLOSING) and wanted is not None and wanted.endswith(b'END\n') and wanted != told:
        return 'a second run reports %r after %r' % (told[-300:], wanted[-300:])
    return None


# What the lanes share; it is set before they begin.

class Room:
    """The driver and the inputs of a lane."""

    driver = None
    program = folder = compiled = texts = kept = seed = None

    @classmethod
    def ready(cls):
        if cls.driver is None:
            cls.driver = Driver(cls.compiled, cls.program, cls.folder)
        return cls.driver


def kept_by_runs(driver, texts):
    """(text, records of the first journal, of the second) of runs over a folder."""
    found = []
    for _, _, text in texts:
        if b'[trades]' not in text or b'[script]\n' not in text or len(text) > 20000:
            continue
        ended = driver.run([b'run', b'--journal', b'j'], text, (None, None))
        if ended.status == 0 and None not in driver.kept():
            found.append((text, records(driver.path('clear')), records(driver.path('depot'))))
    if not found:
        raise Failure('no run of an example keeps journals')
    return found


def run_changed(numbers):
    """(how many passed, Counter of ends, findings) of inputs of a seed."""
    driver, passed, ends, found = Room.ready(), 0, collections.Counter(), []
    for number in numbers:
        one = hostile_inputs.changed_input(Room.seed, number, Room.texts, Room.kept)
        wrong, said = judge(driver, one, number % ORACLE_EVERY == 0)
        ends[said] += 1
        if wrong:
            found.append(('number %d' % number, wrong, one))
        else:
            passed += 1
    return passed, ends, found


def run_given(inputs, with_oracle=False):
    """The same of inputs as they stand."""
    driver, passed, ends, found = Room.ready(), 0, collections.Counter(), []
    for name, one in inputs:
        wrong, said = judge(driver, one, with_oracle)
        ends[said] += 1
        if wrong:
            found.append((name, wrong, one))
        else:
            passed += 1
    return passed, ends, found


def run_corpus(inputs):
    return run_given(inputs, True)


def corpus(folder):
    """The files of a folder, as texts of `run`."""
    for name in sorted(os.listdir(folder)) if folder else ():
        path = os.path.join(folder, name)
        if os.path.isfile(path):
            with open(path, 'rb') as file:
                yield name, Input([b'run'], file.read())


def corpus_of_journals(folder):
    """The files of a folder, as two journals and a text each."""
    for name, one in corpus(folder):
        if len(one.text) >= 8:
            text, files = hostile_inputs.from_one_file(one.text)
            yield name, Input([b'run', b'--journal', b'j'], text, files)


def write_seeds(folder):
    """The journals and texts of runs over a folder, as files for AFL++."""
    os.makedirs(folder, exist_ok=True)
    for number, (text, clear, depot) in enumerate(Room.kept):
        with open(os.path.join(folder, 'kept-%d' % number), 'wb') as file:
            file.write(hostile_inputs.in_one_file(with_closing(text), (journal(clear), journal(depot))))


def prefixes():
    for name, words, text in hostile_inputs.texts_of_folders(['examples']):
        if name in TEN:
            for length in range(len(text)):
                yield '%s, %d bytes of it' % (name, length), Input([b'run'], text[:length])


def changed_bytes():
    for name, words, text in hostile_inputs.texts_of_folders(['examples']):
        words = without_journal(words)
        for place, old in enumerate(text):
            for new in sorted({0, 0xff, ord('"'), ord('\n'), old ^ 1, old ^ 32} - {old}):
                yield '%s, byte %d is %d' % (name, place, new), Input(words, text[:place] + bytes([new]) + text[place + 1:])


def cases():
    """The cases of tests/hostile/, with their journals."""
    for name, words, text in hostile_inputs.texts_of_folders([CASES]):
        files = []
        for side in ('clear', 'depot'):
            path = os.path.join(CASES, '%s.before.%s.hex' % (name, side))
            files.append(bytes.fromhex(open(path).read()) if os.path.exists(path) else None)
        over = b'{journal}' in words
        yield name, Input([word.replace(b'{journal}', b'j') for word in words], text, tuple(files) if over else None)


def large_inputs():
    """The names of the inputs of the largest size, and what makes the text of each, of so many bytes."""
    openings, trades, script = b'[openings]\n', b'[trades]\n', b'[script]\n'
    opening_header, trade_header = (header + b'\n' for header in hostile_inputs.HEADERS)
    heads = {'nothing': (b'', b''), 'the openings': (openings + opening_header, b'\n' + trades + script),
             'the trades': (openings + trades + trade_header, b'\n' + script + b'TAKE ALL\n'),
             'the script': (openings + trades + script, b'')}

    def filled(place, piece, begin=b'', end=b''):
        def make(size):
            before, behind = heads[place]
            room = size - len(before + begin + end + behind)
            return before + begin + (piece * (room // len(piece) + 1))[:room] + end + behind
        return make

    def random_bytes(place):
        def make(size):
            before, behind = heads[place]
            return before + random.Random(place).randbytes(size - len(before + behind)) + behind
        return make

    for place in heads:
        yield 'any bytes in %s' % place, random_bytes(place)
        for byte in (b'\0', b'\n', b'"', b',', b'x', b'\r', b'\xff'):
            yield '%r in %s' % (byte, place), filled(place, byte)
    for line in (b'REPORT', b'PUMP', b'TAKE ALL', b'LOT 037833100', b'ALLOCATE 037833100', b'BESIDE 037833100 1000', b'RESTART CLEAR',
                 b'FAIL DEPOT KEEP', b'EXEMPT 1 037833100 5', b'PRIORITY 1 037833100 ON', b'CYCLE NIGHT 2025-03-04', b'# a comment'):
        yield 'the line %s' % line.decode(), filled('the script', line + b'\n', end=b'\n#')
    yield 'one trade', filled('the trades', b'T1,2025-03-04,1,2,037833100,10\n', end=b'\n')
    yield 'one opening', filled('the openings', b'1,037833100,10\n', end=b'\n')
    yield 'the longest trade', filled('the trades', b'0', b'T1,2025-03-04,1,2,037833100,', b'10\n')
    yield 'the longest quoted trade', filled('the trades', b'0', b'"T1","2025-03-04","1","2","037833100","', b'10"\n')
    yield 'the longest buyer', filled('the trades', b'0', b'T1,2025-03-04,', b'1,2,037833100,10\n')
    yield 'the longest opening', filled('the openings', b'0', b'1,037833100,', b'10\n')
    yield 'the longest account', filled('the openings', b'0', b'', b'1,037833100,10\n')
    yield 'the longest number of a line', filled('the script', b'0', b'TAKE ', b'1\n')


LARGE = dict(large_inputs())


def run_large(names):
    """(how many passed, Counter of ends, findings) of inputs of the largest size and of one byte more."""
    driver, passed, ends, found = Room.ready(), 0, collections.Counter(), []
    for name in names:
        for size in (cnsd_oracle.INPUT_LIMIT, cnsd_oracle.INPUT_LIMIT + 1):
            text = LARGE[name](size)
            ended = driver.run([b'run'], text, seconds=LARGE_SECONDS)
            wrong = judge_end([b'run'], len(text), ended)
            is_long = (ended.status, ended.err) == (2, FAULTS[1])
            if not wrong and is_long != (size > cnsd_oracle.INPUT_LIMIT):
                wrong = 'status %d, %r of %d bytes' % (ended.status, ended.err, len(text))
            if not wrong and not is_long and (ended.status != 0) != name.endswith(' in nothing'):
                wrong = 'status %d, %r of an input %s' % (ended.status, ended.err, name)
            ends['status %d %s' % (ended.status, ended.err.decode('ascii', 'replace').strip())] += 1
            if wrong:
                found.append(('%s, %d bytes' % (name, size), wrong, None))
            else:
                passed += 1
                print('%10.1f s %6d MiB  %s, %d bytes' % (ended.time / 1000000, ended.memory // 1024, name, size), flush=True)
    return passed, ends, found


def in_chunks(items, size=AT_ONCE):
    chunk = []
    for item in items:
        chunk.append(item)
        if len(chunk) == size:
            yield chunk
            chunk = []
    if chunk:
        yield chunk


def smaller(wrong, one):
    """The input with as many lines of its text left out as still end in the same way."""
    driver = Room.ready()
    kind = wrong.split(' ')[:2]

    def still(text):
        found, _ = judge(driver, Input(one.words, text, one.journals), True)
        return found is not None and found.split(' ')[:2] == kind

    if one.want is not None or len(one.text) > 1000000 or not still(one.text):
        return one
    lines = one.text.splitlines(True)
    size = max(1, len(lines) // 2)
    while True:
        place, changed = 0, False
        while place < len(lines):
            fewer = lines[:place] + lines[place + size:]
            if still(b''.join(fewer)):
                lines, changed = fewer, True
            else:
                place += size
        if size == 1 and not changed:
            return Input(one.words, b''.join(lines), one.journals)
        size = max(1, size // 2)


def leave(folder, number, one):
    """Leaves an input as the files of a case."""
    os.makedirs(folder, exist_ok=True)
    base = os.path.join(folder, 'found-%d' % number)
    with open(base + '.in', 'wb') as file:
        file.write(one.text)
    if one.words != [b'run']:
        with open(base + '.args', 'wb') as file:
            file.write(b' '.join(b'{journal}' if word == b'j' else word for word in one.words) + b'\n')
    for side, data in zip(('clear', 'depot'), one.journals or ()):
        if data is not None:
            with open('%s.before.%s.hex' % (base, side), 'w', encoding='ascii') as file:
                file.write(data.hex() + '\n')
    return base


class Counts:
    """What passed and failed so far, and where findings are left."""

    def __init__(self, folder):
        self.passed = self.failed = 0
        self.folder = folder

    def add(self, name, results, began):
        passed, ends, runs = 0, collections.Counter(), 0
        for right, some, found in results:
            passed += right
            runs += right + len(found)
            ends.update(some)
            for which, wrong, one in found:
                self.failed += 1
                if self.failed > MOST_TOLD:
                    continue
                where = '' if one is None else '; left in %s' % leave(self.folder, self.failed, smaller(wrong, one))
                print('FAIL %s, %s: %s%s' % (name, which, wrong, where), flush=True)
        self.passed += passed
        for said, count in sorted(ends.items()):
            print('%10d %s' % (count, said))
        print('%s: %d inputs in %d seconds, %d as they should be' % (name, runs, time.monotonic() - began, passed), flush=True)

    def add_resources(self, passed, failed, began):
        self.passed += passed
        self.failed += failed
        print('resources: %d runs in %d seconds, %d as they should be' % (passed + failed, time.monotonic() - began, passed), flush=True)


def each(pool, work, chunks, lanes, until=None):
    """The results of chunks, of which a few are under way at each time; no new one is begun after `until`."""
    waiting, chunks = collections.deque(), iter(chunks)
    while True:
        while len(waiting) < 2 * lanes and (until is None or time.monotonic() < until):
            chunk = next(chunks, None)
            if chunk is None:
                break
            waiting.append(pool.submit(work, chunk))
        if not waiting:
            return
        yield waiting.popleft().result()


def arguments(words):
    parser = argparse.ArgumentParser(description='Runs a program on hostile inputs.')
    parser.add_argument('program')
    parser.add_argument('--seed', type=int, default=1)
    parser.add_argument('--count', type=int, default=100000)
    parser.add_argument('--from', type=int, default=0, dest='first')
    parser.add_argument('--lanes', type=int, default=1)
    parser.add_argument('--seconds', type=float, default=None)
    parser.add_argument('--part', action='append', choices=PARTS)
    parser.add_argument('--corpus', default=None)
    parser.add_argument('--journals', default=None)
    parser.add_argument('--write-seeds', default=None)
    parser.add_argument('--left', default='hostile-found')
    return parser.parse_args(words)


def prepare(given, parts, folder):
    """What the lanes share: the program, the driver, the texts, and where they are wanted the journals that runs keep."""
    Room.program, Room.folder, Room.seed = os.path.abspath(given.program), folder, given.seed
    Room.compiled = compiled(folder)
    Room.texts = list(hostile_inputs.texts_of_folders())
    if 'changed' in parts:
        Room.texts += list(hostile_inputs.made_texts(given.seed, MADE_TEXTS))
    if 'changed' in parts or given.write_seeds:
        driver = Driver(Room.compiled, Room.program, folder)
        Room.kept = kept_by_runs(driver, Room.texts)
        driver.close()


def work_of(part, given):
    """(what a lane does with a chunk, the chunks) of a part."""
    if part == 'changed':
        return run_changed, in_chunks(range(given.first, given.first + given.count))
    if part == 'large':
        return run_large, in_chunks(LARGE, 1)
    if part == 'corpus':
        return run_corpus, in_chunks(itertools.chain(corpus(given.corpus), corpus_of_journals(given.journals)))
    return run_given, in_chunks({'cases': cases, 'prefixes': prefixes, 'bytes': changed_bytes}[part]())


def main(words):
    given = arguments(words)
    if not is_program([given.program]):
        return say_end(0, 1, 'no program %s' % given.program)
    parts = given.part or [part for part in PARTS if part != 'corpus' or given.corpus or given.journals]
    counts = Counts(os.path.abspath(given.left))
    with tempfile.TemporaryDirectory(dir=IN_MEMORY) as folder:
        try:
            prepare(given, parts, folder)
        except Failure as failure:
            return say_end(0, 1, 'FAIL %s' % failure)
        if given.write_seeds:
            write_seeds(given.write_seeds)
            return say_end(len(Room.kept), 0)
        context = multiprocessing.get_context('fork')
        with concurrent.futures.ProcessPoolExecutor(given.lanes, mp_context=context) as pool:
            for part in parts:
                began = time.monotonic()
                if part == 'resources':
                    counts.add_resources(*check_resources(given.program, folder), began)
                    continue
                until = began + given.seconds if part == 'changed' and given.seconds is not None else None
                work, chunks = work_of(part, given)
                counts.add(part, each(pool, work, chunks, given.lanes, until), began)
        if Room.driver is not None:
            Room.driver.close()
    return say_end(counts.passed, counts.failed)


if __name__ == '__main__':
    sys.exit(main(sys.argv[1:]))
