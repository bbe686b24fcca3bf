#!/usr/bin/env python3
"""Crashes a program at each call that it makes on its journals, and reads what is left.

    tests/crash.sh PROGRAM [FILE..]

Each FILE is an input of `run`, without one those of tests/crash/; what NAME.before.in says is run
whole before NAME.in. A line of a script may make one record at most. Where there is a file NAME.torn, a crash came
behind that run while the gate of a further record was opened: its byte, in hexadecimal, is the gate then, and the
opening cuts that record off.

A first run over a new folder counts the calls that write, sync or cut the two journals. Then, for each of
them, there are runs over the same folder in which it fails, having done nothing or all; in which it
writes less than it was given; and in which the program is killed before it and after it, with
everything as it was written and, by some seeds, with other bytes under what was not synced
(crash.c, preloaded). What must hold:

    a call that fails at the opening: `cnsd: journal failed`, status 3, nothing written;
    a call that fails at a commit: the run is that over keepers in memory whose commit is planned to
        fail there by `FAIL`, to the byte, its record kept or dropped; behind another run, and at a
        restart: the output is that of the first run up to a line that ends with `refused Device`;
    a short write: the run is as the first one;
    after each run the records of both files, read here from their bytes, are those that were
        acknowledged by then (their last sync had returned), then at most the one that was under way;
        what stood behind them at the start is there still, or in NAME.cut;
        a dump says that what follows them is nothing, or what a crash may leave; a run with the same
        openings, which refuses journals with damage, then restarts both nodes, tells just so many records,
        and its report is that over files which hold these records and nothing else; what it cuts off a file
        stands in NAME.cut to the byte, and a file without such a piece has lost none.

Each run is one test. Two more are that a run is refused in this way where another process holds the lock of
a file, and one is that the runs by seeds tell a program that never syncs, which is this one with
its syncs passed over. The last line is `N passed, M failed`; the exit status is 0 where M is 0 and N is
not.
"""
import concurrent.futures
import fcntl
import os
import shutil
import struct
import sys
import tempfile

from preload import SECONDS, Failure, is_program, library, run, say_end

HERE = os.path.dirname(os.path.abspath(__file__))
FOLDER = os.path.join(HERE, 'crash')
SEEDS = range(1, 7)
FAILED = (3, b'', b'cnsd: journal failed\n')
SIDES = {'c': 'clear', 'd': 'depot'}
NODES = {'c': 'CLEAR', 'd': 'DEPOT'}
GATE = 0xA5
MAX_PAYLOAD = 1048576


def records(path):
    """The payloads of a journal: the longest prefix of records that count."""
    with open(path, 'rb') as file:
        data = file.read()
    found, at = [], 0
    while data[at:at + 1] == bytes([GATE]) and at + 5 <= len(data):
        length = int.from_bytes(data[at + 1:at + 5], 'big')
        end = at + 5 + length
        if length > MAX_PAYLOAD or end >= len(data):
            break
        found.append(data[at + 5:end])
        at = end
    return found


def journal(payloads):
    """The bytes of a journal of these records."""
    return b''.join(b'\xa5' + len(one).to_bytes(4, 'big') + one for one in payloads) + b'\0'


def sections(text):
    """An input before its script, and the lines of its script."""
    head, _, script = text.partition(b'[script]\n')
    return head + b'[script]\n', script.splitlines()


class Operation:
    """A reopening or a commit of one journal: its calls, by their numbers."""

    def __init__(self, file, first, is_commit):
        self.file, self.first, self.is_commit, self.length = file, first, is_commit, 0


def operations(calls):
    """The operations that calls, each a file, a kind and a length, belong to."""
    found, at = [], 0
    while at < len(calls):
        file, kind, length = calls[at]
        one = Operation(file, at + 1, kind == 'w' and length > 1)
        if one.is_commit:
            wanted = ['w', 's', 'w', 's']
        else:
            wanted = ['s']
            if calls[at + 1:at + 2] == [(file, 't', 0)]:
                wanted += ['t', 's']
            if calls[at + len(wanted):at + len(wanted) + 1] == [(file, 'w', 1)]:
                wanted += ['w', 's']
        one.length = len(wanted)
        if [call[:2] for call in calls[at:at + one.length]] != [(file, kind) for kind in wanted]:
            raise Failure('calls %d to %d are neither a commit nor a reopening' % (at + 1, at + one.length))
        found.append(one)
        at += one.length
    return found


class Example:
    """An input over two journals, and its run in which all goes well."""

    def __init__(self, path, program, library, room):
        self.name = os.path.basename(path)[:-3]
        self.program, self.library = program, library
        self.room = os.path.join(room, self.name)
        self.start = os.path.join(self.room, 'start')
        os.makedirs(self.start)
        self.reports = {}
        with open(path, 'rb') as file:
            self.text = file.read()
        before = path[:-3] + '.before.in'
        self.is_first = not os.path.exists(before)
        if not self.is_first:
            with open(before, 'rb') as file:
                if self.run(self.start, file.read())[0] != 0:
                    raise Failure('the run before it failed')
        self.torn = self.tear(path[:-3] + '.torn')
        folder = self.fresh('whole')
        self.whole = self.run(folder, self.text, {})
        if self.whole[0] != 0 or self.whole[2]:
            raise Failure('the run in which all goes well failed')
        self.calls = self.trace(folder)
        self.operations = operations(self.calls)
        self.openings = 0
        for one in self.operations[:2]:
            if one.is_commit:
                raise Failure('a commit before both journals were opened')
            self.openings += one.length
        self.records = {file: records(self.path(folder, file)) for file in SIDES}
        self.given = {file: len(records(self.path(self.start, file))) if os.listdir(self.start) else 0 for file in SIDES}
        self.lines = self.lines_of_commits()

    def tear(self, path):
        """Puts a further record behind each journal, whose gate was being opened; for each file where that gate stands, and what is behind."""
        if not os.path.exists(path):
            return {}
        with open(path, encoding='ascii') as file:
            gate = bytes.fromhex(file.read())
        torn = {}
        for file in SIDES:
            place = self.path(self.start, file)
            held = records(place)
            end, behind = len(journal(held)) - 1, journal(held[-1:])[1:]
            with open(place, 'r+b') as out:
                out.seek(end)
                out.write(gate + behind)
            torn[file] = end, behind
        return torn

    def fresh(self, name):
        """A new folder with the journals as they were."""
        folder = os.path.join(self.room, name)
        shutil.copytree(self.start, folder)
        return folder

    @staticmethod
    def path(folder, file):
        return os.path.join(folder, SIDES[file] + '.journal')

    def trace(self, folder):
        with open(folder + '.trace', 'rb') as file:
            data = file.read()
        return [(chr(file), chr(kind), length) for file, kind, _, length in struct.iter_unpack('=BBHI', data)]

    def run(self, folder, text, more=None, words=()):
        """(exit status, standard output, standard error); over keepers in memory where there is no folder."""
        command = [self.program, 'run', *words] + ([] if folder is None else ['--journal', folder])
        around = {} if more is None else {**more, 'LD_PRELOAD': self.library, 'CRASH_TRACE': folder + '.trace'}
        ended = run(command, text, around)
        if ended[0] is None:
            raise Failure('no end within %d seconds' % SECONDS)
        return ended

    def lines_of_commits(self):
        """The line of the script, counted from 0, in which each commit falls."""
        head, script = sections(self.text)
        found = []
        for count in range(1, len(script) + 1):
            folder = self.fresh('line-%d' % count)
            self.run(folder, head + b'\n'.join(script[:count]) + b'\n', {})
            commits = sum(one.is_commit for one in operations(self.trace(folder)))
            if commits > len(found) + 1:
                raise Failure('line %d of the script makes several records' % count)
            found += [count - 1] * (commits - len(found))
        return found

    def planned(self, number, file, stands):
        """The run over keepers in memory whose commit of this number, from 0, is planned to fail."""
        head, script = sections(self.text)
        line = self.lines[number]
        plan = b'FAIL %s %s' % (NODES[file].encode(), b'KEEP' if stands else b'DROP')
        status, out, err = self.run(None, head + b'\n'.join(script[:line] + [plan] + script[line:]) + b'\n')
        return status, out.replace(b'fail ok\n', b'', 1), err

    def asked(self, folder):
        """What a run with the same openings tells of a folder after both nodes were restarted."""
        head = self.text[:self.text.index(b'[trades]')]
        return self.run(folder, head + b'[trades]\n[script]\nRESTART CLEAR\nRESTART DEPOT\nREPORT\n', None, ['--intact'])

    def report(self, held):
        """What is told of files that hold so many of the first run's records and nothing else."""
        key = tuple(tuple(held[file]) for file in SIDES)
        if key not in self.reports:
            folder = tempfile.mkdtemp(dir=self.room)
            for file in SIDES:
                with open(self.path(folder, file), 'wb') as out:
                    out.write(journal(held[file]))
            told = self.asked(folder)
            lines = b''.join(b'restart %s records %d kept no\n' % (NODES[file].encode(), len(held[file])) for file in SIDES)
            if told[0] != 0 or not told[1].startswith(lines + b'REPORT cycle'):
                raise Failure('files that hold only the records are not told: %r' % (told,))
            self.reports[key] = told
        return self.reports[key]

    def judge(self, test, more=()):
        """None, or what is wrong with one run."""
        number, how, seed = test
        try:
            folder = tempfile.mkdtemp(dir=self.room)
            shutil.copytree(self.start, folder, dirs_exist_ok=True)
            around = {'CRASH_AT': str(number), 'CRASH_HOW': how, 'CRASH_SEED': str(seed)}
            ended = self.run(folder, self.text, {**around, **dict(more)})
            self.look(number, how, seed, ended, folder)
        except (Failure, OSError) as failure:
            return str(failure)
        shutil.rmtree(folder)
        return None

    def look(self, number, how, seed, ended, folder):
        place = max(at for at, one in enumerate(self.operations) if one.first <= number)
        one = self.operations[place]
        step = number - one.first
        acknowledged = dict(self.given)
        for earlier in self.operations[:place]:
            acknowledged[earlier.file] += earlier.is_commit
        commits = sum(earlier.is_commit for earlier in self.operations[:place])
        under_way = one.is_commit and not (how == 'before' and step == 0)
        if how in ('before', 'after'):
            if ended[0] != -9:
                raise Failure('it was not killed: status %d' % ended[0])
            if one.is_commit and how == 'after' and step == 3:
                acknowledged[one.file] += 1
                under_way = False
            self.look_at_files(folder, one, acknowledged, under_way)
            return
        if how == 'short':
            if ended != self.whole:
                raise Failure('after a short write the run is another one: %r' % (ended,))
            return
        if number <= self.openings:
            if ended != FAILED:
                raise Failure('a fault at the opening is told as %r' % (ended,))
            self.look_at_files(folder, one, acknowledged, under_way)
            return
        if one.is_commit and self.is_first:
            if ended not in (self.planned(commits, one.file, False), self.planned(commits, one.file, True)):
                raise Failure('the run is not that of a planned failure: %r' % (ended,))
        elif ended[0] != 0 or ended[2] or not self.is_refused_somewhere(ended[1]):
            raise Failure('the fault is told as %r' % (ended,))
        self.look_at_telling(folder)

    def is_refused_somewhere(self, out):
        """Whether the first line that is another one than in the first run ends with `refused Device`."""
        for line, wanted in zip(out.split(b'\n'), self.whole[1].split(b'\n')):
            if line != wanted:
                return line.endswith(b' refused Device')
        return False

    def look_at_files(self, folder, one, acknowledged, under_way):
        """The files hold what was acknowledged, then at most the record under way."""
        held = {}
        for file in SIDES:
            path = self.path(folder, file)
            held[file] = records(path) if os.path.exists(path) else []
            least = acknowledged[file]
            most = least + (under_way and file == one.file)
            if not least <= len(held[file]) <= most:
                raise Failure('%s has %d records, not %d to %d' % (SIDES[file], len(held[file]), least, most))
            if held[file] != self.records[file][:len(held[file])]:
                raise Failure('%s has other records than were committed' % SIDES[file])
        self.look_at_telling(folder, held)

    def look_at_telling(self, folder, held=None):
        """A run over the folder tells what the records in it come to."""
        if held is None:
            held = {file: records(self.path(folder, file)) for file in SIDES}
        self.look_at_torn(folder)
        before = self.look_at_tails(folder)
        told = self.asked(folder)
        if told != self.report(held):
            raise Failure('afterwards it is told %r' % (told,))
        self.look_at_cuts(folder, before)
        left = {file: records(self.path(folder, file)) for file in SIDES}
        if left != held:
            raise Failure('a run that commits nothing changed the records')

    def look_at_torn(self, folder):
        """What stood behind the records at the start is there still, or is kept beside the file."""
        for file, (end, behind) in self.torn.items():
            path = self.path(folder, file)
            with open(path, 'rb') as data:
                if data.read()[end + 1:] == behind:
                    continue
            with open(path + '.cut', 'rb') as data:
                line, _, piece = data.read().partition(b'\n')
            if line.split()[3:6:2] != [b'%d' % (end + 1), b'%d' % len(behind)] or not piece.startswith(behind + b'\n'):
                raise Failure('%s was cut, and what is kept is %r' % (SIDES[file], line))

    def look_at_tails(self, folder):
        """The bytes of the files that have no piece cut off yet; no damage follows the records of any."""
        before = {}
        for file in SIDES:
            path = self.path(folder, file)
            if not os.path.exists(path):
                continue
            ended = run([self.program, 'journal', 'dump', path], b'', {})
            if ended[0] != 0 or ended[2]:
                raise Failure('%s is told as %r' % (SIDES[file], ended))
            if not os.path.exists(path + '.cut'):
                with open(path, 'rb') as data:
                    before[file] = data.read()
        return before

    def look_at_cuts(self, folder, before):
        """What was cut off a file stands beside it, and nothing else."""
        for file, bytes_before in before.items():
            path = self.path(folder, file)
            if not os.path.exists(path + '.cut'):
                if os.path.getsize(path) < len(bytes_before):
                    raise Failure('%s was cut, and nothing is kept' % SIDES[file])
                continue
            with open(path + '.cut', 'rb') as data:
                line, _, piece = data.read().partition(b'\n')
            words = line.split()
            if words[0] != b'cut' or piece != bytes_before[int(words[3]):] + b'\n' or int(words[5]) != len(piece) - 1:
                raise Failure('%s.cut has another piece than was cut off: %r' % (SIDES[file], line))

    def judge_without_syncs(self, test):
        """What is wrong with one run of the program that never syncs, or None."""
        return self.judge(test, {'CRASH_IDLE': '1'})

    def judge_lock(self, file):
        """None, or what is wrong with a run while the lock of a journal is held."""
        folder = tempfile.mkdtemp(dir=self.room)
        with open(self.path(folder, file), 'wb') as held:
            fcntl.flock(held, fcntl.LOCK_EX)
            ended = self.run(folder, self.text)
        if ended != FAILED or os.path.getsize(self.path(folder, file)):
            return 'over a file whose lock is held it ended as %r' % (ended,)
        return None

    def tests(self):
        """Each run that is to be made: the number of its call, how it goes, and a seed."""
        for number, (_, kind, length) in enumerate(self.calls, 1):
            yield number, 'fail', 0
            if kind != 's':
                yield number, 'fail-done', 0
            if kind == 'w' and length > 1:
                yield number, 'short', 0
            for how in ('before', 'after'):
                for seed in (0, *SEEDS):
                    yield number, how, seed


def main(words):
    passed = failed = 0
    if not is_program(words):
        return say_end(0, 1, 'no program %s' % (words[0] if words else ''))
    program = os.path.abspath(words[0])
    paths = words[1:] or sorted(os.path.join(FOLDER, name) for name in os.listdir(FOLDER)
                                if name.endswith('.in') and not name.endswith('.before.in'))
    with tempfile.TemporaryDirectory() as room, concurrent.futures.ThreadPoolExecutor(os.cpu_count() or 1) as pool:
        try:
            preloaded = library('crash', room)
        except Failure as failure:
            return say_end(0, 1, 'FAIL %s' % failure)
        for place, path in enumerate(paths):
            try:
                example = Example(path, program, preloaded, room)
            except (Failure, OSError) as failure:
                print('FAIL %s: %s' % (path, failure))
                failed += 1
                continue
            tests = list(example.tests())
            right = 0
            if place == 0:
                by_seeds = [test for test in tests if test[2]]
                told = sum(wrong is not None for wrong in pool.map(example.judge_without_syncs, by_seeds))
                print('%s: a program that never syncs is told by %d of %d runs' % (example.name, told, len(by_seeds)))
                passed, failed = passed + (told > 0), failed + (told == 0)
                for wrong in map(example.judge_lock, SIDES):
                    passed, failed = passed + (not wrong), failed + bool(wrong)
                    print('%s: %s' % (example.name, wrong or 'a file whose lock is held is refused'))
            for test, wrong in zip(tests, pool.map(example.judge, tests)):
                if wrong:
                    print('FAIL %s: call %d of %d, %s, seed %d: %s' % (example.name, test[0], len(example.calls), *test[1:], wrong))
                    failed += 1
                else:
                    right += 1
            passed += right
            print('%s: %d calls, %d commits; %d runs, %d of them as they should be'
                  % (example.name, len(example.calls), len(example.lines), len(tests), right))
    return say_end(passed, failed)


if __name__ == '__main__':
    sys.exit(main(sys.argv[1:]))
