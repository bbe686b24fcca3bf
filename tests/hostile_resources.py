"""What runs out beside memory: a disk, a file, descriptors, readers, rights, stack, threads (hostile.py runs it).

Of each run it is asked that no signal ends it, that it tells by the named line what failed, and that the journals then hold all
that was acknowledged, and open. What cannot be tried on a machine is told as skipped, and counts for nothing.
"""
import fcntl
import os
import random
import resource
import shutil
import signal
import subprocess
import tempfile

from crash import SIDES, records
from hostile_inputs import CLOSING, texts_of_folders
from preload import Failure

SECONDS = 60
PAGE = 4096
JOURNAL, OUTPUT, INPUT = b'cnsd: journal failed\n', b'cnsd: output failed\n', b'cnsd: input cannot be read\n'
MEMORY = b'cnsd: out of memory\n'
NOBODY = 65534
# The first words of lines that acknowledge a record, and the word behind which they do; of the two nodes.
CLEAR_LINES = {b'trade': b'accepted', b'exempt': b'ok', b'priority': b'ok', b'cycle': b'due', b'close': b'granted', b'confirm': b'done'}


def long_text(trades=400):
    """An input of so many trades, with their cycle, their movements and a lot."""
    rows = b''.join(b'T%d,2025-03-03,%d,1,037833100,%d\n' % (number, 2 + number % 40, 1 + number % 90) for number in range(trades))
    return b'[openings]\naccount,cusip,shares\n1,037833100,1000000\n[trades]\ntrade,settle,buyer,seller,cusip,quantity\n' + rows + \
        b'[script]\nTAKE ALL\nEXEMPT 1 037833100 5\nCYCLE NIGHT 2025-03-03\nPUMP\nALLOCATE 037833100\nPUMP\nREPORT\n'


def acknowledged(out):
    """How many records of each node the lines of an output acknowledge."""
    count = {'c': 0, 'd': 0}
    for line in out[:out.rfind(b'\n') + 1].splitlines():
        words = line.split(b' ')
        count['c'] += CLEAR_LINES.get(words[0]) in words
        count['d'] += words[0] == b'exec'
    return count


class Resources:
    """The checks of a program in a room of its own."""

    def __init__(self, program, room):
        self.passed = self.failed = 0
        self.room = room
        # Others than root are to reach it.
        for place in (os.path.dirname(room), room):
            os.chmod(place, 0o755)
        self.program = os.path.join(room, 'program')
        shutil.copy(program, self.program)
        os.chmod(self.program, 0o755)
        self.text = long_text()
        self.head = self.text[:self.text.index(b'[trades]')]
        whole = self.folder()
        self.whole = self.run(['--journal', whole])
        if self.whole[0] != 0:
            raise Failure('the run that lacks nothing: %r' % (self.whole,))
        self.held = {side: records(self.path(whole, side)) for side in SIDES}

    def folder(self, within=None):
        return tempfile.mkdtemp(dir=within or self.room)

    @staticmethod
    def path(folder, side):
        return os.path.join(folder, SIDES[side] + '.journal')

    def run(self, words, text=None, before=None, **more):
        """(exit status, standard output, standard error) of `run` with more words; `before` is called in the new process."""
        return self.run_words(['run'] + words, self.text if text is None else text, before, **more)

    def run_words(self, words, text, before=None, **more):
        with tempfile.TemporaryFile() as given:
            given.write(text)
            given.seek(0)
            around = {'stdin': given, 'stdout': subprocess.PIPE, 'stderr': subprocess.PIPE, **more}
            try:
                done = subprocess.run([self.program] + words, timeout=SECONDS, preexec_fn=before, **around)
            except subprocess.TimeoutExpired:
                return None, b'', b''
        return done.returncode, done.stdout or b'', done.stderr or b''

    def check(self, name, wrong):
        if wrong:
            self.failed += 1
            print('FAIL resources, %s: %s' % (name, wrong), flush=True)
        else:
            self.passed += 1

    def asked(self, folder):
        return self.run(['--journal', folder], self.head + b'[trades]\n[script]\n' + CLOSING)

    def look(self, folder, out, is_cut=False):
        """None, or what is wrong with the journals that a run with this output left; `is_cut` where it could not write all of it."""
        told = acknowledged(out)
        held = {}
        for side in SIDES:
            path = self.path(folder, side)
            held[side] = records(path) if os.path.exists(path) else []
            most = len(self.held[side]) if is_cut else told[side] + 1
            if not told[side] <= len(held[side]) <= most:
                return '%s has %d records, %d were acknowledged' % (SIDES[side], len(held[side]), told[side])
            if held[side] != self.held[side][:len(held[side])]:
                return '%s has other records than were committed' % SIDES[side]
        ended = self.asked(folder)
        wanted = b'restart CLEAR records %d kept no\nrestart DEPOT records %d kept no\nREPORT' % (len(held['c']), len(held['d']))
        if ended[0] != 0 or ended[2] or not ended[1].startswith(wanted):
            return 'the journals then open as %r' % (ended,)
        return None

    def look_at_end(self, ended, folder, lawful):
        """None, or what is wrong: the end is one of those that are lawful, each (status, standard error), and the journals are kept."""
        if (ended[0], ended[2]) not in lawful:
            return 'it ended by %r, %r' % (ended[0], ended[2][:200])
        if ended[2] == JOURNAL and ended[1]:
            return 'a journal failed, and %r was written' % ended[1][:200]
        if ended[2] != OUTPUT and ended[0] == 0 and ended[1] != self.whole[1]:
            lines, wanted = ended[1].split(b'\n'), self.whole[1].split(b'\n')
            first = next(line for line, other in zip(lines, wanted) if line != other)
            if not first.endswith((b' refused Device', b' refused OutOfMemory')):
                return 'the first other line is %r' % first
        return self.look(folder, ended[1], ended[2] in (OUTPUT, MEMORY))

    # The disk.

    def full_disk(self):
        disk = self.folder()
        done = subprocess.run(['mount', '-t', 'tmpfs', '-o', 'size=%d' % (64 * PAGE), 'none', disk], capture_output=True, text=True)
        if done.returncode:
            print('resources, a full disk: skipped, none can be mounted: %s' % done.stderr.strip())
            return
        try:
            filler, out = os.path.join(disk, 'filler'), os.path.join(disk, 'out')
            for free in list(range(0, 24)) + [64]:
                folder = self.folder(disk)
                with open(filler, 'wb') as file:
                    room = shutil.disk_usage(disk).free
                    file.write(b'\0' * max(0, room - free * PAGE))
                ended = self.run(['--journal', folder])
                os.remove(filler)
                self.check('a disk with %d free pages' % free, self.look_at_end(ended, folder, [(0, b''), (3, JOURNAL)]))
                with open(filler, 'wb') as file:
                    file.write(b'\0' * max(0, shutil.disk_usage(disk).free - free * PAGE))
                elsewhere = self.folder()
                with open(out, 'wb') as file:
                    ended = self.run(['--journal', elsewhere], stdout=file)
                os.remove(filler)
                with open(out, 'rb') as file:
                    written = file.read()
                os.remove(out)
                wrong = self.look(elsewhere, written, True)
                if not self.whole[1].startswith(written):
                    wrong = 'what it wrote is no first part of the output'
                if (ended[0], ended[2]) != ((0, b'') if written == self.whole[1] else (3, OUTPUT)):
                    wrong = 'it ended by %r, %r with %d bytes written' % (ended[0], ended[2], len(written))
                self.check('standard output on a disk with %d free pages' % free, wrong)
                shutil.rmtree(folder)
            subprocess.run(['mount', '-o', 'remount,ro', disk], capture_output=True)
            ended = self.run(['--journal', disk])
            self.check('a disk that is for reading alone', None if ended == (3, b'', JOURNAL) else repr(ended))
        finally:
            subprocess.run(['umount', disk], capture_output=True)

    def no_files(self):
        """A disk that has room, and no file left to make."""
        disk = self.folder()
        done = subprocess.run(['mount', '-t', 'tmpfs', '-o', 'nr_inodes=3', 'none', disk], capture_output=True, text=True)
        if done.returncode:
            print('resources, a disk without files: skipped, none can be mounted: %s' % done.stderr.strip())
            return
        try:
            for left in range(3):
                fillers = [os.path.join(disk, 'filler-%d' % number) for number in range(2 - left)]
                for filler in fillers:
                    open(filler, 'wb').close()
                ended = self.run(['--journal', disk])
                for filler in fillers:
                    os.remove(filler)
                wanted = [(0, b'')] if left == 2 else [(3, JOURNAL)]
                self.check('a disk on which %d files can be made' % left, self.look_at_end(ended, disk, wanted))
                for side in SIDES:
                    os.remove(self.path(disk, side))
        finally:
            subprocess.run(['umount', disk], capture_output=True)

    def full_device(self):
        with open('/dev/full', 'wb') as full:
            for words in (['run'], ['--help'], ['--version'], ['cusip', '037833100']):
                ended = self.run_words(words, self.text, stdout=full)
                self.check('a full device, %s' % ' '.join(words), None if ended == (3, b'', OUTPUT) else repr(ended))
            folder = self.folder()
            ended = self.run(['--journal', folder], stdout=full)
            self.check('a full device, over journals', self.look_at_end(ended, folder, [(3, OUTPUT)]))
            ended = self.run([], b'[openings]\n', stderr=full)
            self.check('standard error on a full device', None if ended[:2] == (2, b'') else repr(ended))

    # Limits of a process.

    def limited(self, what, most, is_ignored=True):
        def before():
            signal.signal(signal.SIGXFSZ, signal.SIG_IGN if is_ignored else signal.SIG_DFL)
            resource.setrlimit(what, (most, most))
        return before

    def file_sizes(self):
        """A limit of what a file may have; where its signal is not ignored, it is that signal that ends the program."""
        size = max(os.path.getsize(self.path(folder, side)) for folder in [self.whole_folder()] for side in SIDES)
        ended_by_signal = 0
        for most in sorted({0, 1, 2, 5, 40, 41, 60, *range(100, size + 200, size // 40)}):
            folder = self.folder()
            ended = self.run(['--journal', folder], before=self.limited(resource.RLIMIT_FSIZE, most))
            self.check('files of %d bytes' % most, self.look_at_end(ended, folder, [(0, b''), (3, JOURNAL)]))
            folder = self.folder()
            ended = self.run(['--journal', folder], before=self.limited(resource.RLIMIT_FSIZE, most, False))
            if ended[0] == -signal.SIGXFSZ:
                ended_by_signal += 1
                self.check('files of %d bytes, with the signal' % most, self.look(folder, ended[1], True))
            else:
                self.check('files of %d bytes, with the signal' % most, self.look_at_end(ended, folder, [(0, b''), (3, JOURNAL)]))
            with tempfile.TemporaryFile() as out:
                folder = self.folder()
                ended = self.run([], before=self.limited(resource.RLIMIT_FSIZE, most), stdout=out)
                out.seek(0)
                written = out.read()
                wanted = (0, b'') if written == self.whole[1] else (3, OUTPUT)
                self.check('standard output in a file of %d bytes' % most,
                           None if (ended[0], ended[2]) == wanted and self.whole[1].startswith(written) else repr(ended))
        print('resources, files of a limited size: SIGXFSZ, where it is not ignored, ended %d runs' % ended_by_signal)

    def whole_folder(self):
        folder = self.folder()
        self.run(['--journal', folder])
        return folder

    def descriptors(self):
        for most in range(4, 12):
            folder = self.folder()
            ended = self.run(['--journal', folder, '--workers', '2'], before=self.limited(resource.RLIMIT_NOFILE, most))
            wanted = [(3, JOURNAL)] if most < 6 else [(0, b'')]
            wrong = self.look_at_any_order(ended, folder, wanted)
            self.check('%d descriptors' % most, wrong)

    def look_at_any_order(self, ended, folder, lawful):
        """The same with workers, where only how it ended, its acknowledgements and the opening are looked at."""
        if (ended[0], ended[2]) not in lawful:
            return 'it ended by %r, %r' % (ended[0], ended[2][:200])
        told = acknowledged(ended[1])
        for side in SIDES:
            path = self.path(folder, side)
            count = len(records(path)) if os.path.exists(path) else 0
            if not told[side] <= count <= (len(self.held[side]) if ended[2] == MEMORY else told[side] + 1):
                return '%s has %d records, %d were acknowledged' % (SIDES[side], count, told[side])
        again = self.asked(folder)
        return None if again[0] == 0 and not again[2] else 'the journals then open as %r' % (again,)

    def stacks(self):
        self.longer = long_text(20000)
        self.longest = self.run([], self.longer)
        for kib in (256, 128):
            for name, words, text in texts_of_folders(['examples']):
                words = [word.decode() for word in words if not word.startswith((b'--journal', b'{journal'))]
                wanted = self.run_words(words, text)
                ended = self.run_words(words, text, self.limited(resource.RLIMIT_STACK, kib * 1024))
                same = ended == wanted or ('--workers' in words and (ended[0], ended[2]) == (0, b''))
                self.check('a stack of %d KiB, %s' % (kib, name), None if same else repr(ended)[:300])
            ended = self.run([], self.longer, self.limited(resource.RLIMIT_STACK, kib * 1024))
            self.check('a stack of %d KiB, 20,000 trades' % kib, None if ended == self.longest else repr(ended)[:300])
            folder = self.folder()
            ended = self.run(['--journal', folder], before=self.limited(resource.RLIMIT_STACK, kib * 1024))
            self.check('a stack of %d KiB, over journals' % kib, self.look_at_end(ended, folder, [(0, b'')]))

    def address_spaces(self):
        """Less and less memory. Where the loader itself has too little the program never begins (127)."""
        begun = 0
        for kib in range(2048, 7168, 64):
            for workers in ('0', '2'):
                folder = self.folder()
                ended = self.run(['--journal', folder, '--workers', workers], before=self.limited(resource.RLIMIT_AS, kib * 1024))
                if ended[0] == 127 or (ended[0] == -signal.SIGSEGV and not begun):
                    continue
                begun += 1
                look = self.look_at_end if workers == '0' else self.look_at_any_order
                self.check('%d KiB of memory, %s workers' % (kib, workers), look(ended, folder, [(0, b''), (3, MEMORY)]))
                shutil.rmtree(folder)
        self.check('less and less memory', None if begun else 'the program never began')

    def threads(self):
        if os.getuid() != 0:
            print('resources, no threads: skipped, root alone can be another user')
            return

        def before():
            resource.setrlimit(resource.RLIMIT_NPROC, (0, 0))
            os.setgid(NOBODY)
            os.setuid(NOBODY)
        ended = self.run(['--workers', '1'], before=before)
        self.check('no thread for one worker', None if ended == self.whole else repr(ended)[:300])
        ended = self.run(['--workers', '2'], before=before)
        # (The tickets stand in another order, so another member has what is left.)
        same = (ended[0], ended[2]) == (0, b'') and ended[1].count(b'\n') == self.whole[1].count(b'\n')
        self.check('no threads for two workers', None if same else repr(ended)[:300])

    # Streams.

    def closed_streams(self):
        """Each of the standard streams closed, alone and together: no journal takes what was meant for a stream."""
        texts = {'a good text': self.text, 'bad sections': b'[openings]\n', 'bad rows': b'[openings]\nx\n[trades]\n[script]\n',
                 'a bad line': self.head + b'[trades]\n[script]\nx\n'}
        for closed in range(1, 8):
            streams = [stream for stream in range(3) if closed >> stream & 1]

            def before(streams=tuple(streams)):
                for stream in streams:
                    os.close(stream)
            which = 'streams %s closed, ' % ' '.join(map(str, streams))
            for name, text in texts.items():
                folder = self.folder()
                ended = self.run(['--journal', folder], text, before)
                usual = self.run(['--journal', self.folder()], text)
                status, err = usual[0], usual[2]
                if 0 in streams:
                    status, err = 2, INPUT
                elif 1 in streams and usual[1]:
                    status, err = 3, OUTPUT
                out = b'' if 1 in streams or status == 2 else usual[1]
                wanted = status, out, b'' if 2 in streams else err
                wrong = None if ended == wanted else 'it ended by %r' % (ended,)
                self.check(which + name, wrong or self.look(folder, ended[1], True))
            folder = self.folder()
            with open(self.path(folder, 'c'), 'wb') as held:
                fcntl.flock(held, fcntl.LOCK_EX)
                ended = self.run(['--journal', folder], None, before)
            wrong = None if ended == (3, b'', b'' if 2 in streams else JOURNAL) else 'it ended by %r' % (ended,)
            self.check(which + 'a lock is held', wrong or self.look(folder, b''))
            folder = self.folder()
            with open(self.path(folder, 'c'), 'wb') as file:
                file.write(b'\xa5\0\0\0\1x\0')
            kept = b'\xa5\0\0\0\1x\0'
            ended = self.run(['--journal', folder], None, before)
            wanted = (2, b'', b'' if 2 in streams else INPUT) if 0 in streams else (3, b'', b'' if 2 in streams else JOURNAL)
            wrong = None if ended == wanted else 'it ended by %r' % (ended,)
            with open(self.path(folder, 'c'), 'rb') as file:
                left = file.read()
            self.check(which + 'a journal with another record', wrong or (None if left == kept else 'the journal is %r' % left))
            for words in (['--help'], ['cusip', '037833100'], ['cusip', 'x'], ['run', '--bad']):
                ended = self.run_words(words, b'', before)
                usual = self.run_words(words, b'')
                wanted = usual[0] if 1 not in streams or not usual[1] else 3
                self.check(which + ' '.join(words), None if ended[0] == wanted else 'it ended by %r' % (ended,))

    def readers(self):
        """A pipe whose reader goes away, at once or behind some bytes."""
        for length in (0, 1, 100, 5000, len(self.whole[1]) - 1):
            folder = self.folder()
            with tempfile.TemporaryFile() as given:
                given.write(self.text + b'REPORT\n' * 20000)
                given.seek(0)
                with subprocess.Popen([self.program, 'run', '--journal', folder], stdin=given, stdout=subprocess.PIPE,
                                      stderr=subprocess.PIPE) as process:
                    read = b''
                    while len(read) < length:
                        read += process.stdout.read(length - len(read))
                    process.stdout.close()
                    err = process.stderr.read()
                    status = process.wait(SECONDS)
            wrong = None if (status, err) == (3, OUTPUT) else 'it ended by %r, %r' % (status, err)
            self.check('a reader that goes after %d bytes' % length, wrong or self.look(folder, read, True))

    # Files that are not as they should be.

    def rights(self):
        if os.getuid() != 0:
            print('resources, rights: skipped, root alone can be another user')
            return

        def before():
            os.setgroups([])
            os.setgid(NOBODY)
            os.setuid(NOBODY)
        for mode, file_mode in ((0o755, None), (0o555, None), (0, None), (0o777, 0o444), (0o777, 0o200), (0o777, 0), (0o777, None)):
            folder = self.folder()
            os.chmod(folder, mode)
            if file_mode is not None:
                for side in SIDES:
                    with open(self.path(folder, side), 'wb'):
                        pass
                    os.chmod(self.path(folder, side), file_mode)
            ended = self.run(['--journal', folder], before=before)
            is_open = mode == 0o777 and file_mode is None
            wanted = [(0, b'')] if is_open else [(3, JOURNAL)]
            os.chmod(folder, 0o755)
            self.check('a folder of mode %o, files of %s' % (mode, 'none' if file_mode is None else '%o' % file_mode),
                       self.look_at_end(ended, folder, wanted))

    def odd_files(self):
        def file(folder):
            os.rmdir(folder)
            open(folder, 'wb').close()

        def gone(folder):
            os.rmdir(folder)

        def folder_of_name(folder):
            os.mkdir(self.path(folder, 'c'))

        def same_file(folder):
            open(self.path(folder, 'c'), 'wb').close()
            os.link(self.path(folder, 'c'), self.path(folder, 'd'))

        def loop(folder):
            os.symlink(self.path(folder, 'c'), self.path(folder, 'c'))

        def to(device):
            return lambda folder: os.symlink(device, self.path(folder, 'c'))

        def queue(folder):
            os.mkfifo(self.path(folder, 'c'))
        kinds = {'a file in place of the folder': file, 'no folder': gone, 'a folder in place of a file': folder_of_name,
                 'one file for both': same_file, 'a link to itself': loop, 'a link to /dev/full': to('/dev/full'),
                 'a link to /dev/null': to('/dev/null'), 'a link to /dev/zero': to('/dev/zero'), 'a named pipe': queue}
        for name, make in kinds.items():
            folder = self.folder()
            make(folder)
            ended = self.run(['--journal', folder])
            self.check(name, None if ended == (3, b'', JOURNAL) else 'it ended by %r' % (ended,))
        with open('/dev/null', 'rb') as nothing:
            ended = self.run([], stdin=nothing)
            self.check('no input', None if ended == (2, b'', b'cnsd: bad sections\n') else repr(ended))
        folder = os.open(self.room, os.O_RDONLY)
        ended = self.run([], stdin=folder)
        os.close(folder)
        self.check('a folder as the input', None if ended == (2, b'', INPUT) else repr(ended))

    def large_journals(self):
        """Journals of many bytes, of which no record is one of a node; a file that has no record is one without records. What would be cut off is
        kept first, so the device has failed where that is more than there is memory for, and the file is as it was."""
        opened, refused = [(0, b'')], [(3, JOURNAL)]
        kinds = {'zeros': (b'', 2 ** 40, opened), 'a record of zeros': (b'\xa5\0\x10\0\0', 2 ** 40, refused),
                 'a record that is too long': (b'\xa5\0\x10\0\1', 2 ** 24, opened),
                 'a record that is too long, with more behind it than can be kept': (b'\xa5\0\x10\0\1', 2 ** 40, refused),
                 'empty records': (b'\xa5\0\0\0\0' * 3000000 + b'\0', 0, refused), 'gates': (b'\xa5' * 2 ** 24, 0, opened),
                 'any bytes': (random.Random(1).randbytes(2 ** 24), 0, opened)}
        for name, (begin, size, wanted) in kinds.items():
            folder = self.folder()
            try:
                with open(self.path(folder, 'c'), 'wb') as file:
                    file.write(begin)
                    file.truncate(max(size, len(begin)))
            except OSError as error:
                print('resources, a journal of %s: skipped, %s' % (name, error))
                continue
            ended = self.run(['--journal', folder])
            wrong = None if (ended[0], ended[2]) == wanted[0] else 'it ended by %r, %r' % (ended[0], ended[2])
            if not wrong and ended[1] != (self.whole[1] if ended[0] == 0 else b''):
                wrong = 'it writes something else'
            if not wrong and ended[0] and os.path.getsize(self.path(folder, 'c')) != max(size, len(begin)):
                wrong = 'it cuts the file that it refuses'
            if not wrong and ended[0] == 0:
                again = self.asked(folder)
                told = b'restart CLEAR records %d kept no\n' % len(self.held['c'])
                wrong = None if again[0] == 0 and again[1].startswith(told) else 'it then opens as %r' % (again,)
            self.check('a journal of %s' % name, wrong)
            shutil.rmtree(folder)

    def all(self):
        for part in (self.full_disk, self.no_files, self.full_device, self.file_sizes, self.descriptors, self.closed_streams, self.readers,
                     self.rights, self.odd_files, self.large_journals, self.stacks, self.threads, self.address_spaces):
            before = self.passed + self.failed
            part()
            print('resources, %s: %d runs' % (part.__name__.replace('_', ' '), self.passed + self.failed - before), flush=True)


def check_resources(program, folder):
    """(how many passed, how many failed), with all files in a folder of this one."""
    with tempfile.TemporaryDirectory(dir=folder) as outer, tempfile.TemporaryDirectory(dir=outer) as room:
        os.chmod(folder, 0o711)
        try:
            one = Resources(program, room)
            one.all()
        except Failure as failure:
            print('FAIL resources: %s' % failure)
            return 0, 1
        return one.passed, one.failed
