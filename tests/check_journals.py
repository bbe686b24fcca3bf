#!/usr/bin/env python3
"""tests/check_journals.py PROGRAM: what `journal dump`, `journal check` and `explain` tell of the journals that runs leave, and of no journals.

Each example, and each case that has no words of its own, is run over journals in a new folder (those that name a folder share it). Then the
check must tell `agreed` with the openings that hold, each explanation must end in the values of the report, and all that is told must be what
oracle/audit.py tells, to the byte and with its status. Files that are missing, folders in their place, empty files, those of the other node,
the longest tails and records, and command lines that ask for nothing are told as docs/FORMATS.md says. Nothing may change in a folder by any
of it: neither names, bytes, modes nor times; and a folder in which nothing may be written, and files that another process has locked, make no
difference but that a check names the process on standard error. The last line is `N passed, M failed`; the exit status is 0 where M is 0 and N is not.
"""
import fcntl
import importlib
import os
import re
import shutil
import stat
import subprocess
import sys
import tempfile

TOP = os.path.dirname(os.path.dirname(os.path.abspath(__file__)))
sys.path.insert(0, os.path.join(TOP, 'oracle'))
audit = importlib.import_module('audit')
cnsd_oracle = importlib.import_module('cnsd_oracle')

SECONDS = 60
NOBODY = 65534
CLEAR, DEPOT = audit.NAMES
EXECUTION = bytes.fromhex('a5000000260107010000000000000001000130333738333331303000000000000000280000000000000028')
TRADE = bytes.fromhex('a50000001e0101024131 07e90304 0002 0001 303337383333313030 0000000000000028')
TRADE_AND_CYCLE = TRADE + bytes.fromhex('a500000007010407e9030400')         # of which the execution is that of order 1
CLOSED = b'\x00'
OPENINGS = b'account,cusip,shares\n1,037833100,40\n'
NO_COMMANDS = [['journal'], ['journal', 'dump'], ['journal', 'check'], ['journal', 'list', '{}'], ['journal', 'dump', '{}', '{}'], ['journal', 'check', '{}', '{}'],
               ['journal', 'dump', '--verbose', '{}'], ['journal', 'check', '--csv', '{}'], ['journal', 'check', '{}', '--openings'], ['explain'], ['explain', '{}', '1'],
               ['explain', '{}', '0', '037833100'], ['explain', '{}', '10000', '037833100'], ['explain', '{}', 'x', '037833100'], ['explain', '{}', '-1', '037833100'],
               ['explain', '{}', '1', '037833101'], ['explain', '{}', '1', '03783310'], ['explain', '{}', '1', ''], ['explain', '{}', '1', '037833100', '1']]


class Checks:
    """How many passed, and each that did not."""

    def __init__(self, program):
        self.program = program
        self.passed, self.failed = 0, 0

    def check(self, holds, what):
        if holds:
            self.passed += 1
        else:
            self.failed += 1
            print('FAIL', what)

    def run(self, words, text=b'', **more):
        """(standard output, standard error, exit status) of the program."""
        done = subprocess.run([self.program, *words], input=text, capture_output=True, timeout=SECONDS, check=False, **more)
        return done.stdout.decode('latin-1'), done.stderr.decode('latin-1'), done.returncode

    def told(self, name, words, wanted):
        """What the program writes for a command line, which has to be this."""
        got = self.run(words)
        self.check(got == wanted, '%s: `%s`: wanted status %d\n%s%sand not %d\n%s%s' % (
            name, ' '.join(words), wanted[2], wanted[0][:3000], wanted[1][:3000], got[2], got[0][:3000], got[1][:3000]))
        return got

    def same(self, name, words):
        """The same, which has to be what oracle/audit.py tells."""
        return self.told(name, words, audit.answer(words))


def write(path, data):
    with open(path, 'wb') as file:
        file.write(data)
    return path


def contents(folder):
    """What stands in a folder: of it and of all below it the mode and the time of its last change, and the bytes of files."""
    found = {}
    for at, _, names in os.walk(folder):
        for path in [at] + [os.path.join(at, name) for name in names]:
            about = os.stat(path)
            data = audit.read_file(path) if stat.S_ISREG(about.st_mode) and os.access(path, os.R_OK) else None
            found[path] = about.st_mode, about.st_mtime_ns, about.st_ctime_ns, data
    return found


# ---- The journals of runs.

def inputs():
    """(name, words, text) of the examples and cases that are run: their own words, or else `run`; a case has none of its own."""
    for place in ('examples', 'tests/cases'):
        for name in sorted(os.listdir(os.path.join(TOP, place))):
            path = os.path.join(TOP, place, name[:-3])
            if not name.endswith('.in') or os.path.exists(path + '.pad') or os.path.exists(path + '.rule') and place != 'examples':
                continue
            words = ['run']
            if os.path.exists(path + '.args'):
                with open(path + '.args', encoding='utf-8') as args:
                    words = args.read().split()
            if words[0] == 'run' and (place == 'examples' or words == ['run']):
                with open(path + '.in', 'rb') as text:
                    yield os.path.join(place, name[:-3]), words, text.read()


def folder_of(words, folders, above):
    """The folder of the journals of a command line, and the line with it; one that is named is kept in `folders`."""
    named = [found for found in (re.fullmatch(r'\{journal(:.*)?\}', word) for word in words) if found]
    name = named[0][1] if named else None
    folder = folders.get(name) or tempfile.mkdtemp(dir=above)
    if name:
        folders[name] = folder
    return folder, [folder if word.startswith('{journal') else word for word in words] if named else [*words, '--journal', folder]


def last_report(text):
    """What the last report of a text has for each member and issue: its position and its balance."""
    places = {}
    for line in text[text.rindex('REPORT cycle '):].splitlines():
        found = re.fullmatch(r'(POS|BAL) (\S{9}) (\d{4}) +(-?\d+)', line)
        if found and found[3] != '0000':
            places.setdefault((found[3], found[2]), {'POS': '0', 'BAL': '0'})[found[1]] = found[4]
    return places


def runs(checks, above):
    folders, openings, held = {}, os.path.join(above, 'openings of a run'), os.path.join(above, 'those that hold')
    for name, words, text in inputs():
        folder, words = folder_of(words, folders, above)
        if checks.run(words, text)[2] != 0:
            continue                                # an input that is refused as a whole
        section = cnsd_oracle.split_sections(text)[0]
        write(openings, section)
        rows = cnsd_oracle.good_openings(cnsd_oracle.rows_under(audit.OPENING_HEADER, section), lambda line: None)
        write(held, audit.OPENING_HEADER + b'\n' + b''.join(b'%d,%s,%d\n' % (account, issue, shares) for (issue, account), shares in rows.items()))
        # A run that does nothing but report tells what both nodes hold.
        report = checks.run(['run', '--journal', folder], b'[openings]\n' + section + b'[trades]\n[script]\nREPORT\n')[0]
        before = contents(folder)
        for given in (['--openings', held], []):
            told = checks.same(name, ['journal', 'check', folder, *given])
            checks.check(told[0].endswith('\nagreed\n') and told[2] == 0, '%s: the journals of a run do not agree:\n%s' % (name, told[0]))
        checks.same(name, ['journal', 'check', folder, '--openings', openings, '--verbose'])
        for journal in audit.NAMES:
            checks.same(name, ['journal', 'dump', os.path.join(folder, journal)])
            checks.same(name, ['journal', 'dump', '--csv', os.path.join(folder, journal)])
        for (member, issue), values in last_report(report).items():
            told = checks.same(name, ['explain', folder, member, issue, '--openings', held])[0].splitlines()
            ends = [line.split()[-1] for line in told if line.startswith(('POS ', 'BAL '))]
            checks.check(ends == [values['POS'], values['BAL']] and told[-1] == 'END', '%s: the explanation of %s in %s does not end in %s' % (name, member, issue, values))
        checks.same(name, ['explain', folder, '1', '037833100', '--openings', openings])
        checks.check(contents(folder) == before, '%s: something in the folder was changed' % name)


# ---- Files that are no journals, or none of a run.

def journals(above, clear, depot, openings=None):
    """A new folder with these files; none where there is None."""
    folder = tempfile.mkdtemp(dir=above)
    for name, data in ((CLEAR, clear), (DEPOT, depot), ('openings.csv', openings)):
        if data is not None:
            write(os.path.join(folder, name), data)
    return folder


def cannot_read(path, why):
    return '', 'cnsd: %s: %s\n' % (path, why), 2


MISSING, DENIED = 'No such file or directory (os error 2)', 'Permission denied (os error 13)'
IS_FOLDER, NO_FOLDER = 'Is a directory (os error 21)', 'Not a directory (os error 20)'


def unreadable(checks, above):
    """Files that are not there, and folders in their place."""
    nowhere = os.path.join(above, 'nowhere')
    no_clear, no_depot = journals(above, None, CLOSED), journals(above, CLOSED, None)
    for words in (['journal', 'check'], ['explain']):
        more = ['1', '037833100'] if words == ['explain'] else []
        for name, folder, path in (('no folder', nowhere, CLEAR), ("no clearing node's journal", no_clear, CLEAR), ("no depository's journal", no_depot, DEPOT)):
            checks.told(name, words + [folder, *more], cannot_read(os.path.join(folder, path), MISSING))
        good = journals(above, TRADE_AND_CYCLE + CLOSED, EXECUTION + CLOSED)
        in_place = os.path.join(good, CLEAR)
        checks.told('a file in place of the folder', words + [in_place, *more], cannot_read(os.path.join(in_place, CLEAR), NO_FOLDER))
        checks.told('no openings', words + [good, *more, '--openings', nowhere], cannot_read(nowhere, MISSING))
        checks.told('a folder of openings', words + [good, *more, '--openings', above], cannot_read(above, IS_FOLDER))
        for name in audit.NAMES + ('openings.csv',):
            folder = journals(above, TRADE_AND_CYCLE + CLOSED, EXECUTION + CLOSED)
            if name != 'openings.csv':
                os.remove(os.path.join(folder, name))
            os.mkdir(os.path.join(folder, name))
            checks.told('a folder in place of ' + name, words + [folder, *more], cannot_read(os.path.join(folder, name), IS_FOLDER))
        checks.check(os.listdir(no_clear) == [DEPOT] and os.listdir(no_depot) == [CLEAR] and not os.path.exists(nowhere), 'a file was made')
    checks.told('a dump of nothing', ['journal', 'dump', nowhere], cannot_read(nowhere, MISSING))
    checks.told('a dump of a folder', ['journal', 'dump', above], cannot_read(above, IS_FOLDER))
    checks.told('a dump of a folder as CSV', ['journal', 'dump', '--csv', above], cannot_read(above, IS_FOLDER))


def odd_files(checks, above):
    """Empty files, those of the other node, the longest tails and records, and openings in the folder and beside it."""
    check = ['journal', 'check']
    empty = journals(above, b'', b'')
    checks.told('empty files', check + [empty], (
        'clear.journal: 0 records in 0 bytes\nclear.journal: nothing follows\n'
        'clear.journal: no cycle was run\nclear.journal: longs 0, shorts 0, free 0, out 0, brought 0, taken 0, in 0 issues\n'
        'depot.journal: 0 records in 0 bytes\ndepot.journal: nothing follows\n'
        'both: 0 executed, 0 confirmed, 0 executed and not confirmed, 0 ordered and not executed\nagreed\n', '', 0))
    checks.told('an empty file', ['journal', 'dump', os.path.join(empty, CLEAR)], ('end byte 0: nothing follows\n', '', 0))
    other = journals(above, EXECUTION + CLOSED, EXECUTION + CLOSED)
    told = checks.same("the other node's journal", check + [other])
    wanted = 'clear.journal: record 1 byte 0 exec 1 COVER 0001 037833100 40 moved 40: no record of this journal'
    checks.check(wanted in told[0].splitlines() and told[2] == 1, "the other node's journal is told as\n%s" % told[0])
    for openings in (None, OPENINGS, OPENINGS.replace(b'40', b'39'), OPENINGS + b'2,037833100,0\n', OPENINGS + b'2,037833100,7\n', OPENINGS + b'x,037833100,7\n',
                     b'\xef\xbb\xbf' + OPENINGS.replace(b'\n', b'\r\n').replace(b'40', b'"0040"'), OPENINGS.splitlines()[0], b''):
        folder = journals(above, TRADE_AND_CYCLE + CLOSED, EXECUTION + CLOSED, openings)
        for words in ([], ['--verbose']):
            for given in ([], ['--openings', write(os.path.join(above, 'beside'), OPENINGS)]):
                checks.same('openings in the folder', check + [folder, *words, *given])
                checks.same('openings in the folder', ['explain', folder, '1', '037833100', *given])
    tail = CLOSED * audit.LONGEST_TAIL
    record = audit.OPEN + audit.LONGEST.to_bytes(4, 'big') + b'x' * audit.LONGEST
    for name, data in (('the longest tail', TRADE + tail), ('a longer tail', TRADE + tail + CLOSED), ('the longest record', TRADE + record + CLOSED),
                       ('a record that is too long', TRADE + audit.OPEN + (audit.LONGEST + 1).to_bytes(4, 'big') + b'x' * (audit.LONGEST + 1) + CLOSED),
                       ('the longest record behind a gate that is half open', TRADE + b'\x21' + record[1:] + CLOSED),
                       ('the same with a byte behind it', TRADE + b'\x21' + record[1:] + CLOSED + b'x'),
                       ('a longer tail behind no record', tail + CLOSED)):
        folder = journals(above, data, CLOSED)
        checks.same(name, check + [folder])
        checks.same(name, ['journal', 'dump', os.path.join(folder, CLEAR)])
        checks.same(name, ['journal', 'dump', '--csv', os.path.join(folder, CLEAR)])
    for gate in range(256):
        path = write(os.path.join(above, 'gate'), TRADE + bytes([gate]))
        checks.same('gate %02x' % gate, ['journal', 'dump', path])
        path = write(os.path.join(above, 'gate'), bytes([gate]) + TRADE[1:] + CLOSED)
        checks.same('gate %02x of a whole record' % gate, ['journal', 'dump', path])


def commands(checks, above):
    """Command lines that ask for nothing that there is, and outputs that fail."""
    folder = journals(above, TRADE_AND_CYCLE + CLOSED, EXECUTION + CLOSED)
    for words in NO_COMMANDS:
        told = checks.run([folder if word == '{}' else word for word in words])
        checks.check(told[0] == '' and told[1] != '' and told[2] == 1, '`%s`: status %d, %r, %r' % (' '.join(words), told[2], told[0][:200], told[1][:200]))
    place = os.path.join(folder, DEPOT)
    for words in (['journal', 'check', folder], ['journal', 'dump', place], ['journal', 'dump', '--csv', place], ['explain', folder, '1', '037833100']):
        with open('/dev/full', 'wb') as full:
            done = subprocess.run([checks.program, *words], stdin=subprocess.DEVNULL, stdout=full, stderr=subprocess.PIPE, timeout=SECONDS, check=False)
        checks.check((done.returncode, done.stderr) == (3, b'cnsd: output failed\n'), '`%s` into a full device: status %d, %r' % (words, done.returncode, done.stderr[:200]))


# ---- The story of examples/auditor-afternoon.md.

STORY = os.path.join(TOP, 'examples', 'auditor-afternoon.md')
# `xxd` is not everywhere.
BEGINNING = """set -u -o pipefail
cnsd() { "$PROGRAM" "$@"; }
xxd() { python3 -c 'import sys; open(sys.argv[2], "wb").write(bytes.fromhex(open(sys.argv[1]).read()))' "$3" "$4"; }
"""


def story(checks, above):
    """Each command of the story, one after another in a new folder, and what stands below it."""
    os.symlink(os.path.join(TOP, 'examples'), os.path.join(above, 'examples'))
    with open(STORY, encoding='utf-8') as file:
        blocks = re.findall(r'(?m)^    \$ (.*)\n((?:    (?!\$ ).*\n)*)', file.read())
    for command, told in blocks:
        done = subprocess.run(['bash', '-c', BEGINNING + command], cwd=above, env={**os.environ, 'PROGRAM': checks.program}, stdin=subprocess.DEVNULL,
                              capture_output=True, timeout=SECONDS, check=False)
        wanted = re.sub(r'(?m)^    ', '', told)
        checks.check((done.stdout.decode('latin-1'), done.stderr) == (wanted, b''), 'the story: `%s`: wanted\n%sand not\n%s%s' % (
            command, wanted, done.stdout.decode('latin-1'), done.stderr.decode('latin-1')))
    checks.check(len(blocks) >= 8, 'the story has %d commands' % len(blocks))


# ---- Nothing is written, locked or asked for.

def as_nobody():
    os.setgroups([])
    os.setgid(NOBODY)
    os.setuid(NOBODY)


def told_of_lock(path):
    """What a check tells of a file that this process has locked: nothing where the system has no table of locks with this process."""
    try:
        with open('/proc/locks', encoding='ascii') as table:
            is_known = any(line.split()[4:5] == [str(os.getpid())] for line in table)
    except OSError:
        is_known = False
    return 'cnsd: %s: locked by process %d\n' % (path, os.getpid()) if is_known else ''


def read_only(checks, above):
    """A folder in which nothing may be written, files that may not be read, and files that are locked."""
    is_root = os.geteuid() == 0
    folder = journals(above, TRADE_AND_CYCLE + CLOSED, EXECUTION + CLOSED, OPENINGS)
    lines = [['journal', 'check', folder, '--verbose'], ['journal', 'dump', os.path.join(folder, DEPOT)], ['explain', folder, '1', '037833100']]
    wanted = [audit.answer(words) for words in lines]
    held = [open(os.path.join(folder, name), 'rb') for name in audit.NAMES]
    for file in held:
        fcntl.flock(file, fcntl.LOCK_EX)
    for words, want in zip(lines, wanted):
        told = ''.join(map(told_of_lock, (os.path.join(folder, name) for name in audit.NAMES))) if words[1] == 'check' else ''
        checks.told('locked files', words, (want[0], told + want[1], want[2]))
    held[0].close()
    fcntl.flock(held[1], fcntl.LOCK_SH)
    checks.told('a file that is locked by who reads it', lines[0], (wanted[0][0], told_of_lock(os.path.join(folder, DEPOT)) + wanted[0][1], wanted[0][2]))
    held[1].close()
    for path in (os.path.join(folder, name) for name in os.listdir(folder)):
        os.chmod(path, 0o444)
    os.chmod(folder, 0o555)
    as_user = {'preexec_fn': as_nobody} if is_root else {}
    before = contents(folder)
    try:
        checks.run(['--version'], **as_user)
    except (OSError, subprocess.SubprocessError) as fault:
        print('a folder that is not to be written in: not tried, since no other user can run the program (%s)' % fault)
        return
    for words, want in zip(lines, wanted):
        got = checks.run(words, **as_user)
        checks.check(got == want, 'in a folder that is not to be written in `%s`: %s' % (' '.join(words), got))
    checks.check(contents(folder) == before, 'in a folder that is not to be written in something was changed')
    for name in audit.NAMES + ('openings.csv',):
        os.chmod(folder, 0o755)
        os.chmod(os.path.join(folder, name), 0)
        got = checks.run(lines[0], **as_user)
        checks.check(got == cannot_read(os.path.join(folder, name), DENIED), '%s that may not be read: %s' % (name, got))
        os.chmod(os.path.join(folder, name), 0o444)


def main():
    if len(sys.argv) != 2:
        print(__doc__, file=sys.stderr)
        print('0 passed, 1 failed')
        return 2
    with tempfile.TemporaryDirectory() as above:
        program = shutil.copy(os.path.abspath(sys.argv[1]), above)      # where another user may run it
        os.chmod(program, 0o755)
        os.chmod(above, 0o755)
        checks = Checks(program)
        for part in (runs, unreadable, odd_files, commands, story, read_only):
            room = os.path.join(above, part.__name__)
            os.mkdir(room)
            os.chmod(room, 0o755)
            part(checks, room)
    print(f'{checks.passed} passed, {checks.failed} failed')
    return 0 if checks.failed == 0 and checks.passed else 1


if __name__ == '__main__':
    sys.exit(main())
