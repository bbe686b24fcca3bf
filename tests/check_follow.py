#!/usr/bin/env python3
"""tests/check_follow.py PROGRAM: what who follows a run sees: its lines as they come, how far it is, what it awaits, and its version.

Each write of the program is seen by itself, as one packet of a socket that stands for its standard output. A terminal is a pty.
The last line is `N passed, M failed`; the exit status is 0 where M is 0.
"""
import os
import pty
import re
import shutil
import socket
import subprocess
import sys
import tempfile

TOP = os.path.dirname(os.path.dirname(os.path.abspath(__file__)))
HEAD = b"""[openings]
account,cusip,shares
1,037833100,40
[trades]
trade,settle,buyer,seller,cusip,quantity
F1,2025-03-04,2,1,037833100,30
F2,2025-03-04,3,1,037833100,30
[script]
"""
# Each line of a script, and how many lines it tells; the two lines behind BESIDE run once its lot is told.
SCRIPT = [(b'TAKE ALL', 2), (b'CYCLE NIGHT 2025-03-04', 2), (b'PUMP', 3), (b'BESIDE 037833100 2', 0), (b'EXEMPT 1 037833100 5', 2),
          (b'PRIORITY 2 037833100 ON', 1), (b'', 5), (b'# a comment', 0), (b'REPORT', 7)]
INPUT = HEAD + b''.join(line + b'\n' for line, _ in SCRIPT)
VERSION = 'cnsd 0.1.0 (nothing is recorded of how this program was made)\n'


class Checks:
    """How many passed, and each that did not."""

    def __init__(self):
        self.passed, self.failed = 0, 0

    def check(self, holds, what):
        if holds:
            self.passed += 1
        else:
            self.failed += 1
            print('FAIL', what)


def packets(words, text, stderr=subprocess.DEVNULL):
    """What a program writes on standard output, write by write, and its exit status."""
    ours, theirs = socket.socketpair(socket.AF_UNIX, socket.SOCK_SEQPACKET)
    with ours, subprocess.Popen(words, stdin=subprocess.PIPE, stdout=theirs.fileno(), stderr=stderr) as program:
        theirs.close()
        program.stdin.write(text)
        program.stdin.close()
        written = []
        while packet := ours.recv(1 << 20):
            written.append(packet)
        return written, program.wait()


def terminal():
    """A terminal: the end that we hold, and the one that is handed on."""
    ours, theirs = pty.openpty()
    return ours, theirs


def shown(ours):
    """All that was written to a terminal, once its other end is closed."""
    text = b''
    while True:
        try:
            part = os.read(ours, 1 << 16)
        except OSError:
            break
        if not part:
            break
        text += part
    os.close(ours)
    return text


def pace(check, program):
    """With a journal, and with --progress, each line of the script is one write; else all of a short text is."""
    counts = [lines for _, lines in SCRIPT if lines]
    # The blank line behind BESIDE is reached once its lot is closed, which the end of BESIDE's own line writes.
    for words, by_line in [([], False), (['--workers', '2'], False), (['--shake', '7'], False), (['--progress'], True), (['--progress', '--workers', '2'], True)]:
        for kept in (False, True):
            with tempfile.TemporaryDirectory() as folder:
                all_words = [program, 'run', *words] + (['--journal', folder] if kept else [])
                written, status = packets(all_words, INPUT)
            check(status == 0, f'{all_words[1:]}: exit status {status}')
            if by_line or kept:
                lines = [part.count(b'\n') for part in written]
                check(len(written) == len(counts) and (lines == counts or '--shake' in words) and all(part.endswith(b'\n') for part in written),
                      f'{all_words[1:]}: {lines} lines a write, and not {counts}')
            else:
                check(len(written) == 1, f'{all_words[1:]}: {len(written)} writes, and not one')
    text = [subprocess.run([program, 'run', *words], input=INPUT, capture_output=True, check=False).stdout for words in ([], ['--progress'], ['--progress', '--progress'])]
    check(text[0] == text[1] == text[2], '--progress changes the text')


def progress(check, program):
    """--progress tells nothing in a pipe, and lines in one where it is given twice; on a terminal it tells in place."""
    run = [program, 'run']
    many = HEAD + b'TAKE ALL\n' + b'LOOK 7\n' * 2500
    for words, text, wanted in [([], INPUT, []), (['--progress'], INPUT, []), (['--progress'] * 2, INPUT, ['7']), (['--progress'] * 2, many, ['1000', '2000', '2501'])]:
        ended = subprocess.run([*run, *words], input=text, capture_output=True, check=False)
        told = re.findall(r'^cnsd: (\d+) commands run, (\d+) bytes written$', ended.stderr.decode(), re.M)
        check([commands for commands, _ in told] == wanted and ended.stderr.count(b'\n') == len(wanted) and ended.returncode == 0, f'{words}: {ended.stderr[-300:]}')
        check(not told or int(told[-1][1]) == len(ended.stdout), f'{words}: other bytes than were written')
    for words in ([], ['--progress'], ['--progress'] * 2):
        ours, theirs = terminal()
        ended = subprocess.run([*run, *words], input=INPUT, stdout=subprocess.PIPE, stderr=theirs, check=False)
        os.close(theirs)
        text = shown(ours)
        last = f'\rcnsd: 7 commands run, {len(ended.stdout)} bytes written\r\n'.encode()
        check(text.endswith(last) and text.count(b'\n') == 1 if words else text == b'', f'{words} on a terminal: {text[-200:]}')
    ended = subprocess.run([*run, '--progress', '--progress', '--strict'], input=INPUT + b'WORD\n', capture_output=True, check=False)
    check(ended.returncode == 4 and ended.stderr.decode().splitlines()[-1].endswith('1 bad line, 0 events refused, 0 device failures'), 'the counts are not last')


def awaited(check, program):
    """Where standard input is a terminal, one line says what is awaited; where it is none, nothing does."""
    for words, text, wanted in [(['run'], INPUT, b'an input is awaited'), (['check'], INPUT, b'an input is awaited'), (['cusip', '-'], b'037833100\n', b'texts are awaited'),
                                (['table'], b'', b'what a run wrote is awaited')]:
        ours, theirs = terminal()
        with subprocess.Popen([program, *words], stdin=theirs, stdout=subprocess.PIPE, stderr=subprocess.PIPE) as there:
            os.close(theirs)
            for line in text.splitlines(keepends=True):
                os.write(ours, line)
            os.write(ours, b'\x04')
            out, told = there.communicate()
        os.close(ours)
        plain = subprocess.run([program, *words], input=text, capture_output=True, check=False)
        check(told.startswith(b'cnsd: ' + wanted) and told.count(b'\n') == 1 and there.returncode == 0, f'{words} at a terminal: {told}')
        check(out == plain.stdout and plain.stderr == b'', f'{words}: a terminal makes a difference')


def version(check, program):
    """A program says in its version what was recorded of it, once."""
    def said(path):
        return subprocess.run([path, '--version'], capture_output=True, text=True, check=False).stdout
    with tempfile.TemporaryDirectory() as folder:
        path = os.path.join(folder, 'cnsd')
        shutil.copy(program, path)
        check(said(path) == VERSION, f'the version is {said(path)}')
        record = [sys.executable, os.path.join(TOP, 'tests', 'record_build.py'), path]
        for words, status, wanted in [('x' * 300, 1, VERSION), ('', 0, 'cnsd 0.1.0 ()\n')]:
            shutil.copy(program, path)
            ended = subprocess.run([*record, words], capture_output=True, check=False)
            check((ended.returncode, said(path)) == (status, wanted), f'{words!r} is recorded as {said(path)}')
        shutil.copy(program, path)
        words = 'the proved program, of 0123456 with changes, by rattle-kit-13f logic dac8208d650f15bf'
        for status in (0, 1):
            ended = subprocess.run([*record, words], capture_output=True, check=False)
            check((ended.returncode, said(path)) == (status, f'cnsd 0.1.0 ({words})\n'), f'{words} is recorded as {said(path)}')
        run = subprocess.run([path, 'run'], input=INPUT, capture_output=True, check=False)
        check(run.stdout == subprocess.run([program, 'run'], input=INPUT, capture_output=True, check=False).stdout, 'a program of which it is recorded runs otherwise')


def main():
    if len(sys.argv) != 2:
        print(__doc__, file=sys.stderr)
        print('0 passed, 1 failed')
        return 2
    program = os.path.abspath(sys.argv[1])
    checks = Checks()
    for part in (pace, progress, awaited, version):
        part(checks.check, program)
    print(f'{checks.passed} passed, {checks.failed} failed')
    return 0 if checks.failed == 0 else 1


if __name__ == '__main__':
    sys.exit(main())
