#!/usr/bin/env python3
"""Tries `run --strict`, and inputs by name of `run` and `check`, on the examples and the cases.

    check_strict.py PROGRAM

On each input that `run` takes, with no more than its own options, a strict run must write the same text and end with the status
that follows from the lines of the text: 3 where a device failed, 4 where anything else was not taken, else 0; and its counts on
standard error must be those of the lines. The same input as a file, and as files of its sections, must give the same text and
status. The last line is `N passed, M failed`; the exit status is 0 where M is 0 and N is not.
"""
import os
import re
import subprocess
import sys
import tempfile

TOP = os.path.dirname(os.path.dirname(os.path.abspath(__file__)))
FOLDERS = ('examples', 'tests/cases')
HEADS = (b'[openings]', b'[trades]', b'[script]')
SECONDS = 60


def counts_of(text):
    """How many lines of a text tell of rows with faults, refused trades, bad lines, refused events and failed devices."""
    rows = trades = lines = events = failures = 0
    for line in text.split(b'\n')[:-1]:
        words = line.split(b' ')
        if words[0] in (b'row', b'opening'):
            rows += 1
        elif words[0] == b'line':
            lines += 1
        elif b'refused' in words:
            if words[-1] == b'Device':
                failures += 1
            elif words[0] == b'trade':
                trades += 1
            else:
                events += 1
    return rows, trades, lines, events, failures


def told(counts):
    """The line that tells counts."""
    rows, trades, lines, events, failures = counts
    return ('cnsd: %d row%s faulty, %d trade%s refused, %d bad line%s, %d event%s refused, %d device failure%s\n' % (
        rows, '' if rows == 1 else 's', trades, '' if trades == 1 else 's', lines, '' if lines == 1 else 's',
        events, '' if events == 1 else 's', failures, '' if failures == 1 else 's')).encode()


def status_of(counts):
    return 3 if counts[-1] else 4 if any(counts) else 0


def run(program, words, text=b''):
    done = subprocess.run([program, 'run'] + words, input=text, capture_output=True, timeout=SECONDS)
    return done.returncode, done.stdout, done.stderr


def sections_of(text):
    """What stands between the heads of a text; None where that is not so simple that files of it make the text again."""
    found = re.fullmatch(rb'\[openings\]\n(.*?)^\[trades\]\n(.*?)^\[script\]\n(.*)', text, re.DOTALL | re.MULTILINE)
    return found.groups() if found else None


def faults(program, name, text, folder):
    """What is wrong with the ways of running an input, in words."""
    plain = run(program, [], text)
    strict = run(program, ['--strict'], text)
    if plain[0] != 0:
        if strict != plain:
            yield 'a strict run is refused in another way'
        return
    counts = counts_of(plain[1])
    if strict != (status_of(counts), plain[1], told(counts)):
        yield 'strict: status %s, %s for %s' % (strict[0], strict[2], told(counts))
    path = os.path.join(folder, 'input')
    with open(path, 'wb') as out:
        out.write(text)
    if run(program, [path]) != plain:
        yield 'another text of the input as a file'
    if run(program, [path, '--strict']) != strict:
        yield 'another strict run of the input as a file'
    parts = sections_of(text)
    if parts is None:
        return
    words = []
    for part, content in zip(('openings', 'trades', 'script'), parts):
        named = os.path.join(folder, part)
        with open(named, 'wb') as out:
            out.write(content[:-1] if content.endswith(b'\n') and part != 'script' else content)
        words += ['--' + part, named]
    if run(program, words) != plain:
        yield 'another text of its sections as files'


def named_faults(program, folder):
    """What is wrong with two files of trades, in words."""
    header = b'trade,settle,buyer,seller,cusip,quantity'
    rows = [b'A1,2025-03-04,2,1,037833100,60', b'A2,2025-03-04,3,1,037833100,10']
    script = b'TAKE ALL\nCYCLE NIGHT 2025-03-04\nREPORT'

    def file(name, text):
        path = os.path.join(folder, name)
        with open(path, 'wb') as out:
            out.write(text)
        return path

    one = run(program, [], b'[openings]\n[trades]\n%s\n%s\n%s\n[script]\n%s' % (header, *rows, script))
    first = file('first', header + b'\n' + rows[0])
    commands = ['--script', file('script', script)]
    for name, second in (('plain', header + b'\n' + rows[1] + b'\n'), ('marked', b'\xef\xbb\xbf' + header + b'\r\n' + rows[1])):
        if run(program, ['--trades', first, '--trades', file('second', second)] + commands) != one:
            yield 'two files of trades (%s) are not one section' % name
    if run(program, ['--trades', first, '--trades', file('second', rows[1])] + commands) != (2, b'', b'cnsd: bad rows\n'):
        yield 'a further file of trades without its header is taken'
    if run(program, ['--trades', file('second', header + b'\n[script]\n')] + commands) != (2, b'', b'cnsd: bad sections\n'):
        yield 'a file of trades with a head is taken'
    if run(program, ['--openings', file('second', b'[trades]')] + commands) != (2, b'', b'cnsd: bad sections\n'):
        yield 'a file of openings with a head is taken'
    for end in (b'', b'\r', b'\r\n'):
        if run(program, ['--openings', file('second', b'account,cusip,shares\n[trades]' + end)] + commands) != (2, b'', b'cnsd: bad sections\n'):
            yield 'a file of openings that ends with a head and %r is taken' % end
        if run(program, ['--trades', first, '--trades', file('second', header + b'\n[script]' + end)] + commands) != (2, b'', b'cnsd: bad sections\n'):
            yield 'a further file of trades that ends with a head and %r is taken' % end
    openings = file('openings', b'account,cusip,shares\n1,037833100,x\n2,037833100,5')
    words = ['--openings', openings, '--trades', file('first', header + b'\n' + rows[0] + b'\na,,,,,'), '--trades', file('second', header + b'\nb,,,,,\n'),
             '--script', file('script', b'TAKE ALL\nREPORTS')]
    done = subprocess.run([program, 'check'] + words, capture_output=True, timeout=SECONDS)
    told_lines = sorted({line.split(b': ')[0] for line in done.stdout.split(b'\n')[:-2]})
    wanted = [('%s:%d' % (os.path.join(folder, name), line)).encode() for name, line in (('first', 3), ('openings', 2), ('script', 2), ('second', 2))]
    if (done.returncode, told_lines, done.stderr) != (1, wanted, b''):
        yield 'a check of files by name tells of %s for %s' % (told_lines, wanted)
    if run(program, [os.path.join(folder, 'none')]) != (2, b'', b'cnsd: input cannot be read\n'):
        yield 'a file that is not there is read'
    if run(program, [folder]) != (2, b'', b'cnsd: input cannot be read\n'):
        yield 'a folder is read'
    if run(program, [first] + commands)[0] != 1:
        yield 'an input and its parts are taken together'


def inputs():
    """The inputs of the cases that have no arguments of their own."""
    for place in FOLDERS:
        for name in sorted(os.listdir(os.path.join(TOP, place))):
            path = os.path.join(TOP, place, name)
            if name.endswith('.in') and not any(os.path.exists(path[:-3] + end) for end in ('.args', '.pad', '.rule')):
                with open(path, 'rb') as read:
                    yield os.path.join(place, name), read.read()


def main():
    if len(sys.argv) != 2:
        print('usage: check_strict.py PROGRAM')
        return 2
    program, passed, failed = os.path.abspath(sys.argv[1]), 0, 0
    with tempfile.TemporaryDirectory() as folder:
        tried = [(name, list(faults(program, name, text, folder))) for name, text in inputs()]
        tried.append(('files by name', list(named_faults(program, folder))))
    for name, wrong in tried:
        for fault in wrong:
            print('FAIL %s: %s' % (name, fault))
        passed += not wrong
        failed += bool(wrong)
    print('%d passed, %d failed' % (passed, failed))
    return 0 if passed and not failed else 1


if __name__ == '__main__':
    sys.exit(main())
