#!/usr/bin/env python3
"""tests/check_readme.py PROGRAM: whether the first commands of the README do what it shows, in a tree with nothing built but PROGRAM.

The files of the repository are copied to a folder of their own, without what was built; PROGRAM, the proved one, is put where `make build`
leaves it. There `make demo` is run, and then each command of the README's examples (a line that begins with `$` in a block that is set
in), in its order; what a command writes is what stands below it. A second `make demo` builds nothing.
The last line is `N passed, M failed`; the exit status is 0 where M is 0.
"""
import os
import shutil
import subprocess
import sys
import tempfile

TOP = os.path.dirname(os.path.dirname(os.path.abspath(__file__)))
INDENT = '    '


def examples(text):
    """The commands of the blocks that are set in, each with the lines that stand below it."""
    found, is_open = [], False
    for line in text.splitlines():
        if line.startswith(INDENT + '$ '):
            found.append((line[len(INDENT) + 2:], []))
            is_open = True
        elif line.startswith(INDENT) and is_open:
            found[-1][1].append(line[len(INDENT):])
        else:
            is_open = False
    return [(command, ''.join(line + '\n' for line in lines)) for command, lines in found]


def copy_tree(to):
    """Copies the repository's files without what was built."""
    for name in os.listdir(TOP):
        path = os.path.join(TOP, name)
        if name == '.git' or name == 'out':
            continue
        if os.path.isdir(path):
            shutil.copytree(path, os.path.join(to, name), ignore=shutil.ignore_patterns('out', '__pycache__'))
        else:
            shutil.copy(path, to)


def run(command, folder):
    """Runs a command of the shell; answers its exit status and what it wrote."""
    return subprocess.run(['bash', '-c', command], cwd=folder, capture_output=True, text=True, stdin=subprocess.DEVNULL, check=False)


def main():
    if len(sys.argv) != 2:
        print(__doc__, file=sys.stderr)
        print('0 passed, 1 failed')
        return 2
    failures, passed = [], 0
    with open(os.path.join(TOP, 'README.md'), encoding='utf-8') as readme:
        wanted = examples(readme.read())
    if not wanted:
        failures.append('README.md has no example')
    with tempfile.TemporaryDirectory() as folder:
        copy_tree(folder)
        built = os.path.join(folder, 'crates', 'cnsd', 'out')
        os.makedirs(built)
        shutil.copy(sys.argv[1], built)
        for what in ('make demo', 'make demo once more'):
            demo = run('make --no-print-directory demo', folder)
            if demo.returncode or 'is built, unproved' in demo.stderr:
                failures.append(f'{what}: exit status {demo.returncode}: {demo.stderr[-300:]}')
            else:
                passed += 1
        for command, lines in wanted:
            ended = run(command, folder)
            if (ended.returncode, ended.stdout, ended.stderr) != (0, lines, ''):
                failures.append(f'{command}: exit status {ended.returncode}, and not what the README has')
            else:
                passed += 1
    for failure in failures:
        print('FAIL', failure)
    print(f'{passed} passed, {len(failures)} failed')
    return 0 if not failures else 1


if __name__ == '__main__':
    sys.exit(main())
