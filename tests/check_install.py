#!/usr/bin/env python3
"""tests/check_install.py PROGRAM: what `make install` sets up, and whether docs/FAULTS.md has each name that a line may end with.

The names are those of the definitions of refusals and faults (crates/cns_report/specs), and the messages those of BatchFault and TableFault. Each stands
in a table of the page, and the page names no other. Then the manual page and the completion are made of PROGRAM and set up in a folder:
the page has each option, command and fault, groff finds nothing to warn of where it is there, and bash completes words.
The last line is `N passed, M failed`; the exit status is 0 where M is 0.
"""
import os
import re
import shutil
import subprocess
import sys
import tempfile

TOP = os.path.dirname(os.path.dirname(os.path.abspath(__file__)))
SPECS = os.path.join(TOP, 'crates', 'cns_report', 'specs')
# Names of the definitions that no line has: a new trade is accepted.
NEVER = {'New'}
# What a program at hand says of itself.
VERSION = r'cnsd \d+\.\d+\.\d+ \((the proved program|a build that proves nothing), of .+, by .+\)\n'


def text_of(*parts):
    with open(os.path.join(TOP, *parts), encoding='utf-8') as text:
        return text.read()


def defined():
    """The names that lines may end with, without what stands behind them, and the messages of standard error."""
    names = set(re.findall(r'^refusal_text .*codes "(\w+)"$', text_of(SPECS, 'Refusals.antt'), re.M))
    faults = text_of(SPECS, 'Faults.antt')
    numbers = re.findall(r'number\.\w+ ↦ codes "(\w+)"', faults)
    cusips = re.findall(r'cusip\.\w+(?: \w+)? ↦ codes "(\w+)', faults)
    names |= set(re.findall(r'opening\.\w+ ↦ codes "(\w+)"', faults))
    for line in re.findall(r'^row_fault_text .*$', faults, re.M):
        field = re.search(r'codes "([\w ]+)"', line)[1].strip()
        behind = numbers if 'read_fault_text e' in line else cusips if 'cusip_fault_text e' in line else None
        names |= {field} if behind is None else {f'{field} {name}' for name in behind}
    names.add('NotPlanned')
    faults = [text_of('crates', crate, 'src', 'fault.rt') for crate in ('cns_input', 'cns_table')]
    messages = set(re.findall(r'#\[error\("(cnsd: [^"]*)"\)\]', '\n'.join(faults)))
    return names - NEVER, {message.replace('{0}', 'N') for message in messages}


def told():
    """The names and messages that tables of the page tell of."""
    found = set()
    for row in re.findall(r'^\| (.*?) \|.*$', text_of('docs', 'FAULTS.md'), re.M):
        found |= set(re.findall(r'`([^`]+)`', row))
    found |= set(re.findall(r'^\| \d \| `([^`]+)`', text_of('docs', 'FAULTS.md'), re.M))
    return {re.sub(r' [PD]$', '', name) for name in found}


class Checks:
    def __init__(self):
        self.passed, self.failed = 0, 0

    def __call__(self, is_so, what):
        if is_so:
            self.passed += 1
        else:
            self.failed += 1
            print('FAIL', what)


def completes(script, words):
    """What bash completes the last of these words with."""
    asked = 'source "$0"; COMP_WORDS=("$@"); COMP_CWORD=$(($# - 1)); _cnsd; printf "%s\\n" "${COMPREPLY[@]}"'
    return subprocess.run(['bash', '-c', asked, script, *words], capture_output=True, text=True, check=False).stdout.split()


def main():
    if len(sys.argv) != 2:
        print(__doc__, file=sys.stderr)
        print('0 passed, 1 failed')
        return 2
    program = os.path.abspath(sys.argv[1])
    check = Checks()
    names, messages = defined()
    has = told()
    for name in sorted(names | messages):
        check(name in has, f'docs/FAULTS.md: {name} stands in no table')
    for name in sorted(has - names - messages):
        check(False, f'docs/FAULTS.md: no line ends with {name}')
    with tempfile.TemporaryDirectory() as prefix:
        made = subprocess.run([os.path.join(TOP, 'install', 'install.sh'), os.path.relpath(program, TOP)], cwd=TOP, capture_output=True, text=True,
                              env=dict(os.environ, PREFIX='/usr', DESTDIR=prefix), check=False)
        check(made.returncode == 0, f'install.sh: exit status {made.returncode}: {made.stderr}')
        root = os.path.join(prefix, 'usr')
        for path in ('bin/cnsd', 'share/man/man1/cnsd.1', 'share/bash-completion/completions/cnsd'):
            check(os.path.isfile(os.path.join(root, path)), f'{path} is not there')
        if made.returncode == 0:
            check_files(check, root, names | messages)
    print(f'{check.passed} passed, {check.failed} failed')
    return 0 if check.failed == 0 else 1


def check_files(check, root, names):
    """Checks what was set up."""
    version = subprocess.run([f'{root}/bin/cnsd', '--version'], capture_output=True, text=True, check=False)
    check(version.returncode == 0 and re.fullmatch(VERSION, version.stdout), f'the program does not say what it is: {version.stdout}')
    page = f'{root}/share/man/man1/cnsd.1'
    with open(page, encoding='utf-8') as lines:
        text = re.sub(r'\\f[BR]|\\&', '', lines.read()).replace('\\-', '-')
    for word in [*names, '--journal', '--workers', '--shake', 'DEPOSIT', 'REPORT', 'Exit status']:
        check(word in text, f'the page has no {word}')
    if shutil.which('groff'):
        warned = subprocess.run(['groff', '-man', '-Tutf8', '-ww', page], capture_output=True, text=True, check=False)
        check(warned.returncode == 0 and not warned.stderr, f'groff warns: {warned.stderr}')
    script = f'{root}/share/bash-completion/completions/cnsd'
    for words, wanted in [(['cnsd', ''], {'run', 'check', 'table', 'cusip', '--help', '--version'}), (['cnsd', 'ru'], {'run'}),
                          (['cnsd', 'run', '--'], {'--journal', '--workers', '--shake', '--progress', '--help'}), (['cnsd', 'cusip', '--h'], {'--help'}),
                          (['cnsd', 'run', '--workers', ''], set())]:
        check(wanted <= set(completes(script, words)) and (wanted or not completes(script, words)), f'{words} is not completed by {wanted}')


if __name__ == '__main__':
    sys.exit(main())
