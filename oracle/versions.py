#!/usr/bin/env python3
"""Runs a program over journals that hold executions of both versions, and compares it with the oracle.

    versions.py PROGRAM --seed N --count K [--from F]

Each input is made as `fuzz.py` makes texts for `run`, and its script is cut in two. The program runs the first
part over journal files in a new folder. Then some of the depository's executions, drawn at random, lose their
cycles: they stand in the journal as a program of version 1 would have left them. Members' own instructions, which
version 1 had not, stay as they are. The program runs the second part over these, in half of the inputs behind lines
that send some executed orders and give some instructions once more. After each part its lines have to be those of
the oracle; the clearing node's journal has to hold the oracle's records; and the depository's has to be the oracle's
to the byte: what stood in it keeps its form, and what comes behind that is spelled in version 2.

Two in five inputs are shaken. The last line is `N passed, M failed`; before it stands what was met.
"""
import argparse
import collections
import os
import random
import subprocess
import sys
import tempfile

sys.path.insert(0, os.path.dirname(os.path.abspath(__file__)))
import cnsd_oracle  # noqa: E402
import fuzz  # noqa: E402
import journals  # noqa: E402
from cnsd_oracle import Exec, Own  # noqa: E402


class Difference(Exception):
    pass


def parts_of(text, rng):
    """What stands before the script of a text, and the script as two: its first lines, and the others."""
    openings, trades, script = cnsd_oracle.split_sections(text)
    cut = rng.randint(0, len(script))
    return b'[openings]\n' + openings + b'[trades]\n' + trades + b'[script]\n', script[:cut], script[cut:]


def text_of(head, script):
    return head + b''.join(line + b'\n' for line in script)


def some_of(kind, records, rng):
    """Up to four of the records of a kind."""
    them = cnsd_oracle.of_kind(kind, records)
    return rng.sample(them, min(len(them), rng.randint(1, 4)))


def sent_again(depot, rng):
    """Lines that send some executed orders once more, and let their packets and replies arrive."""
    numbers = [record.order.number for record in some_of(Exec, depot, rng)]
    lines = [b'SEND %d' % number for number in numbers]
    lines += [b'ORDER %d' % rng.randint(1, len(numbers)) for _ in numbers]
    return lines + [b'REPLY %d' % rng.randint(1, len(numbers)) for _ in numbers]


def given_again(depot, rng):
    """Lines that give some instructions once more."""
    return [fuzz.own_line(own) for own in some_of(Own, depot, rng)]


def lines_of(program, text, shake, folder):
    """What the program writes for a text over the journals of a folder."""
    words = [program, 'run', '--journal', folder] + (['--shake', str(shake)] if shake is not None else [])
    done = subprocess.run(words, input=text, capture_output=True, timeout=fuzz.SECONDS)
    if done.returncode != 0 or done.stderr:
        raise Difference('exit status %d, %s' % (done.returncode, done.stderr.decode(errors='replace')))
    return done.stdout.decode()


def read(folder, name):
    with open(os.path.join(folder, name), 'rb') as file:
        return file.read()


def same(what, wanted, written):
    if wanted != written:
        raise Difference('%s: wanted\n%s\nand not\n%s' % (what, wanted, written))


def compare(program, text, shake, folder, clear, depot):
    """Runs a text over journals with these records; answers the records that the oracle has after it."""
    run = cnsd_oracle.run_of(text, shake, True, clear, depot)
    same('the lines', ''.join(line + '\n' for line in run.out), lines_of(program, text, shake, folder))
    clear, depot = run.book.clear.records, run.book.depot.records
    written = [journals.read_clear(payload) for payload in journals.payloads(read(folder, 'clear.journal'))]
    same("the clearing node's records", clear, written)
    payloads = [journals.spell_depot(record) for record in depot]
    same("the depository's journal", journals.file_of(payloads).hex(), read(folder, 'depot.journal').hex())
    same("the depository's records", depot, [journals.read_depot(payload) for payload in payloads])
    return run, clear, depot


def without_some_cycles(records, rng):
    share = rng.choice([0, 0.5, 0.5, 1])
    return [record._replace(order=record.order._replace(cycle=None))
            if isinstance(record, Exec) and rng.random() < share else record for record in records]


def name_of(record):
    return 'an execution' if isinstance(record, Exec) else 'an instruction'


def met_in(run, depot, before):
    """What a second part met, by how the record of the first part was spelled that it met."""
    first, second = depot[:before], depot[before:]
    met = ['%s of version %d' % (name_of(record), journals.version_of(record)) for record in first]
    versions = {record.order.number: journals.version_of(record) for record in cnsd_oracle.of_kind(Exec, first)}
    instructions = {(own.member, own.number) for own in cnsd_oracle.of_kind(Own, first)}
    for line in run.out:
        words = line.split()
        if words[0] in ('again', 'confirm') and int(words[1]) in versions:
            met.append('`%s` of an execution of version %d' % (words[0], versions[int(words[1])]))
        if words[0] in ('deposit', 'withdraw') and words[-1] == 'again':
            if (int(words[1]), int(words[3])) in instructions:
                met.append('`again` of an instruction of the first part')
    return met + ['%s beside the records of the first part' % name_of(record) for record in second]


def is_good(text):
    try:
        cnsd_oracle.split_sections(text)
        return cnsd_oracle.answer(text, None, True)[0] == 0
    except cnsd_oracle.BadInput:
        return False


def run_one(program, seed, number, met):
    rng = random.Random('versions %d %d' % (seed, number))
    shake = rng.randrange(1 << 64) if rng.random() < 0.4 else None
    text = fuzz.Maker(rng, shake, True).text()
    while not is_good(text):
        text = fuzz.Maker(rng, shake, True).text()
    head, first, second = parts_of(text, rng)
    with tempfile.TemporaryDirectory() as folder:
        _, clear, depot = compare(program, text_of(head, first), shake, folder, [], [])
        depot = without_some_cycles(depot, rng)
        if depot and rng.random() < 0.5:
            second = sent_again(depot, rng) + given_again(depot, rng) + second
        with open(os.path.join(folder, 'depot.journal'), 'wb') as file:
            file.write(journals.file_of([journals.spell_depot(record) for record in depot]))
        run, _, after = compare(program, text_of(head, second), shake, folder, clear, depot)
        met.update(set(met_in(run, after, len(depot))))


def main():
    parser = argparse.ArgumentParser(description=__doc__.split('\n', maxsplit=1)[0])
    parser.add_argument('program')
    parser.add_argument('--seed', type=int, required=True)
    parser.add_argument('--count', type=int, required=True)
    parser.add_argument('--from', type=int, default=0, dest='first')
    given = parser.parse_args()
    passed, met = 0, collections.Counter()
    for number in range(given.first, given.first + given.count):
        try:
            run_one(given.program, given.seed, number, met)
            passed += 1
        except (Difference, ValueError, subprocess.TimeoutExpired) as fault:
            print('FAIL input %d of seed %d: %s' % (number, given.seed, fault))
            break
    for what, count in sorted(met.items()):
        print('%6d inputs with %s' % (count, what))
    print('%d passed, %d failed' % (passed, 0 if passed == given.count else 1))
    return 0 if passed and passed == given.count else 1


if __name__ == '__main__':
    sys.exit(main())
