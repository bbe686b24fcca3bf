"""Hostile inputs: texts, journals and command lines that are changed here and there (hostile.py runs them).

    hostile_inputs.py       writes the words of which texts are made, for AFL++ (guided.sh)

Input number i of a seed is always the same. The values that are put in are those of the random inputs of oracle/.
"""
import glob
import os
import random
import re
import sys

HERE = os.path.dirname(os.path.abspath(__file__))
TOP = os.path.dirname(HERE)
sys.path.insert(0, os.path.join(TOP, 'oracle'))
import cnsd_oracle  # noqa: E402
import fuzz  # noqa: E402
from crash import journal  # noqa: E402

HEADS = [b'[openings]', b'[trades]', b'[script]']
HEADERS = [b'account,cusip,shares', b'trade,settle,buyer,seller,cusip,quantity']
NUMBERS = [b'0', b'1', b'2', b'3', b'5', b'9', b'12', b'99', b'1000', b'1001', b'9999', b'10000', b'1000000', b'1000001',
           b'999999999999', b'1000000000', b'1000000001', b'1000000000000', b'1000000000000000000',
           b'1000000000000000001', b'4294967295', b'4294967296', b'9223372036854775807', b'9223372036854775808']
PIECES = [b'"', b'""', b',', b',,', b'\r', b'\n', b'\r\n', b'\n\n', b'\x00', b'\xff', b' ', b'\t', b'#', b'[', b']', b'-', b'+',
          b'\xef\xbb\xbf', b'\xc3\xa9', b'\x1a', b'\x7f', b'\x80', b'\\', b"'", b'*', b'@', b'[script]\n', b'[trades]\n',
          b'\n[openings]\n']
LINES = [b'TAKE n', b'TAKE ALL', b'EXEMPT m c n', b'PRIORITY m c ON', b'PRIORITY m c OFF', b'CYCLE NIGHT d', b'CYCLE DAY d',
         b'DEPOSIT m n c n', b'WITHDRAW m n c n',
         b'LOT c', b'POUR n', b'RESERVE n m', b'LOOK n', b'SEAL n', b'CLOSE n', b'ALLOCATE c', b'BESIDE c n', b'SEND n',
         b'ORDER n', b'REPLY n', b'FAIL CLEAR KEEP', b'FAIL CLEAR DROP', b'FAIL DEPOT KEEP', b'FAIL DEPOT DROP',
         b'RESTART CLEAR', b'RESTART DEPOT', b'PUMP', b'REPORT']
CLOSING = b'RESTART CLEAR\nRESTART DEPOT\nREPORT\n'
MOST_BYTES = 300000                  # a text that grew beyond this is cut
TRADES = re.compile(rb'\n\[trades\]\r?\n')
NUMBER = re.compile(rb'[0-9]+')


class Input:
    """One input: the words of its command line, its text, and both journals before it (None: no folder of journals)."""

    def __init__(self, words, text, journals=None, want=None):
        self.words, self.text, self.journals, self.want = words, text, journals, want

    def size(self):
        return len(self.text) + sum(map(len, self.words)) + sum(len(one or b'') for one in self.journals or ())


def words_beside(path):
    """The words of the command line of a case or an example."""
    try:
        with open(path[:-3] + '.args', 'rb') as file:
            return file.read().split()
    except OSError:
        return [b'run']


def without_journal(words):
    """The words of a command line without a folder of journals."""
    words = list(words)
    while b'--journal' in words:
        place = words.index(b'--journal')
        del words[place:place + 2]
    return words


def in_one_file(text, files):
    """Two journals and a text as one file (guided.c)."""
    return b''.join(len(one).to_bytes(4, 'big') for one in files) + b''.join(files) + text


def from_one_file(data):
    """(text, both journals) of such a file, as guided.c reads it."""
    files, place = [], 8
    for at in (0, 4):
        end = min(len(data), place + int.from_bytes(data[at:at + 4], 'big'))
        files.append(data[place:end])
        place = max(place, end)
    return data[place:], tuple(files)


def texts_of_folders(folders=('examples', 'tests/cases', 'tests/crash')):
    """(name, words, text) of the inputs of the repository."""
    for folder in folders:
        for path in sorted(glob.glob(os.path.join(TOP, folder, '*.in'))):
            with open(path, 'rb') as file:
                yield os.path.basename(path)[:-3], words_beside(path), file.read()


def with_closing(text):
    """A text whose script ends with a restart of both nodes and a report."""
    return text + (b'' if text.endswith(b'\n') else b'\n') + CLOSING


def only_closing(text):
    """The openings of a text, no trades, and a script of the restarts and the report alone; None of a text without trades."""
    head = TRADES.search(text)
    return None if head is None else text[:head.start() + 1] + b'[trades]\n[script]\n' + CLOSING


class Changer:
    """Changes one input, by a source of chance."""

    def __init__(self, rng, texts, kept):
        self.rng, self.texts, self.kept = rng, texts, kept

    # Values.

    def number(self):
        rng = self.rng
        return rng.choice(NUMBERS) if rng.random() < 0.4 else b'%d' % rng.randrange(9) if rng.random() < 0.9 else \
            rng.choice(fuzz.HUGE + fuzz.NOT_NUMBERS)

    def member(self):
        return self.rng.choice([b'1', b'2', b'3', b'4', b'226', b'443', b'901', b'9999', b'0', b'10000'])

    def cusip(self):
        return self.rng.choice(fuzz.ISSUES if self.rng.random() < 0.85 else fuzz.BAD_ISSUES)

    def date(self):
        kind = self.rng.random()
        return self.rng.choice(fuzz.DATES if kind < 0.8 else fuzz.RARE_DATES if kind < 0.9 else fuzz.BAD_DATES)

    def value(self):
        return self.rng.choice([self.number, self.member, self.cusip, self.date])()

    def command(self):
        words = {b'n': self.number, b'm': self.member, b'c': self.cusip, b'd': self.date}
        return b' '.join(words[word]() if word in words else word for word in self.rng.choice(LINES).split(b' '))

    def row(self):
        rng = self.rng
        if rng.random() < 0.3:
            return b','.join([self.member(), self.cusip(), self.number()])
        return b','.join([b'%c%d' % (rng.choice(b'ABCT'), rng.randrange(20)), self.date(), self.member(), self.member(),
                          self.cusip(), self.number()])

    # Changes of bytes, of any kind of file.

    def other_byte(self, data):
        place = self.rng.randrange(len(data) + 1)
        return data[:place] + bytes([self.rng.randrange(256)]) + data[place + 1:]

    def other_bit(self, data):
        if not data:
            return data
        place = self.rng.randrange(len(data))
        return data[:place] + bytes([data[place] ^ 1 << self.rng.randrange(8)]) + data[place + 1:]

    def put_in(self, data):
        place = self.rng.randrange(len(data) + 1)
        return data[:place] + self.rng.choice(PIECES) + data[place:]

    def take_out(self, data):
        place = self.rng.randrange(len(data) + 1)
        return data[:place] + data[place + self.rng.choice([1, 1, 2, 8, 40, 300]):]

    def repeat(self, data):
        place, length = self.rng.randrange(len(data) + 1), self.rng.choice([1, 2, 9, 40, 200])
        times = self.rng.choice([1, 1, 1, 2, 9, 100, 1000])
        return data[:place] + data[place:place + length] * times + data[place:]

    def cut(self, data):
        return data[:self.rng.randrange(len(data) + 1)]

    def move(self, data):
        begin, length = self.rng.randrange(len(data) + 1), self.rng.choice([1, 9, 40, 200])
        rest = data[:begin] + data[begin + length:]
        place = self.rng.randrange(len(rest) + 1)
        return rest[:place] + data[begin:begin + length] + rest[place:]

    # Changes of texts, by their lines and fields.

    def one_line(self, text, change):
        lines = text.split(b'\n')
        place = self.rng.randrange(len(lines))
        lines[place:place + 1] = change(lines[place])
        return b'\n'.join(lines)

    def put_command(self, text):
        return self.one_line(text, lambda line: [line, self.command()])

    def put_commands(self, text):
        return self.one_line(text, lambda line: [line] + [self.command() for _ in range(self.rng.choice([2, 5, 20]))])

    def end_with_commands(self, text):
        end = b'' if text.endswith(b'\n') else b'\n'
        return text + end + b''.join(self.command() + b'\n' for _ in range(self.rng.choice([1, 3, 10, 30])))

    def put_row(self, text):
        return self.one_line(text, lambda line: [line, self.row()])

    def put_head(self, text):
        return self.one_line(text, lambda line: [line, self.rng.choice(HEADS + HEADERS)])

    def drop_line(self, text):
        return self.one_line(text, lambda line: [])

    def again(self, text):
        times = self.rng.choice([2, 2, 2, 3, 10, 200])
        return self.one_line(text, lambda line: [line] * times)

    def swap_lines(self, text):
        lines = text.split(b'\n')
        one, other = self.rng.randrange(len(lines)), self.rng.randrange(len(lines))
        lines[one], lines[other] = lines[other], lines[one]
        return b'\n'.join(lines)

    def other_field(self, text):
        def change(line):
            mark = b',' if b',' in line else b' '
            fields = line.split(mark)
            fields[self.rng.randrange(len(fields))] = self.value()
            return [mark.join(fields)]
        return self.one_line(text, change)

    def quote(self, text):
        def change(line):
            fields = line.split(b',')
            place = self.rng.randrange(len(fields))
            fields[place] = self.rng.choice([b'"%s"', b'"%s', b'%s"', b'"%s"x', b'""%s', b'"%s\n"', b' "%s"']) % fields[place]
            return [b','.join(fields)]
        return self.one_line(text, change)

    def other_number(self, text):
        found = list(NUMBER.finditer(text))
        if not found:
            return text
        one = self.rng.choice(found)
        new = self.number()
        if self.rng.random() < 0.4:
            new = b'%d' % max(0, int(one.group()[:30]) + self.rng.choice([-1, 1, 2, 10]))
        return text[:one.start()] + new + text[one.end():]

    def join(self, text):
        other = self.rng.choice(self.texts)[2]
        one, two = text.split(b'\n'), other.split(b'\n')
        return b'\n'.join(one[:self.rng.randrange(len(one) + 1)] + two[self.rng.randrange(len(two) + 1):])

    def insert_of_other(self, text):
        two = self.rng.choice(self.texts)[2].split(b'\n')
        begin = self.rng.randrange(len(two))
        return self.one_line(text, lambda line: [line] + two[begin:begin + self.rng.choice([1, 3, 10, 40])])

    def ends(self, text):
        return text.replace(b'\n', self.rng.choice([b'\r\n', b'\r', b'\n\n', b'\r\r\n', b' \n', b'\n\r']), self.rng.choice([1, -1]))

    def changed_text(self, text):
        changes = [self.put_command, self.put_command, self.put_commands, self.end_with_commands, self.put_row, self.put_row,
                   self.drop_line, self.again, self.swap_lines, self.other_field, self.other_field, self.other_field, self.quote,
                   self.other_number, self.other_number, self.join, self.insert_of_other, self.put_head, self.other_byte,
                   self.put_in, self.take_out, self.repeat, self.cut, self.move, self.ends]
        for _ in range(self.rng.choice([1, 1, 1, 2, 2, 3, 5, 9])):
            text = self.rng.choice(changes)(text)[:MOST_BYTES]
        return text

    # Journals.

    def field(self, count):
        """A number of so many bytes, the highest first."""
        most = 256 ** count - 1
        number = self.rng.choice([0, 1, 2, 3, 7, 60, 100, 9999, 10000, 10 ** 6, 10 ** 12, 10 ** 18, 10 ** 18 + 1, most, most // 2,
                                  most // 2 + 1])
        return min(number, most).to_bytes(count, 'big')

    def made_record(self):
        """A payload of one of the kinds, mostly as it may be."""
        rng = self.rng
        member = rng.choice([1, 2, 3, 226, 443, 901, 9999]).to_bytes(2, 'big')
        other = rng.choice([1, 2, 3, 226, 443, 901, 9999]).to_bytes(2, 'big')
        cusip = rng.choice(fuzz.ISSUES if rng.random() < 0.95 else [one for one in fuzz.BAD_ISSUES if len(one) == 9])
        small = rng.choice([0, 1, 10, 20, 30, 60, 100]).to_bytes(8, 'big') if rng.random() < 0.8 else self.field(8)
        number = rng.randrange(6).to_bytes(8, 'big')
        date = (2025).to_bytes(2, 'big') + bytes([rng.choice([3, 3, 3, 2, 13]), rng.choice([3, 4, 5, 29, 32])])
        kind = rng.randrange(1, 8)
        if kind == 1:
            name = b'%c%d' % (rng.choice(b'ABCTa'), rng.randrange(20))
            rest = bytes([len(name)]) + name + date + member + other + cusip + small
        elif kind == 2:
            rest = member + cusip + small
        elif kind == 3:
            rest = member + cusip + bytes([rng.choice([0, 1, 1, 2])])
        elif kind == 4:
            rest = date + bytes([rng.choice([0, 1, 2])])
        elif kind == 5:
            tickets, at = [], 0
            for _ in range(rng.choice([0, 1, 1, 2, 3])):
                asked = rng.choice([1, 10, 20, 40])
                tickets.append(rng.choice([1, 2, 3, 9999]).to_bytes(2, 'big') + at.to_bytes(8, 'big') + asked.to_bytes(8, 'big'))
                at += asked
            rest = cusip + rng.randrange(9).to_bytes(8, 'big') + rng.randrange(9).to_bytes(8, 'big') + small + \
                bytes([rng.choice([0, 1])]) + len(tickets).to_bytes(4, 'big') + b''.join(tickets)
        elif kind == 6:
            rest = number + small
        else:
            rest = bytes([rng.choice([1, 1, 2, 3])]) + number + member + cusip + small + rng.choice([small, self.field(8)])
        return bytes([1, kind]) + rest

    def changed_payload(self, payload):
        rng = self.rng
        kind = rng.randrange(5)
        if kind == 0:
            return self.other_byte(payload)
        if kind == 1:
            return self.other_bit(payload)
        if kind == 2:
            return self.take_out(payload) if rng.random() < 0.5 else payload + self.field(rng.choice([1, 2, 8]))
        if kind == 3:
            count = rng.choice([1, 1, 2, 4, 8])
            place = rng.randrange(len(payload) + 1)
            return payload[:place] + self.field(count) + payload[place + count:]
        return payload[:1] + bytes([rng.randrange(1, 9)]) + payload[2:]

    def changed_records(self, payloads, others):
        rng = self.rng
        payloads = list(payloads)
        for _ in range(rng.choice([1, 1, 1, 2, 3])):
            kind = rng.randrange(8)
            place = rng.randrange(len(payloads) + 1)
            if kind == 0:
                del payloads[place:place + rng.choice([1, 1, 2, 100])]
            elif kind == 1 and place < len(payloads):
                payloads.insert(rng.randrange(len(payloads) + 1), payloads[place])
            elif kind == 2 and place < len(payloads):
                other = rng.randrange(len(payloads))
                payloads[place], payloads[other] = payloads[other], payloads[place]
            elif kind in (3, 4) and place < len(payloads):
                payloads[place] = self.changed_payload(payloads[place])
            elif kind == 5:
                payloads[place:place] = others[:rng.choice([1, 2, 100])]
            elif kind == 6:
                payloads.insert(place, self.made_record())
            elif kind == 7:
                payloads.append(self.made_record())
            if rng.random() < 0.003:
                payloads.append(bytes([1, rng.randrange(1, 8)]) + b'\1' * rng.choice([60, 60000, 1048573, 1048574, 1048575]))
        return payloads

    def changed_bytes(self, data):
        rng = self.rng
        for _ in range(rng.choice([1, 1, 2, 4])):
            kind = rng.randrange(9)
            if kind < 6:
                data = [self.other_byte, self.other_bit, self.take_out, self.repeat, self.cut, self.move][kind](data)
            elif kind == 6:
                gates = [place for place, byte in enumerate(data) if byte == 0xA5] or [0]
                place = rng.choice(gates)
                data = data[:place] + bytes([rng.choice([0, 0xA5, 0x5A, 1, 255])]) + data[place + 1:]
            elif kind == 7:
                place = rng.randrange(len(data) + 1)
                data = data[:place] + self.field(4) + data[place + 4:]
            else:
                data += rng.choice([b'\0', b'\xa5', b'\xa5\0\0\0\0', b'\xa5\0\0\0\0\xa5', b'\xa5\0\x10\0\0', b'\xa5\0\x10\0\1',
                                    b'\xa5\xff\xff\xff\xff', b'\0' * 9, bytes(rng.randrange(256) for _ in range(40))])
        return data[:4 * MOST_BYTES]

    def journals(self):
        """Both files of a run, changed, with its text."""
        rng = self.rng
        text, clear, depot = rng.choice(self.kept)
        other = rng.choice(self.kept)
        files = []
        for payloads, others in ((clear, other[1]), (depot, other[2])):
            if rng.random() < 0.65:
                payloads = self.changed_records(payloads, others)
            data = journal(payloads)
            if rng.random() < 0.3:
                data = self.changed_bytes(data)
            files.append(data)
        kind = rng.random()
        if kind < 0.02:
            files.reverse()
        elif kind < 0.05:
            files[rng.randrange(2)] = rng.choice([None, b'', b'\xa5', b'\0', bytes(rng.randrange(256) for _ in range(60))])
        if rng.random() < 0.2:
            text = only_closing(text) or text
        elif rng.random() < 0.2:
            head, mark, script = text.partition(b'[script]\n')
            text = head + mark + self.changed_text(script)
        words = [b'run', b'--journal', b'j']
        if rng.random() < 0.06:
            words += [b'--workers', rng.choice([b'1', b'2', b'8', b'64'])]
        return Input(self.shaken(words), with_closing(text), tuple(files))

    # Command lines.

    def line_of_words(self):
        rng = self.rng
        kind = rng.random()
        if kind < 0.35:
            return Input(*fuzz.cusip_input(rng)[:2], want=None) if kind < 0.1 else with_want(fuzz.cusip_input(rng))
        if kind < 0.5:
            return with_want(fuzz.command_line(rng))
        words = list(rng.choice([[b'run'], [b'run', b'--journal', b'j'], [b'run', b'--workers', b'2'], [b'run', b'--shake', b'7'], [b'cusip', b'037833100'],
                                 [b'run', b'--workers=1', b'--journal=j'], [b'run', b'--strict'], [b'run', b'--progress', b'--progress'], [b'check'], [b'check', b'--trades', b'missing'], [b'table'], [b'table', b'--last'], [b'help', b'run'], [b'cusip', b'--', b'-37833100']]))
        pool = [b'run', b'check', b'table', b'cusip', b'help', b'--strict', b'--progress', b'--last', b'--openings', b'--trades', b'--script=missing', b'--journal', b'--journal=', b'--journal=j', b'j', b'--workers', b'--workers=', b'--shake', b'--shake=', b'-', b'--',
                b'--help', b'-h', b'-V', b'--version', b'0', b'1', b'2', b'3', b'-1', b'+1', b'02', b'64', b'65', b'18446744073709551615', b'18446744073709551616', b'two', b'',
                b' ', b'\xff', b'.', b'missing', b'x' * 5000, b'x' * 131000] + fuzz.NO_COMMANDS + fuzz.NO_OPTIONS
        for _ in range(rng.choice([1, 1, 2, 3, 8])):
            change = rng.randrange(5)
            place = rng.randrange(len(words) + 1)
            if change == 0:
                words.insert(place, rng.choice(pool))
            elif change == 1 and place < len(words):
                words[place] = rng.choice(pool)
            elif change == 2 and place < len(words):
                words.insert(place, words[place])
            elif change == 3 and place < len(words):
                words[place] = rng.choice([self.other_byte, self.put_in, self.take_out, self.move])(words[place])
            elif place < len(words):
                del words[place]
        if rng.random() < 0.01:
            words *= rng.choice([10, 1000])
        # The system takes some 2 MiB of words.
        while sum(map(len, words)) > 2500000:
            del words[len(words) // 2:]
        # No word leads out of the working folder.
        words = [word.replace(b'\0', b'').replace(b'/', b'').replace(b'..', b'.') for word in words]
        return Input(words, rng.choice(self.texts)[2])

    def any(self):
        kind = self.rng.random()
        if kind < 0.28:
            return self.journals()
        if kind < 0.36:
            return self.line_of_words()
        _, words, text = self.rng.choice(self.texts)
        words = without_journal(words)
        if b'--workers' not in words and self.rng.random() < 0.06:
            words += [b'--workers', self.rng.choice([b'0', b'1', b'2', b'8', b'64'])]
        return Input(self.shaken(words), self.changed_text(text))

    def shaken(self, words):
        """The words of a command line, a number that shakes the run added now and then."""
        if b'--shake' in words or self.rng.random() >= 0.06:
            return words
        return words + [b'--shake', b'%d' % self.rng.choice([self.rng.randrange(100), cnsd_oracle.SHAKE_LIMIT])]


def with_want(one):
    return Input(one.words, one.text, want=one.want)


def made_texts(seed, count):
    """Texts by the grammar of the random inputs."""
    for number in range(count):
        yield 'made-%d' % number, [b'run'], fuzz.Maker(random.Random('%d/made/%d' % (seed, number))).text()


def changed_input(seed, number, texts, kept):
    """Input number `number` of a seed, by texts and by the journals that runs have kept."""
    return Changer(random.Random('%d/%d' % (seed, number)), texts, kept).any()


def words_of_texts():
    """What texts are made of, as the words of AFL++ (guided.sh)."""
    known = set(PIECES + HEADS + HEADERS + NUMBERS + fuzz.ISSUES + fuzz.DATES)
    known.update(line.replace(b' n', b' 1').replace(b' m', b' 2').replace(b' c', b' 037833100').replace(b' d', b' 2025-03-04') + b'\n'
                 for line in LINES)
    for word in sorted(known):
        yield '"%s"' % ''.join(chr(byte) if 32 <= byte < 127 and byte not in b'"\\' else '\\x%02x' % byte for byte in word)


if __name__ == '__main__':
    print('\n'.join(words_of_texts()))
