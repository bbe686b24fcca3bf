#!/usr/bin/env python3
"""Journal files and payloads, read and spelled as docs/FORMATS.md lays them out, in both versions.

    journals.py FILE

tells the payloads of a journal file, one a line, as hexadecimal digits. It shares no code with the program.
"""
import struct
import sys

from cnsd_oracle import Accept, Allocate, Confirm, Cycle, Exec, Exempt, Order, Own, Priority, Ticket, Trade

OPEN, CLOSED = b'\xa5', b'\x00'
KINDS = {1: 'COVER', 2: 'DELIVERY'}
KIND_BYTES = {name: byte for byte, name in KINDS.items()}
SORTS = {1: 'DEPOSIT', 2: 'WITHDRAW'}
SORT_BYTES = {name: byte for byte, name in SORTS.items()}


def payloads(file):
    """The payloads of a journal file that no crash has cut."""
    found, at = [], 0
    while file[at:at + 1] == OPEN:
        size = int.from_bytes(file[at + 1:at + 5], 'big')
        found.append(file[at + 5:at + 5 + size])
        at += 5 + size
    if file[at:] != CLOSED:
        raise ValueError('the last gate is not closed, or bytes stand behind it')
    return found


def file_of(of):
    """The journal file of these payloads."""
    return b''.join(OPEN + struct.pack('>I', len(payload)) + payload for payload in of) + CLOSED


class Fields:
    """The fields of a payload, taken from its front."""

    def __init__(self, payload):
        self.rest = payload

    def take(self, size):
        if len(self.rest) < size:
            raise ValueError('a payload is too short')
        taken, self.rest = self.rest[:size], self.rest[size:]
        return taken

    def number(self, size):
        return int.from_bytes(self.take(size), 'big')

    def date(self):
        return self.number(2), self.number(1), self.number(1)

    def end(self):
        if self.rest:
            raise ValueError('bytes stand behind a payload')


def read_tickets(fields):
    return [Ticket(fields.number(2), fields.number(8), fields.number(8)) for _ in range(fields.number(4))]


def read_allocation(fields):
    issue, _, _ = fields.take(9), fields.number(8), fields.number(8)
    poured, _ = fields.number(8), fields.number(1)
    return Allocate(issue, poured, read_tickets(fields))


# What the fields of each kind are, in version 1.
CLEARING = {
    1: lambda f: Accept(Trade(f.take(f.number(1)), f.date(), f.number(2), f.number(2), f.take(9), f.number(8))),
    2: lambda f: Exempt(f.number(2), f.take(9), f.number(8)),
    3: lambda f: Priority(f.number(2), f.take(9), f.number(1) == 1),
    4: lambda f: Cycle(f.date(), f.number(1)),
    5: read_allocation,
    6: lambda f: Confirm(f.number(8), f.number(8)),
}


def read_clear(payload):
    """The record of the clearing node that a payload is."""
    fields = Fields(payload)
    version, kind = fields.number(1), fields.number(1)
    if version != 1:
        raise ValueError('a record of the clearing node is of another version')
    record = CLEARING[kind](fields)
    fields.end()
    return record


def read_exec(fields, has_cycle):
    move, number = KINDS[fields.number(1)], fields.number(8)
    cycle = Cycle(fields.date(), fields.number(1)) if has_cycle else None
    order = Order(number, cycle, move, fields.number(2), fields.take(9), fields.number(8))
    return Exec(order, fields.number(8))


# What the fields of the depository's records are, by version and kind. An order has no cycle in version 1.
DEPOSITORY = {
    (1, 7): lambda f: read_exec(f, False),
    (2, 7): lambda f: read_exec(f, True),
    (2, 8): lambda f: Own(SORTS[f.number(1)], f.number(2), f.number(8), f.take(9), f.number(8)),
}


def read_depot(payload):
    """The record of the depository that a payload is."""
    fields = Fields(payload)
    version, kind = fields.number(1), fields.number(1)
    if (version, kind) not in DEPOSITORY:
        raise ValueError('a record of the depository is of another version or kind')
    record = DEPOSITORY[version, kind](fields)
    fields.end()
    return record


def version_of(record):
    """The version that a record of the depository is spelled in."""
    return 1 if isinstance(record, Exec) and record.order.cycle is None else 2


def spell_depot(record):
    """The payload of a record of the depository."""
    return bytes([version_of(record)]) + (spell_own(record) if isinstance(record, Own) else spell_exec(*record))


def spell_exec(order, moved):
    """What stands behind the version."""
    head = struct.pack('>BBQ', 7, KIND_BYTES[order.kind], order.number)
    cycle = struct.pack('>HBBB', *order.cycle.date, order.cycle.kind) if order.cycle else b''
    return head + cycle + struct.pack('>H', order.member) + order.issue + struct.pack('>QQ', order.asked, moved)


def spell_own(own):
    """The same of a member's own instruction."""
    head = struct.pack('>BBHQ', 8, SORT_BYTES[own.sort], own.member, own.number)
    return head + own.issue + struct.pack('>Q', own.shares)


def main(words):
    with open(words[0], 'rb') as file:
        for payload in payloads(file.read()):
            print(payload.hex())


if __name__ == '__main__':
    main(sys.argv[1:])
