#!/usr/bin/env python3
"""Checks what the program of this folder wrote of its cells, by counting alone.

    check.py CELLS WORKERS <OUTPUT      checks each cell, of so many workers
    check.py --self-test                breaks right outputs in many ways, each of which must be refused

Of each cell the output has `cell N`; for each worker `worker M` and what it did and saw, in its order;
`feeder` and the same; `left SUM SEALED`, what was asked in the end; a line `ticket M START ASKED` for
each ticket that was left; and `closed POURED SEALED`. After the last cell there is `end`. A seat's lines
are `drew WANTED M START ASKED`, `refused WANTED`, `asked SUM SEALED` and `poured SHARES` (looks),
`pour SHARES` and `seal`.
The last line is `N passed, M failed`; the exit status is 0 where M is 0 and N is not.
"""
import copy
import random
import sys

# The most workers of a cell.
MOST_WORKERS = 64

# How many workers the cells of the self-test have, where it does not say another number.
WORKERS = 4

# From how many cells on some must have raced.
LEAST_TO_RACE = 20

# The words of a seat's lines, with how many numbers each has and whether a truth value follows.
EVENTS = {
    "drew": (4, False),
    "refused": (1, False),
    "asked": (1, True),
    "poured": (1, False),
    "pour": (1, False),
    "seal": (0, False),
}
LOOKS = ("asked", "poured")

# How many turns the seats of a cell of the self-test take.
TURNS = 300


class Unreadable(Exception):
    """A line that is none of an output's."""


class Cell:
    """What was written of one cell."""

    def __init__(self, number):
        self.number, self.seats, self.feeder = number, [], None
        self.left, self.tickets, self.closed = None, [], None

    def drawn(self):
        """The tickets that the workers drew, one worker after another: member, start and shares."""
        return [event[2:] for _, events in self.seats for event in events if event[0] == "drew"]

    def lines(self):
        """The cell as it is written."""
        found = [("cell", self.number)]
        for member, events in self.seats:
            found += [("worker", member), *events]
        found += [("feeder",), *self.feeder, ("left", *self.left)]
        found += [("ticket", *ticket) for ticket in self.tickets] + [("closed", *self.closed)]
        return [" ".join(str(word).lower() for word in line) for line in found]


def number_in(word):
    """A number without signs."""
    if not (word.isascii() and word.isdigit()):
        raise Unreadable(f"{word!r} is no number")
    return int(word)


def truth_in(word):
    """A truth value."""
    if word not in ("true", "false"):
        raise Unreadable(f"{word!r} is no truth value")
    return word == "true"


def values_in(words, numbers, truth):
    """So many numbers, and a truth value where there is one."""
    if len(words) != numbers + truth:
        raise Unreadable(f"{' '.join(words)!r} are not {numbers + truth} words")
    return tuple(number_in(word) for word in words[:numbers]) + tuple(truth_in(word) for word in words[numbers:])


def take_line(cell, words):
    """Takes one line of a cell, whose parts come in their order."""
    word, rest = words[0], words[1:]
    if cell.closed is not None:
        raise Unreadable("a line after the cell was closed")
    if cell.left is not None:
        if word == "ticket":
            cell.tickets.append(values_in(rest, 3, False))
        elif word == "closed":
            cell.closed = values_in(rest, 1, True)
        else:
            raise Unreadable(f"{word!r} among the tickets left")
    elif word == "worker" and cell.feeder is None:
        cell.seats.append((values_in(rest, 1, False)[0], []))
    elif word == "feeder" and cell.feeder is None and not rest:
        cell.feeder = []
    elif word == "left" and cell.feeder is not None:
        cell.left = values_in(rest, 1, True)
    elif word in EVENTS and (cell.seats or cell.feeder is not None):
        events = cell.feeder if cell.feeder is not None else cell.seats[-1][1]
        events.append((word, *values_in(rest, *EVENTS[word])))
    else:
        raise Unreadable(f"{word!r} stands where it may not")


def read(lines):
    """The cells of an output."""
    cells, ended = [], False
    for at, line in enumerate(lines, 1):
        words = line.split()
        try:
            if ended or not words:
                raise Unreadable("a line after the end, or an empty one")
            if words[0] == "cell":
                cells.append(Cell(values_in(words[1:], 1, False)[0]))
            elif words == ["end"]:
                ended = True
            elif not cells:
                raise Unreadable("no cell yet")
            else:
                take_line(cells[-1], words)
        except Unreadable as fault:
            raise Unreadable(f"line {at}: {fault}") from None
    if not ended:
        raise Unreadable("the output was cut off")
    return cells


def members_of(workers):
    """The members for whom so many workers draw."""
    return list(range(1, workers + 1))


def faults_of_worker(member, events):
    """What one worker alone can tell is wrong."""
    asked, sealed, poured = 0, False, 0
    for word, *values in events:
        if word == "drew":
            wanted, holder, start, shares = values
            if sealed:
                yield "a ticket was drawn by a seat that had seen the seal"
            if holder != member or shares != wanted or shares < 1:
                yield "a ticket is not of the member or the shares that were wanted"
            if start < asked:
                yield "a ticket starts below what its seat had seen asked"
            asked = start + shares
        elif word == "refused":
            sealed, asked = True, asked + values[0]
        elif word == "poured":
            if values[0] < poured:
                yield "the poured shares fall"
            poured = values[0]
        elif word == "asked":
            if values[0] < asked:
                yield "the asked shares fall"
            if sealed and not values[1]:
                yield "the seal goes away"
            asked, sealed = values
        else:
            yield "a worker poured or sealed"


def faults_of_feeder(events):
    """What the feeder alone can tell is wrong."""
    asked, sealed, poured = 0, False, 0
    for word, *values in events:
        if word == "pour":
            poured += values[0]
        elif word == "seal":
            sealed = True
        elif word == "poured":
            if values[0] != poured:
                yield "the feeder sees other shares than it poured"
        elif word == "asked":
            if values[0] < asked:
                yield "the feeder sees the asked shares fall"
            if values[1] != sealed:
                yield "the feeder sees another seal than its own"
            asked = values[0]
        else:
            yield "the feeder drew"


def faults_of_tickets(cell):
    """Whether the tickets of all workers tile, and are those that were left."""
    end = 0
    for _, start, shares in sorted(cell.drawn(), key=lambda ticket: ticket[1]):
        if start < end:
            yield "two tickets overlap"
        if start > end:
            yield "no ticket has a share that lies among the tickets"
        end = max(end, start + shares)
    if cell.tickets != cell.drawn():
        yield "the tickets left are not those that were drawn"


def faults_of_sums(cell):
    """What was asked and poured in the end, and the seal."""
    refused = sum(event[1] for _, events in cell.seats for event in events if event[0] == "refused")
    sealed = any(event[0] == "seal" for event in cell.feeder)
    if cell.left[0] != sum(ticket[2] for ticket in cell.drawn()) + refused:
        yield "what was asked in the end is not what was drawn and refused"
    if cell.closed[0] != sum(event[1] for event in cell.feeder if event[0] == "pour"):
        yield "what was poured in the end is not the sum of the pours"
    if cell.closed[1] != sealed or cell.left[1] != sealed:
        yield "the seal in the end is not the feeder's"
    if refused and not sealed:
        yield "a reserve was refused by a cell that is not sealed"


def faults_of_looks(cell):
    """Whether each look fits one order of all that was done."""
    drawn = cell.drawn()
    total, bounds = sum(ticket[2] for ticket in drawn), {0} | {ticket[1] + ticket[2] for ticket in drawn}
    sums = {0}
    for event in cell.feeder:
        if event[0] == "pour":
            sums.add(max(sums) + event[1])
    sealed = any(event[0] == "seal" for event in cell.feeder)
    for events in [events for _, events in cell.seats] + [cell.feeder]:
        for word, *values in events:
            if word == "poured" and values[0] not in sums:
                yield "a look shows poured shares that were never poured"
            if word == "asked" and not values[1] and values[0] not in bounds:
                yield "a look at a cell without a seal shows a sum at which no ticket ends"
            if word == "asked" and values[1] and not (sealed and total <= values[0] <= cell.left[0]):
                yield "a look at a sealed cell shows a sum that it never had"


def faults_of(cell, number, workers):
    """All that is wrong with a cell of so many workers, each thing once."""
    if cell.closed is None:
        return ["the cell was not closed"]
    if cell.number != number or [member for member, _ in cell.seats] != members_of(workers):
        return ["it is another cell, or other workers"]
    found = [fault for member, events in cell.seats for fault in faults_of_worker(member, events)]
    found += faults_of_feeder(cell.feeder)
    for part in (faults_of_tickets, faults_of_sums, faults_of_looks):
        found += part(cell)
    return list(dict.fromkeys(found))


def races_of(cells, workers):
    """What must have happened at least once in many cells, each with how often it did."""
    handed, cut, sealed = 0, 0, 0
    for cell in cells:
        members = [ticket[0] for ticket in sorted(cell.drawn(), key=lambda ticket: ticket[1])]
        handed += sum(one != other for one, other in zip(members, members[1:])) >= workers
        cut += any({"drew", "refused"} <= {event[0] for event in events} for _, events in cell.seats)
        sealed += cell.closed[1]
    return {
        "tickets of several seats lie among one another": handed,
        "a seal came between a seat's reserves": cut,
        "a cell was sealed": sealed,
        "a cell was not sealed": len(cells) - sealed,
    }


def judge(lines, wanted, workers):
    """How many cells and races are right, and what is wrong with the others."""
    try:
        cells = read(lines)
    except Unreadable as fault:
        return 0, [f"the output cannot be read: {fault}"], {}
    wrong, passed = [], 0
    for number, cell in enumerate(cells):
        found = faults_of(cell, number, workers)
        wrong += [f"cell {number}: {fault}" for fault in found]
        passed += not found
    if len(cells) != wanted:
        wrong.append(f"{len(cells)} cells, not {wanted}")
    races = {} if wrong else races_of(cells, workers)
    if wanted >= LEAST_TO_RACE:
        wrong += [f"in no cell: {race}" for race, times in races.items() if times == 0]
        passed += sum(times > 0 for times in races.values())
    return passed, wrong, races


def simulated(number, chance, workers=WORKERS, racing=True):
    """A right cell, by one thread that lets the seats take turns at random; every other one is sealed.

    Where they do not race, each seat takes all its turns before the next one."""
    cell = Cell(number)
    cell.seats, cell.feeder = [(member, []) for member in members_of(workers)], []
    asked, poured, sealed, seal_at = 0, 0, False, chance.randrange(100, 200) if number % 2 else 1000
    for turn in range(TURNS):
        seat = chance.randrange(workers + 1) if racing else turn * (workers + 1) // TURNS
        if seat == workers:
            if turn >= seal_at and not sealed:
                sealed = True
                cell.feeder.append(("seal",))
            shares = chance.randrange(1, 50)
            poured += shares
            cell.feeder += [("pour", shares), ("poured", poured), ("asked", asked, sealed)]
            continue
        member, events = cell.seats[seat]
        shares = chance.randrange(1, 100)
        if sealed:
            events.append(("refused", shares))
        else:
            events.append(("drew", shares, member, asked, shares))
        asked += shares
        events += [("asked", asked, sealed), ("poured", poured)][: chance.randrange(3)]
    cell.left, cell.tickets, cell.closed = (asked, sealed), cell.drawn(), (poured, sealed)
    return cell


def first(events, word, after=0):
    """The place of the first such event from a place on."""
    return next(at for at, event in enumerate(events) if at >= after and event[0] == word)


def without_looks(cell):
    """Takes the looks away, so that a break meets the other rules alone."""
    cell.seats = [(member, [event for event in events if event[0] not in LOOKS]) for member, events in cell.seats]
    cell.feeder = [event for event in cell.feeder if event[0] not in LOOKS]


def shift_ticket(cell, by):
    """Moves a worker's last ticket, there and among those left."""
    without_looks(cell)
    events = cell.seats[0][1]
    at = [place for place, event in enumerate(events) if event[0] == "drew"][-1]
    word, wanted, member, start, shares = events[at]
    events[at] = (word, wanted, member, start + by, shares)
    cell.tickets = cell.drawn()


def drop_ticket(cell):
    """Takes a ticket away, there and among those left, and from the sum."""
    without_looks(cell)
    events = cell.seats[1][1]
    gone = events.pop(first(events, "drew", 2))
    cell.left = (cell.left[0] - gone[1], cell.left[1])
    cell.tickets = cell.drawn()


def swap_tickets(cell):
    """Lets two tickets of a worker come the other way round."""
    without_looks(cell)
    events = cell.seats[2][1]
    one = first(events, "drew")
    other = first(events, "drew", one + 1)
    events[one], events[other] = events[other], events[one]
    cell.tickets = cell.drawn()


def refuse_before_ticket(cell):
    """Lets a seat meet the seal before its first ticket."""
    without_looks(cell)
    events = cell.seats[3][1]
    events.insert(0, events.pop(first(events, "refused")))


def see_seal_before_ticket(cell):
    """Lets a seat see the seal before its first ticket."""
    events = cell.seats[0][1]
    events.insert(first(events, "drew"), ("asked", 0, True))


def turn_ticket_to_refused(cell):
    """Lets a reserve of a cell without a seal be refused."""
    without_looks(cell)
    at = [place for place, event in enumerate(cell.seats[0][1]) if event[0] == "drew"][-1]
    cell.seats[0][1][at] = ("refused", cell.seats[0][1][at][1])
    cell.tickets = cell.drawn()


def set_event(seat, word, change, after=0):
    """A break of the first such event of a seat, or of the feeder where the seat is None."""
    def breaks(cell):
        events = cell.feeder if seat is None else cell.seats[seat][1]
        at = first(events, word, after)
        events[at] = (word, *change(cell, *events[at][1:]))
    return breaks


def set_field(name, change):
    """A break of what was left."""
    def breaks(cell):
        setattr(cell, name, change(getattr(cell, name)))
    return breaks


def add_event(seat, *event):
    """A break by one more event at the end."""
    def breaks(cell):
        (cell.feeder if seat is None else cell.seats[seat][1]).append(event)
    return breaks


# Which cell is broken (0 is not sealed, 1 is), how, and a fault that has to be told.
BREAKS = [
    (0, lambda cell: shift_ticket(cell, -1), "two tickets overlap"),
    (0, lambda cell: shift_ticket(cell, 1), "no ticket has a share"),
    (0, drop_ticket, "no ticket has a share"),
    (0, lambda cell: cell.tickets.pop(), "the tickets left are not"),
    (0, lambda cell: cell.tickets.append(cell.tickets[0]), "the tickets left are not"),
    (0, swap_tickets, "starts below what its seat had seen"),
    (0, set_event(1, "drew", lambda _, wanted, member, *rest: (wanted, member + 1, *rest)), "not of the member"),
    (0, set_event(1, "drew", lambda _, wanted, *rest: (wanted + 1, *rest)), "not of the member"),
    (1, refuse_before_ticket, "had seen the seal"),
    (1, see_seal_before_ticket, "had seen the seal"),
    (0, turn_ticket_to_refused, "refused by a cell that is not sealed"),
    (0, set_field("left", lambda left: (left[0] + 1, left[1])), "is not what was drawn and refused"),
    (1, set_field("left", lambda left: (left[0] - 1, left[1])), "is not what was drawn and refused"),
    (0, set_field("closed", lambda closed: (closed[0] + 1, closed[1])), "not the sum of the pours"),
    (0, set_field("closed", lambda closed: (closed[0], True)), "the seal in the end"),
    (1, set_field("closed", lambda closed: (closed[0], False)), "the seal in the end"),
    (1, set_field("left", lambda left: (left[0], False)), "the seal in the end"),
    (0, set_event(None, "pour", lambda _, shares: (shares + 1,)), "other shares than it poured"),
    (0, set_event(None, "poured", lambda _, shares: (shares + 1,)), "other shares than it poured"),
    (0, set_event(None, "asked", lambda cell, _, sealed: (cell.left[0], sealed)), "the feeder sees the asked shares fall"),
    (1, set_event(None, "asked", lambda _, asked, sealed: (asked, not sealed)), "another seal than its own"),
    (0, add_event(None, "refused", 1), "the feeder drew"),
    (0, add_event(2, "pour", 1), "a worker poured"),
    (0, add_event(2, "asked", 0, False), "the asked shares fall"),
    (1, lambda cell: cell.seats[2][1].append(("asked", cell.left[0], False)), "the seal goes away"),
    (0, add_event(2, "poured", 0), "the poured shares fall"),
    (0, lambda cell: cell.seats[2][1].append(("poured", cell.closed[0] + 1)), "never poured"),
    (0, lambda cell: cell.seats[2][1].append(("asked", cell.left[0] + 1, False)), "at which no ticket ends"),
    (1, lambda cell: cell.seats[2][1].append(("asked", cell.left[0] + 1, True)), "a sum that it never had"),
    (0, lambda cell: cell.seats.pop(), "other workers"),
    (0, set_field("number", lambda number: number + 1), "it is another cell"),
]


def self_test():
    """Whether right cells pass, and each break is told; the last line."""
    chance, passed, wrong = random.Random(1), 0, []
    right = [simulated(number, chance) for number in range(2 * LEAST_TO_RACE)]

    def say(cells):
        return [line for cell in cells for line in cell.lines()] + ["end"]

    def expect(what, told, lines, wanted=len(right), workers=WORKERS):
        nonlocal passed
        _, found, _ = judge(lines, wanted, workers)
        fits = any(told in fault for fault in found) if told else not found
        passed += fits
        if not fits:
            wrong.append(f"{what}: told {found[:3]}")

    expect("right cells", None, say(right))
    expect("too few cells", "cells, not", say(right[:-1]))
    expect("no cell", "cells, not", ["end"])
    expect("an output that was cut off", "cut off", say(right)[:-1])
    expect("a cell that was cut off", "not closed", say(right)[:-2] + ["end"])
    expect("an empty output", "cut off", [])
    expect("a word that is none", "cannot be read", ["cell 0", "worker 1", "stolen 5", *say(right)])
    expect("a sum that is none", "cannot be read", [line.replace("left ", "left -", 1) for line in say(right)])
    expect("no seal at all", "in no cell", say(renumbered(right, False)), LEAST_TO_RACE)
    expect("seals alone", "in no cell", say(renumbered(right, True)), LEAST_TO_RACE)
    expect("two right cells", None, say(right[:2]), 2)
    for workers in (WORKERS - 1, WORKERS + 1, MOST_WORKERS):
        expect(f"cells of {WORKERS} workers, not {workers}", "other workers", say(right[:2]), 2, workers)
    for workers in (1, 2, MOST_WORKERS):
        cells = [simulated(number, chance, workers) for number in range(2)]
        expect(f"right cells of {workers} workers", None, say(cells), 2, workers)
        expect(f"cells of {workers} workers, not {workers + 1}", "other workers", say(cells), 2, workers + 1)
        cells[0].seats[-1] = (workers + 1, cells[0].seats[-1][1])
        expect(f"another member among {workers}", "other workers", say(cells), 2, workers)
    many = [simulated(number, chance, MOST_WORKERS) for number in range(LEAST_TO_RACE)]
    expect("many cells of many workers", None, say(many), LEAST_TO_RACE, MOST_WORKERS)
    for workers in (WORKERS, MOST_WORKERS):
        calm = [simulated(number, chance, workers, racing=False) for number in range(LEAST_TO_RACE)]
        expect(f"{workers} workers one after another", "in no cell: tickets", say(calm), LEAST_TO_RACE, workers)
    for at, (place, breaks, told) in enumerate(BREAKS):
        cells = copy.deepcopy(right[:2])
        breaks(cells[place])
        expect(f"break {at} ({told})", told, say(cells), 2)
    for fault in wrong:
        print(f"FAIL self-test: {fault}")
    print(f"{passed} passed, {len(wrong)} failed")
    return 1 if wrong or not passed else 0


def renumbered(cells, sealed):
    """Those of the cells that are sealed, or not, with the numbers from 0 on."""
    found = copy.deepcopy([cell for cell in cells if cell.closed[1] == sealed])
    for number, cell in enumerate(found):
        cell.number = number
    return found


def main():
    if sys.argv[1:] == ["--self-test"]:
        return self_test()
    if len(sys.argv) != 3 or not all(word.isascii() and word.isdigit() for word in sys.argv[1:]):
        print("usage: check.py CELLS WORKERS <OUTPUT, or check.py --self-test", file=sys.stderr)
        return 2
    cells, workers = int(sys.argv[1]), int(sys.argv[2])
    if not 1 <= workers <= MOST_WORKERS:
        print(f"{workers} workers, not 1 to {MOST_WORKERS}", file=sys.stderr)
        return 2
    passed, wrong, races = judge(sys.stdin.read().splitlines(), cells, workers)
    for race, times in races.items():
        print(f"  {times} cells: {race}")
    for fault in wrong[:40]:
        print(f"FAIL {fault}")
    print(f"{passed} passed, {len(wrong)} failed")
    return 1 if wrong or not passed else 0


if __name__ == "__main__":
    sys.exit(main())
