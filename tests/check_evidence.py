#!/usr/bin/env python3
"""Says whether the calls that the tables of README.md and docs/CLAIMS.md name as evidence are calls that the program makes.

The second column of a table whose head is `Claim` names calls between backquotes, and the crate that has them. Those before the
words "for who uses the crate" must be reached from `main` of cnsd, and those behind these words must not be. A call is
reached where a function that is reached calls one of its name: of a free function, of `Type::name`, and of a method of `self` or of
one of its fields just that one is meant, of another method any of that name in the crate of the caller or one below it, or in any
crate where it is a trait's: so a method may be taken as reached that is not.
Each name must be a function, a type or a trait of the crate. The last line is `N passed, M failed`.
"""
import glob
import os
import re
import sys

from wrong_bodies import TOP, below, crates, say_end

HEAD = re.compile(r"(?:pub )?(?:impl(?:<.*?>)? ([\w:]+(?:<.*>)? for )?([A-Za-z_]\w*)|(?:pub )?trait (\w+))")
FUNCTION = re.compile(r"( *)(?:pub(?:\([a-z]+\))? )?(?:final )?(?:const )?fn (\w+)")
NAMED = re.compile(r"(?:pub )?(?:struct|enum|trait) (\w+)")
CALL = re.compile(r"(\bself\.(?:\w+\.)?|\.\s*|\b[A-Za-z_]\w*::)?\b([a-z_]\w*)(?:::<[^<>()]*>)?\(")
FIELD = re.compile(r"    (?:pub(?:\([a-z]+\))? )?(\w+): (?:&(?:'\w+ )?(?:mut )?)?(?:Option<|Box<)?(\w+)")
PASSED = re.compile(r"\b([A-Z]\w*)::([a-z_]\w*)\b(?!\()")
MARK = "for who uses the crate"
DOCUMENTS = ("README.md", "docs/CLAIMS.md")


class Function:
    """A function: its crate, the type or trait whose method it is (None of a free one), its name, whether it is a trait's, and its body's lines."""

    def __init__(self, crate, owner, name, is_trait):
        self.crate, self.owner, self.name, self.is_trait, self.body = crate, owner, name, is_trait, []


def with_whole_heads(lines):
    """The lines of a file, with the head of each impl that goes over several lines in one."""
    head = None
    for line in lines:
        if head is not None or line.startswith("impl") and not line.rstrip().endswith("{"):
            head = f"{head} {line.strip()}" if head else line
            if not head.endswith("{"):
                continue
            line, head = head, None
        yield line


def functions_of(crate, lines):
    """The functions of a file of a crate."""
    found, owner, is_trait, current, indent, inside = [], None, False, None, "", False
    for line in with_whole_heads(lines):
        if line and not line[0].isspace() and line[0] not in "})/#":
            head = HEAD.match(line)
            owner, is_trait = (head[2] or head[3], bool(head[1] or head[3])) if head else (None, False)
        begun = FUNCTION.match(line)
        if begun and not inside:
            current, indent = Function(crate, owner if begun[1] else None, begun[2], is_trait), begun[1]
            found.append(current)
            inside = line.rstrip().endswith("{") and "ensures" not in line
        elif current and not inside:
            inside = line == indent + "{"
            # (a signature over several lines without clauses ends in a brace behind its result)
            if line.startswith(indent + ")") and line.rstrip().endswith("{"):
                inside = True
        elif inside:
            if line == indent + "}":
                current, inside = None, False
            else:
                current.body.append(line.split("//")[0])
    return found


def fields_of(lines):
    """The types of the fields of a file's structs, by the struct and the field."""
    found, owner = {}, None
    for line in lines:
        begun = re.match(r"(?:pub(?:\([a-z]+\))? )?struct (\w+)", line)
        owner = begun[1] if begun else None if line == "}" else owner
        field = FIELD.match(line)
        if owner and field:
            found[owner, field[1]] = field[2]
    return found


def read_crates():
    """All functions, the types of fields, and the names of types and traits of each crate."""
    found, fields, named = [], {}, {}
    for crate in crates():
        folder = os.path.join(TOP, "crates", crate, "src")
        named[crate] = set()
        for path in sorted(glob.glob(os.path.join(folder, "**", "*.rt"), recursive=True)):
            with open(path, encoding="utf-8") as text:
                lines = text.read().split("\n")
            found += functions_of(crate, lines)
            fields.update(fields_of(lines))
            named[crate] |= {it[1] for it in map(NAMED.match, lines) if it}
    return found, fields, named


def calls_of(function, fields):
    """What a function calls: the name, and what stands before it, as `.`, a type or a module, or nothing."""
    text = "\n".join(function.body)
    for before, name in CALL.findall(text) + PASSED.findall(text):
        before = before.strip().removesuffix("::")
        if before in ("Self", "self."):
            before = function.owner or "."
        elif before.startswith("self."):
            before = fields.get((function.owner, before[len("self."):-1]), ".")
        yield before, name


def is_meant(before, callee, owners):
    """Whether a call may be of a function, by what stands before the name and by the owners of all functions of the name."""
    if before == ".":
        return callee.owner is not None
    if before in owners:
        return callee.owner == before
    # (a module before the name of a free function; or a type parameter, or a type of another crate, before that of a trait's method)
    return callee.owner is None if not before[:1].isupper() else callee.is_trait


def all_below(crate, stands_on):
    """A crate and all that it stands on."""
    found = {crate}
    for one in stands_on[crate]:
        found |= all_below(one, stands_on)
    return found


def reached_from_main(found, fields):
    """The functions that `main` of cnsd reaches."""
    stands_on = below()
    visible = {crate: all_below(crate, stands_on) for crate in crates()}
    by_name = {}
    for function in found:
        by_name.setdefault(function.name, []).append(function)
    left = [it for it in by_name["main"] if it.crate == "cnsd"]
    reached = set(left)
    while left:
        caller = left.pop()
        for before, name in calls_of(caller, fields):
            named = by_name.get(name, [])
            owners = {it.owner for it in named if it.owner}
            for callee in named:
                is_seen = callee.is_trait or callee.crate in visible[caller.crate]
                if callee not in reached and is_seen and is_meant(before, callee, owners):
                    reached.add(callee)
                    left.append(callee)
    return reached


def rows_of(text):
    """The second columns of the tables of claims of a document, each with its line's number."""
    claims = False
    for number, line in enumerate(text.split("\n"), 1):
        if not line.startswith("|"):
            claims = False
        elif line.startswith("| Claim |"):
            claims = True
        elif claims and not line.startswith("|---"):
            yield number, line.split("|")[2]


def names_in(cell):
    """The names of calls between backquotes; those without a type before them have that of the one before, where there was one."""
    owner, found = None, []
    for word in re.findall(r"`([^`]+)`", cell):
        if re.fullmatch(r"[A-Z]\w*::\w+", word):
            owner, name = word.split("::")
            found.append((owner, name))
        elif re.fullmatch(r"[A-Z]\w*", word):
            owner = None
            found.append((word, None))
        elif re.fullmatch(r"[a-z_]\w*", word):
            found.append((owner, word))
    return found


def claims():
    """The second columns of all tables of claims, each with the document and the line that it stands in."""
    for document in DOCUMENTS:
        with open(os.path.join(TOP, document), encoding="utf-8") as text:
            for number, cell in rows_of(text.read()):
                yield f"{document}:{number}", cell


def main():
    found, fields, named = read_crates()
    reached = reached_from_main(found, fields)
    passed, faults = 0, []
    for place, cell in claims():
        here, _, beside = cell.partition(MARK)
        for part, wanted in ((here, True), (beside, False)):
            # (what stands in parentheses says where a call or a clause is)
            for owner, name in names_in(re.sub(r"clauses? (?:`\w+`(?:, | and )?)+|`\w+` of each twin|\([^)]*\)", "", part)):
                called = f"{owner}::{name}" if owner and name else owner or name
                functions = [it for it in found if it.name == name and (not owner or it.owner == owner)]
                functions = functions or [it for it in found if it.name == name]
                if name is None and any(owner in it for it in named.values()):
                    passed += 1
                elif not functions:
                    faults.append(f"{place}: {called} is no function, type or trait")
                elif any(it in reached for it in functions) != wanted:
                    faults.append(f"{place}: the program {'does not call' if wanted else 'calls'} {called}")
                else:
                    passed += 1
    return say_end(passed, faults)


if __name__ == "__main__":
    sys.exit(main())
