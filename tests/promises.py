#!/usr/bin/env python3
"""Holds docs/PROMISES.md to the sources: each crate, call and clause that it names is there.

    tests/promises.py

A heading may name crates. A table whose columns are *Promise* or *Claim*, *Where* and *Clause* names calls and types, and the clauses by
which they keep the promise. In each of its rows

- what stands in code under *Where* is a function, a type or a trait: of a crate of the heading if the name is there, or of any other;
- what stands in code under *Clause* is a label of a clause of one of these, a field of a record that one of these clauses names, what a
  trait or a type has to show (`ghost`), or a definition or a type;
- of *one* each function that is named has one clause.

A cell without code, such as *each*, stands for every function of the heading's crates. Wherever it stands, what is in code and
written as a path of the repository, as a call (`Book::ask`) or as a definition (`IsOver`) has to be there too. What isn't there is printed
on standard error. The last line is 'N passed, M failed', and the exit status 1 where M isn't 0.
"""

import re
import sys
from dataclasses import dataclass, field
from functools import cache

from counting import Desk
from sources import TOP, constructors, files, items, named_by, source, specs

PAGE = TOP / "docs/PROMISES.md"
COLUMNS = (["Promise", "Where", "Clause"], ["Claim", "Where", "Clause"])
KIT = {"Display", "Ord", "PartialEq", "Eq", "LawfulEq", "Drop", "Clone", "Copy", "Write", "Read"}  # traits that types of the book have
ONE = "one"  # its one clause
NAME = re.compile(r"\w+(?:::\w+)*")

# ---- What the sources have.


@dataclass
class Function:
    crate: str
    owner: str  # the type or the trait that has it, or nothing
    trait: str  # the trait for which its type has it, or nothing
    name: str
    labels: set = field(default_factory=set)
    clauses: int = 0
    named: set = field(default_factory=set)  # what its clauses name


@dataclass
class Code:
    """The functions of all crates by name, the types and traits, and what each of these has to show."""

    functions: dict
    owners: set
    shown: dict


OWNER = re.compile(r"(?:pub )?(?:impl(?:<.*?>)? (?:(?:\w+::)*(\w+)(?:<.*>)? for )?|trait |struct |enum |type |const )&?(?:mut )?(\w+)")
FUNCTION = re.compile(r" *(?:pub(?:\(\w+\))? )?fn (\w+)")
CLAUSE = re.compile(r" +(ensures|requires) (?:(\w+) )?\{")
GHOST = re.compile(r" +ghost (\w+)(?: =|:)")
OTHER = re.compile(r"\w+ as (\w+)")  # the name under which a crate gives a function on


@cache
def code():
    functions, owners, shown = {}, set(), {}
    for path in files("src", ".rt"):
        read_file(path, functions, owners, shown)
    return Code(functions, owners, shown)


def read_file(path, functions, owners, shown):
    crate = path.split("/")[1]
    owner = trait = ""
    function = None
    for line in source(path).split("\n"):
        if line.startswith("pub use "):
            owners |= set(OTHER.findall(line))
        elif line.startswith("}"):
            owner, trait, function = "", "", None
        elif found := OWNER.match(line):
            trait, owner = found[1] or "", found[2]
            owners |= {owner}
            shown.setdefault(owner, set()).update({"output"} if trait == "Display" else ())
        elif found := FUNCTION.match(line):
            function = Function(crate, owner, trait, found[1])
            functions.setdefault(found[1], []).append(function)
        elif function and (found := CLAUSE.match(line)):
            function.labels |= {found[2]} - {None}
            function.clauses += found[1] == "ensures"
        elif found := GHOST.match(line):
            shown.setdefault(owner, set()).add(found[1])
            shown.setdefault(trait, set()).add(found[1])
        if function and line.startswith("    "):
            function.named |= set(re.findall(r"\b[A-Z]\w+", line))


@cache
def fields():
    """The fields of each record of `specs/`, by the record's name, and those of the records that it names in turn."""
    found = {}
    for path in specs():
        for item in items(path).values():
            own = set(re.findall(r"^\s+pub (\w+) :", "\n".join(item.code), re.M))
            below = {name.name for name in named_by(item) if name.kind == "definition"}
            found.setdefault(item.name, [set(), set()])
            found[item.name][0] |= own
            found[item.name][1] |= below
    return found


@cache
def definitions():
    """The names of definitions, and of the crates that have them."""
    found = {}
    for path in specs():
        for name in {*items(path), *constructors(path)}:
            found.setdefault(name, set()).add(path.split("/")[1])
    return found


def fields_below(names):
    """The fields of the records of these names, and of those that these name."""
    seen, left, found = set(), set(names), set()
    while left:
        name = left.pop()
        seen.add(name)
        own, below = fields().get(name, (set(), set()))
        found |= own
        left |= below - seen
    return found


# ---- The page.


@dataclass
class Row:
    heading: str
    crates: tuple
    where: str
    clause: str


def marked(cell):
    return re.findall(r"`([^`]+)`", cell)


def cells_of(line):
    return [cell.strip() for cell in line.strip().strip("|").split(" | ")]


def rows_of(text):
    """The rows of the tables of promises, each with its heading."""
    heading, crates, columns = "", (), []
    for line in text.split("\n"):
        if line.startswith("#"):
            heading, crates = line.lstrip("# "), tuple(marked(line))
        if not line.startswith("|"):
            columns = []
        elif not columns:
            columns = cells_of(line)
        elif columns in COLUMNS and not line.startswith("|---"):
            _, where, clause = cells_of(line)
            yield Row(heading, crates, where, clause)


def functions_named(name, owner, crates):
    """The functions of a name: of the owner and the crates that are named where there are such, or else of any."""
    found = code().functions.get(name, [])
    for fits in (
        lambda it: owner in (it.owner, it.trait) and it.crate in crates,
        lambda it: owner and owner in (it.owner, it.trait),
        lambda it: it.crate in crates,
    ):
        narrowed = [it for it in found if fits(it)]
        if narrowed:
            return narrowed
    return found


def is_owner(name):
    return name in code().owners or name in KIT


def named_in(cell, crates):
    """The functions and the types and traits that a cell names, and what it names that isn't there."""
    functions, owners, missing = [], [], []
    owner = ""
    for told in (it for it in marked(cell) if NAME.fullmatch(it)):
        *path, name = told.split("::")
        if path:
            owner = path[-1] if path[-1][0].isupper() else ""
        found = functions_named(name, owner, crates)
        is_own = not (path and owner) or any(owner in (it.owner, it.trait) for it in found)
        if found and is_own:
            functions.append(found)
        elif is_owner(name) or name in crates:
            owners.append(name)
            owner = name
        else:
            missing.append(told)
    return functions, owners, missing


def with_traits(function):
    """A function, and that of its trait."""
    return [function, *(it for it in code().functions[function.name] if function.trait and it.owner == function.trait)]


def labels_of(functions, owners):
    """What clauses may be called that these functions, types and traits have."""
    each = [it for found in functions for one in found for it in with_traits(one)]
    labels = {label for it in each for label in it.labels} | {it.name for it in each}
    for owner in [*owners, *(it.owner for it in each), *(it.trait for it in each)]:
        labels |= code().shown.get(owner, set())
    for owner in owners:
        of_owner = (it for found in code().functions.values() for it in found if owner in (it.owner, it.trait))
        labels |= {label for it in of_owner for label in it.labels}
    return labels | fields_below({name for it in each for name in it.named} | set(owners))


def try_row(desk, row):
    functions, owners, missing = named_in(row.where, row.crates)
    if not marked(row.where):
        functions = [[it] for found in code().functions.values() for it in found if it.crate in row.crates]
    place = f"{row.heading}: {row.where}"
    desk.expect(functions or owners, f"{place} names no call")
    desk.expect(not missing, f"{place} names {', '.join(missing)}, which isn't there")
    labels = labels_of(functions, owners)
    for told in (it for it in marked(row.clause) if re.fullmatch(r"[\w:.]+", it)):
        parts = [part for part in re.split(r"::|\.", told) if part]
        unknown = [part for part in parts if part not in labels and not is_definition(part, row.crates)]
        desk.expect(not unknown, f"{place} has no clause {told}")
    if row.clause == ONE and marked(row.where):
        for found in functions:
            counts = {max(it.clauses for it in with_traits(one)) for one in found}
            desk.expect(1 in counts, f"{place}: {found[0].name} has {counts} clauses in the place of one")


def is_definition(name, crates=()):
    """Whether a name is a type's or a trait's, or a definition's: of any crate if it begins with a capital letter, or else of these."""
    homes = definitions().get(name, set())
    return is_owner(name) or bool(homes and name[0].isupper()) or bool(homes & set(crates))


def try_headings(desk, text):
    for heading in re.findall(r"^#+ (.*)$", text, re.M):
        for name in marked(heading):
            is_crate = (TOP / "crates" / name).is_dir()
            desk.expect(is_crate or " " in name or "/" in name, f"the heading '{heading}' names the crate {name}, which isn't there")


def try_text(desk, text):
    """The paths, calls and definitions that stand in code."""
    for told in sorted({it for line in text.split("\n") for it in marked(line)}):
        if re.fullmatch(r"(tests|docs|crates|examples|bench)/[\w./-]+", told):
            desk.expect((TOP / told).exists(), f"{told} isn't there")
        elif re.fullmatch(r"[A-Z]\w+::[a-z]\w+", told):
            owner, name = told.split("::")
            found = functions_named(name, owner, ())
            desk.expect(any(owner in (it.owner, it.trait) for it in found), f"there is no call {told}")
        elif re.fullmatch(r"(Is|Are|Has|Holds)[A-Z]\w+", told):
            desk.expect(is_definition(told), f"there is no definition {told}")


def main():
    if sys.argv[1:]:
        sys.exit(__doc__)
    desk = Desk()
    text = PAGE.read_text()
    rows = list(rows_of(text))
    for row in rows:
        try_row(desk, row)
    try_headings(desk, text)
    try_text(desk, text)
    desk.expect(rows, "the page has no table of promises")
    print(f"rows of promises: {len(rows)}")
    desk.end()


if __name__ == "__main__":
    main()
