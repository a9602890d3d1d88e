#!/usr/bin/env python3
"""Holds docs/CALLING.md to the sources: the code and the contracts that it quotes, and the functions that it names.

    tests/calling.py [--refresh]

A quotation is a block of the page below a comment that names its source, `<!-- PATH: NAME, NAME -->`. In a crate of tests a name is that of
a function, a constant or a type, which is quoted whole. In another crate it is that of a public function (`judge`, `Book::ask`), which is
quoted up to its body. Below `<!-- imports -->` stand the imports that the quoted functions of the section need, without those of their own
crate. Below `<!-- crates -->` stands the line of crates.txt that a crate with these imports needs. Below `<!-- clauses of PATH: NAME -->`
stands a table whose rows begin with clauses of that function. A name with `::` in the text is that of a public function, of a crate or of
a type.

With --refresh the quotations, the imports and the lines are written anew, by the names of the functions. What fails: a block that differs
from its source, a name that a source doesn't have, a row that names no clause, and a public function that isn't there. What
differs is reported on standard error. The last line is 'N passed, M failed', and the exit status is 1 if M isn't 0.
"""

import re
import sys
from functools import cache
from pathlib import Path

from counting import Desk

TOP = Path(__file__).resolve().parent.parent
PAGE = TOP / "docs/CALLING.md"
BLOCK = re.compile(r"^<!-- (?:(crates/\S+?): (.+?)|(imports)|(crates)) -->\n```\n(.*?)^```$", re.M | re.S)
TABLE = re.compile(r"^<!-- clauses of (\S+?): (\S+) -->\n((?:\|.*\n)+)", re.M)
CALLER = "caller"


@cache
def source(path):
    return (TOP / path).read_text()


@cache
def listed():
    """Each crate with the libraries that it stands on, in the order of crates.txt."""
    lines = [line for line in source("crates.txt").splitlines() if line and not line.startswith("#")]
    return {name: libraries.split() for name, libraries in (line.split(":", 1) for line in lines)}


@cache
def order():
    """All crates in the order in which a line of crates.txt names them: those of the workspace, then those of the kit."""
    kit = [name for libraries in listed().values() for name in libraries if name not in listed()]
    return list(dict.fromkeys([*listed(), *kit]))


def is_end(line, indent, has_body, is_first):
    """Whether an item ends with this line: one that has a body with the brace that closes it, another one with a semicolon too."""
    if line in (f"{indent}}}", f"{indent}{{}}") or (is_first and line.endswith("}")):
        return True
    return not has_body and line.endswith(";")


@cache
def items(path):
    """The functions, constants and types of a file: what each is owned by, its name, and its lines with the comment above, moved left."""
    found = {}
    lines = source(path).split("\n")
    owner, in_trait = "", False
    for at, line in enumerate(lines):
        owned = re.match(r"(?:impl(?:<.*?>)?\s+(?:[\w:<>, ]+ for )?(?:\w+::)*(\w+)|pub trait (\w+)).*\{$", line)
        if owned:
            owner = owned[1] or owned[2]
            in_trait = bool(owned[2])
        if line == "}":
            owner, in_trait = "", False
        named = re.match(r"( *)(?:pub(?:\(crate\))? )?(?:fn|const|type|struct|enum) (\w+)", line)
        if not named or named[1] not in ("", "    "):
            continue
        indent = named[1]
        first = at
        while first and re.match(rf"{indent}(///|#\[)", lines[first - 1]):
            first -= 1
        last = at
        while last + 1 < len(lines) and not is_end(lines[last], indent, "fn " in line and not in_trait, last == at):
            last += 1
        name = f"{owner}::{named[2]}" if indent and owner else named[2]
        found[name] = "\n".join(it.removeprefix(indent) for it in lines[first : last + 1])
    return found


def item(path, name):
    if name not in items(path):
        raise LookupError(f"{path} has no {name}")
    return items(path)[name]


def contract(path, name):
    """A public function with its comment and its clauses, without its body."""
    lines = item(path, name).split("\n")
    if not any(re.match(r"pub fn ", line) for line in lines):
        raise LookupError(f"{path}: {name} isn't public")
    end = next((at for at, line in enumerate(lines) if line in ("{", "{}")), None)
    if end is None:
        end = next(at for at, line in enumerate(lines) if line.endswith(" {"))
        return "\n".join([*lines[:end], lines[end].removesuffix(" {")])
    return "\n".join(lines[:end])


def is_of_tests(path):
    return path.split("/")[1].endswith("_tests")


def quoted(path, names):
    take = item if is_of_tests(path) else contract
    return "\n\n".join(take(path, name) for name in names) + "\n"


def uses(path):
    """The imports of a file: each name with the path of its module, without those for contracts."""
    for module, group, name in re.findall(r"^use ([\w:]+)::(?:\{([^}]*)\}|(\w+));", source(path), re.M):
        for one in re.split(r",\s*", (group or name).strip().rstrip(",")):
            yield module, one.strip()


def needed(section):
    """The imports that the quoted code of a section needs: each module with its names."""
    modules = {}
    for path, names, *_ in BLOCK.findall(section):
        if path and is_of_tests(path):
            code = re.sub(r'"(?:\\.|[^"\\])*"', "", quoted(path, names_of(names)), flags=re.S)
            code = re.sub(r"^\s*///.*\n", "", code, flags=re.M)
            for module, name in uses(path):
                if not module.startswith("crate") and re.search(rf"\b{name}\b", code):
                    modules.setdefault(module, set()).add(name)
            for module in re.findall(r"(?<![\w:])([a-z]\w*)::\w+\(", code):
                if module in order():
                    modules.setdefault(module, set())
    return modules


def imports(section):
    def line(module, names):
        names = sorted(names)
        return f"use {module}::{names[0]};" if len(names) == 1 else f"use {module}::{{{', '.join(names)}}};"

    return "".join(f"{line(module, names)}\n" for module, names in sorted(needed(section).items()) if names)


def crates_line(section):
    roots = {module.split("::")[0] for module in needed(section)} - {"std"}
    return f"{CALLER}: {' '.join(name for name in order() if name in roots)}\n"


def names_of(text):
    return re.split(r",\s*", text)


def sections(page):
    return re.split(r"^(?=## )", page, flags=re.M)


def wanted(section, path, names, is_imports):
    if path:
        return quoted(path, names_of(names))
    return imports(section) if is_imports else crates_line(section)


def refreshed(page):
    def of(section):
        def block(found):
            path, names, is_imports, _, _ = found.groups()
            return found[0].split("\n")[0] + "\n```\n" + wanted(section, path, names, is_imports) + "```"

        return BLOCK.sub(block, section)

    return "".join(of(section) for section in sections(page))


@cache
def public_functions():
    """The public functions of all crates, each by its crate or its type, and the methods of public traits."""
    found = set()
    for path in sorted(TOP.glob("crates/*/src/**/*.rt")):
        short = str(path.relative_to(TOP))
        crate = short.split("/")[1]
        traits = re.findall(r"^pub trait (\w+)", source(short), re.M)
        for name, text in items(short).items():
            owner = name.split("::")[0]
            if re.search(r"^pub fn ", text, re.M) or (owner in traits and re.search(r"^fn ", text, re.M)):
                found.add(name if "::" in name else f"{crate}::{name}")
                found.add(f"{crate}::{name}")
    return found


def try_blocks(desk, page):
    count = 0
    for section in sections(page):
        for path, names, is_imports, _, text in BLOCK.findall(section):
            count += 1
            told = f"{path}: {names}" if path else ("imports" if is_imports else "crates")
            try:
                same = text == wanted(section, path, names, is_imports)
                desk.expect(same, f"the block of {told} isn't as the sources have it: tests/calling.py --refresh")
            except LookupError as error:
                desk.expect(False, error.args[0])
    desk.expect(count == len(re.findall(r"^```$", page, re.M)) / 2, "a block of code without the comment that names its source")


def labels(path, name):
    """The clauses of a function."""
    return set(re.findall(r"^ +(?:ensures|requires) (\w+) \{", contract(path, name), re.M))


def try_tables(desk, page):
    for path, name, table in TABLE.findall(page):
        try:
            there = labels(path, name)
        except LookupError as error:
            desk.expect(False, error.args[0])
            continue
        for row in table.strip().split("\n")[2:]:
            for label in re.findall(r"`(\w+)`", row.split("|")[1]):
                desk.expect(label in there, f"{name} of {path} has no {label}")


def try_names(desk, page):
    text = re.sub(r"^```$.*?^```$", "", page, flags=re.M | re.S)
    kit = {name for name in order() if name not in listed()} | {"std"}
    for name in sorted(set(re.findall(r"`(\w+(?:::\w+)+)`", text))):
        if name.split("::")[0] not in kit:
            desk.expect(name in public_functions(), f"no public function {name}")
    for path in sorted(set(re.findall(r"`(crates/[\w./]+)`", text))):
        desk.expect((TOP / path).is_file(), f"no file {path}")


def main():
    if sys.argv[1:] not in ([], ["--refresh"]):
        sys.exit(__doc__)
    if sys.argv[1:]:
        PAGE.write_text(refreshed(PAGE.read_text()))
    desk = Desk()
    page = PAGE.read_text()
    try_blocks(desk, page)
    try_tables(desk, page)
    try_names(desk, page)
    desk.end()


if __name__ == "__main__":
    main()
