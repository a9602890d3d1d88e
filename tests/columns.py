#!/usr/bin/env python3
"""Holds the definitions and the contracts to 100 columns, so that they can be read on a page.

    tests/columns.py

Each file of `specs/` is a case: none of its lines is wider, but for the lists of imported names. So is each source file of a crate that
isn't of tests: none of the lines of a clause is wider, from `requires` or `ensures` to where it ends. Columns are characters. What is
wider is printed on standard error. The last line is 'N passed, M failed', and the exit status 1 where M isn't 0.
"""

import re
import sys
from pathlib import Path

from counting import Desk

TOP = Path(__file__).resolve().parent.parent
WIDTH = 100
TESTS = ("book_tests", "call_tests")


def definitions(text):
    """The lines of a file of `specs/`, numbered, without imports."""
    return [(number, line) for number, line in enumerate(text.split("\n"), 1) if not line.startswith("use ")]


def clauses(text):
    """The lines of the clauses of a source file, numbered. A clause goes on until its braces are closed."""
    found = []
    depth = 0
    for number, line in enumerate(text.split("\n"), 1):
        if depth > 0 or re.match(r"\s*(requires|ensures)\b", line):
            found.append((number, line))
            depth += line.count("{") - line.count("}")
    return found


def wide(path, lines):
    return [f"{path.relative_to(TOP)}:{number}: {len(line)} columns" for number, line in lines if len(line) > WIDTH]


def cases():
    for path in sorted(TOP.glob("crates/*/specs/**/*.antt")):
        yield path, definitions
    for path in sorted(TOP.glob("crates/*/src/**/*.rt")):
        if path.relative_to(TOP).parts[1] not in TESTS:
            yield path, clauses


def main():
    if sys.argv[1:]:
        sys.exit(__doc__)
    desk = Desk()
    for path, lines in cases():
        too_wide = wide(path, lines(path.read_text()))
        desk.expect(not too_wide, ", ".join(too_wide))
    desk.end()


if __name__ == "__main__":
    main()
