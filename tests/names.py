#!/usr/bin/env python3
"""Holds each name of the definitions to one crate, so that a name means one thing wherever a clause cites it.

    tests/names.py

Each name that a file of `specs/` makes public, at its top or in a module, is a case: the definitions of no other crate have it. What is
defined twice is printed on standard error. The last line is 'N passed, M failed', and the exit status 1 where M isn't 0.
"""

import re
import sys
from collections import defaultdict
from pathlib import Path

from counting import Desk

TOP = Path(__file__).resolve().parent.parent
IN_MODULE = "  "
PUBLIC = re.compile(r"(?:abbrev )?pub (?!mod |use )(?:record |data )?([^\s:({]+)")


def names(text):
    """The names that a file of definitions makes public. Those of a record's fields are the record's own."""
    margin = ""
    for line in text.split("\n"):
        if re.match(r"[^\s-]", line):
            margin = IN_MODULE if line.startswith("module ") else ""
        definition = PUBLIC.match(line) or line.startswith(margin) and PUBLIC.match(line[len(margin) :])
        if definition:
            yield definition[1]


def main():
    if sys.argv[1:]:
        sys.exit(__doc__)
    desk = Desk()
    crates = defaultdict(set)
    for path in sorted(TOP.glob("crates/*/specs/**/*.antt")):
        for name in names(path.read_text()):
            crates[name].add(path.relative_to(TOP).parts[1])
    for name, having in crates.items():
        desk.expect(len(having) == 1, f"{name} is defined by {', '.join(sorted(having))}")
    desk.end()


if __name__ == "__main__":
    main()
