#!/usr/bin/env python3
"""Refuses tests of the crates call_tests and book_tests memory, one call for it after the other, and looks at whether they pass.

    tests/allocation_tests.py [--all] [TEST..]

The tests of their modules `allocation` try calls of the library crates: where one reports that there is no memory, the test compares
what the call was to leave as it was, and makes the same call again. So a test passes whichever of its own calls for memory is refused,
and writes to standard error how that was reported. Each is run alone, in a process of its own, with its first call refused, then with the
second one, and so on, up to a run in which none is; the longest only with one in 31, but for --all. Each of these runs

- passes, as it does with all memory;
- reports out of memory as the test may: 91 of a call that has changed nothing, 90 of a store that failed, 503 and 92 over HTTP.

The line before the last one says how many calls were refused; the last line is 'N passed, M failed', in which such a run counts as
one, and the exit status is 1 where M isn't 0. Where there is no C compiler, nothing is tried.
"""

import argparse
import re
import subprocess
import sys
from collections import Counter
from dataclasses import dataclass, field

from office import TOP, Ran
from refusing import Memory, folder, has_compiler

CRATES = TOP / "crates"
MODULE = "allocation"
STRIDES = {"book": 31}  # from one call that is refused to the next one, where that isn't one
NO_CALL = 1_000  # this many calls behind the last one there is none
PATIENCE = 60  # seconds for a run of a test
PASSED = "\ntest result: ok\n"  # what a program of tests prints of one

# The tests of each crate, and how out of memory may be reported in each.
TESTS = {
    "call_tests": {
        "table": {"91"},
        "write": {"91"},
        "insert": {"91"},
        "step": {"91"},
        "put": {"91"},
        "canonical": {"91"},
        "report": {"91"},
        "report_json": {"91"},
        "schedule": {"91"},
    },
    "book_tests": {
        "book": {"91", "90"},
        "http": {"503", "92"},
    },
}


def program(crate):
    """The program of a crate's tests."""
    return CRATES / crate / "out" / f"{crate}_tests"


def crates(crate):
    """The crates that its tests are made of."""
    lines = (line.split(":") for line in (TOP / "crates.txt").read_text().splitlines() if ":" in line and line[0] != "#")
    listed = {name: below.split() for name, below in lines}
    found = [crate]
    for name in found:
        found += [low for low in listed[name] if low in listed and low not in found]
    return found


def sources(crate):
    """The files that its tests are made of."""
    for name in crates(crate):
        for folder in ("src", "specs", "proofs"):
            yield from (CRATES / name / folder).glob("**/*.*")


def build(crate):
    """Proves and builds a crate's tests, where they are missing or older than a source; returns whether they are there."""
    made = program(crate)
    if made.exists() and all(file.stat().st_mtime <= made.stat().st_mtime for file in sources(crate)):
        return True
    print(f"tests/allocation_tests.py: proving and building the tests of {crate} ..", file=sys.stderr)
    ran = subprocess.run(["rt", "test"], cwd=CRATES / crate, stdin=subprocess.DEVNULL, stdout=subprocess.DEVNULL)
    if ran.returncode == 0:
        made.touch()
    return ran.returncode == 0


def written(crate):
    """The names of the tests that are in the crate's module."""
    return re.findall(r"^#\[test\]\nfn (\w+)\(", (CRATES / crate / "src" / f"{MODULE}.rt").read_text(), re.M)


@dataclass
class Desk:
    """What came of the runs."""

    memory: Memory
    is_all: bool
    passed: int = 0
    failed: int = 0
    functions: Counter = field(default_factory=Counter)  # that were refused
    reported: Counter = field(default_factory=Counter)  # how, by the runs

    def expect(self, what, got, wanted):
        self.passed += got == wanted
        self.failed += got != wanted
        if got != wanted:
            print(f"tests/allocation_tests.py: {what}\n  wanted: {wanted}\n  got:    {got}", file=sys.stderr)

    def numbers(self, test, run):
        """The numbers of the calls that are refused."""
        return range(1, self.memory.count(run) + 1, 1 if self.is_all else STRIDES.get(test, 1))


def runner(crate, test):
    """What runs a test of a crate."""

    def run(**options):
        try:
            ran = subprocess.run([program(crate), f"{MODULE}::{test}"], stdin=subprocess.DEVNULL, capture_output=True, timeout=PATIENCE, **options)
        except subprocess.TimeoutExpired:
            return Ran(None, "", "")
        return Ran(ran.returncode, ran.stdout.decode(errors="replace"), ran.stderr.decode(errors="replace"))

    return run


def try_one(desk, crate, test, ways_of_reporting):
    run = runner(crate, test)
    whole = Ran(0, PASSED, "")
    desk.expect(f"{test} with all memory", run(), whole)
    reported = Counter()
    numbers = desk.numbers(test, run)
    for number in numbers:
        ended, function = desk.memory.refuse(run, number)
        ways_reported = ended.err.split()
        wanted = Ran(0, PASSED, ended.err if len(ways_reported) < 2 and ways_of_reporting.issuperset(ways_reported) else "")
        desk.expect(f"{test}: call {number}, of {function or 'none'}, refused", ended, wanted)
        desk.functions[function or "none"] += 1
        reported.update(ways_reported or ["nothing"])
    desk.expect(f"{test} with a call refused that isn't made", desk.memory.refuse(run, numbers[-1] + NO_CALL), (whole, ""))
    ways = ways_of_reporting if numbers.step == 1 else {"91"}
    desk.expect(f"{test}: how out of memory is reported", ways - {*reported}, set())
    desk.reported += reported


def summary(desk):
    """How many calls were refused, and how that was reported."""
    functions = ", ".join(f"{count} of {function}" for function, count in desk.functions.most_common())
    reported = ", ".join(f"{way} of {count}" for way, count in desk.reported.most_common())
    return f"{desk.functions.total()} calls for memory refused ({functions}); reported: {reported}"


def main():
    asked_for = argparse.ArgumentParser(description=__doc__.split("\n")[0])
    asked_for.add_argument("--all", action="store_true", help="refuse each call for memory in turn")
    asked_for.add_argument("tests", nargs="*", metavar="TEST")
    asked_for = asked_for.parse_args()
    for test in asked_for.tests:
        if not any(test in tests for tests in TESTS.values()):
            sys.exit(f"tests/allocation_tests.py: there is no test {test}")
    if not has_compiler():
        print("tests/allocation_tests.py: no call for memory is refused, since no cc is on the PATH", file=sys.stderr)
        print("0 passed, 0 failed")
        return 0
    if not all(build(crate) for crate in TESTS):
        return 3
    with folder("allocation-tests-") as room:
        desk = Desk(Memory.built(room), asked_for.all)
        for crate, tests in TESTS.items():
            desk.expect(f"the tests of {crate}", written(crate), list(tests))
            for test, ways_of_reporting in tests.items():
                if not asked_for.tests or test in asked_for.tests:
                    try_one(desk, crate, test, ways_of_reporting)
    print(summary(desk))
    print(f"{desk.passed} passed, {desk.failed} failed")
    return 1 if desk.failed else 0


if __name__ == "__main__":
    sys.exit(main())
