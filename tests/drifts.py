#!/usr/bin/env python3
"""Shows that tests/statement.py refuses what it has to refuse: each drift of the sources or of the pages by itself.

    tests/drifts.py

A copy of the sources, the pages and the scripts is changed in one place, and tests/statement.py is run in it: it must fail, and say a
given word. Then the change is taken back. Each run is a process of its own, which this one begins with what it knows of the files'
unchanged texts. Some drifts don't show in what the pages quote, such as an import that gives a name to something
else. These must be refused even after the quotations were cut anew by --refresh. The unchanged copy must pass, with --refresh and without,
and --refresh must leave it as it is. What is let through is printed on standard error. The last line is 'N passed, M failed', and the exit
status 1 where M isn't 0.
"""

import importlib
import multiprocessing
import os
import re
import shutil
import sys
import tempfile
from dataclasses import dataclass
from pathlib import Path

from counting import Desk

TOP = Path(__file__).resolve().parent.parent
STATEMENT = "docs/STATEMENT.md"
CONTRACTS = "docs/CONTRACTS.md"
RULES = "crates/limits/specs/Rules.antt"
LIVES = "crates/book/specs/Lives.antt"
LAW = "crates/book/src/lives.rt"
FENCE = "`" * 3


@dataclass(frozen=True)
class Drift:
    """A change: in a file, what the pattern finds first becomes something else; and a word that tests/statement.py has to say of it."""

    what: str
    path: str
    pattern: str
    by: str
    said: str


def without_block(start):
    """A pattern that finds a quotation of a page by its comment's start, to its end."""
    return rf"<!-- {re.escape(start)}[^\n]*-->\n{FENCE}\n[^`]*?{FENCE}\n\n"


# ---- What doesn't show in the quotations: --refresh doesn't mend it.

HIDDEN = (
    Drift(
        "two kinds of time are exchanged",
        RULES,
        r"\{Flight, FlightDuty, Duty\}",
        "{FlightDuty as Flight, Flight as FlightDuty, Duty}",
        "by an import",
    ),
    Drift(
        "the tables' two lengths are exchanged",
        RULES,
        r"fdp_length, flight_time\}",
        "fdp_length as flight_time, flight_time as fdp_length}",
        "by an import",
    ),
    Drift("below becomes at most", RULES, r"◌<◌, Bool", "◌≤◌ as ◌<◌, Bool", "by an import"),
    Drift(
        "a module is another one",
        RULES,
        r"section\.Section\.TheVariants as section",
        "section.Section.Other as section",
        "for the module",
    ),
    Drift(
        "an element is in a list by another word",
        RULES,
        r"std\.specs\.List\.\{Contains\}",
        "std.specs.Any.{Contains}",
        "doesn't explain Contains",
    ),
    Drift("the law is of one store alone", LAW, r"impl<S: Alter> Book<S>", "impl Book<Memory>", "narrower"),
    Drift("the law of lives says nothing", LAW, r"ensures \{ EachLifeHolds S\.Store \}", "ensures { ⊤ }", "don't rest on"),
    Drift("the law of lists says nothing", "crates/book/src/laws.rt", r"ensures \{ EachListHolds \}", "ensures { ⊤ }", "don't rest on"),
    Drift(
        "the law has a premise that is false",
        LAW,
        r"ensures \{ EachLifeHolds",
        "requires { ⊥ }\n        ensures { EachLifeHolds",
        "owes",
    ),
    Drift(
        "a rule rests on a definition that isn't quoted",
        RULES,
        r"(pub more : most < count all start width\n)",
        r"\1  pub hidden : Hidden start\n\npub record Hidden (start : ℤ) : Type 0 where\n  pub none : start ≡ pos 7\n",
        "doesn't quote",
    ),
    Drift(
        "contracts see a minute as another value",
        "crates/time117/src/minute.rt",
        r"ghost Value = \{ ℕ \}",
        "ghost Value = { ℤ }",
        "contracts see",
    ),
    Drift(
        "the test for equal seats isn't exact",
        "crates/command/src/member.rt",
        r"impl LawfulEq for Seat ",
        "impl Eq for Seat ",
        "no law",
    ),
    Drift(
        "a definition is neither quoted nor listed",
        "crates/roster/specs/Honest.antt",
        r"\Z",
        "\n-- a new one\nabbrev pub IsNew : Type 0\nIsNew = ⊤\n",
        "neither quoted nor listed",
    ),
    Drift("the law speaks of no life", LIVES, r"    Life g begin calls later last →\n", "", "don't rest on"),
    Drift(
        "the ids of two duties are exchanged",
        "crates/roster/src/state.rt",
        r"OutsideId, Pairing, PairingId\}",
        "PairingId as OutsideId, Pairing, OutsideId as PairingId}",
        "by an import",
    ),
    Drift("a quotation is left out", STATEMENT, without_block(f"{RULES}: TenHourRest"), "", "doesn't quote"),
    Drift("a name of a quotation is left out", STATEMENT, r"(<!-- crates/limits/specs/Rules.antt: )IsOver, ", r"\1", "doesn't quote"),
    Drift("the rows of a table aren't quoted", STATEMENT, r", HeldSeat, row_of_seat, InSeat -->", " -->", "doesn't quote"),
    Drift(
        "something is quoted that isn't needed",
        STATEMENT,
        r"(?=<!-- crates/book/src/lives.rt: Book::each)",
        f"<!-- crates/tables/specs/Schema.antt: AreOnTables -->\n{FENCE}\n{FENCE}\n\n",
        "don't rest on",
    ),
    Drift("the claim is said by a word that isn't there", STATEMENT, r"\| `is_assignment` \|", "| `is_order` |", "isn't quoted"),
    Drift(
        "a crate of the kit isn't named as trusted",
        STATEMENT,
        r"Of `jiff`, `jiff_core` and `jiff_tz`",
        "Of `jiff` and `jiff_tz`",
        "is trusted",
    ),
    Drift("a word of the kit isn't explained", STATEMENT, r"\| `days_in_month` \|.*\n", "", "doesn't explain"),
    Drift(
        "an edit of the table of doubts isn't there",
        STATEMENT,
        r"a_limit_reached_is_broken\.edit",
        "a_limit_reached_holds.edit",
        "no edit",
    ),
    Drift("a name of two meanings isn't listed", STATEMENT, r"\| `State` \| the state of the book.*\n", "", "several things"),
    Drift("a section that is linked isn't there", CONTRACTS, r"STATEMENT\.md#whole-lives", "STATEMENT.md#all-lives", "no section"),
)

# ---- What the pages quote: tests/statement.py finds that they differ.

SHOWN = (
    Drift("100 hours and a minute are allowed", RULES, r"6_000", "6_001", "isn't as the page quotes it"),
    Drift(
        "a cell of Table B is another",
        "crates/limits/specs/Tables.antt",
        r"690 ∷ 660 ∷ 630",
        "690 ∷ 690 ∷ 630",
        "isn't as the page quotes it",
    ),
    Drift(
        "the contract of ask says nothing",
        "crates/book/specs/Answered.antt",
        r"(pub record IsAnswered[^\n]*\n(?:[^\n]*\n)*?)( +pub reply [^\n]*\n)",
        r"\1",
        "isn't as the page quotes it",
    ),
    Drift(
        "a call needn't be answered by the state machine",
        "crates/book/specs/Calls.antt",
        r"call\.answers ≡ take \(length call\.answers\)",
        "call.answers ≡ drop (length call.answers)",
        "isn't as the page quotes it",
    ),
    Drift(
        "seats have the rows of ground duties",
        "crates/state_rows/specs/Rows.antt",
        r"InTable s seat = InSeat s",
        "InTable s seat = InGround s",
        "isn't as the page quotes it",
    ),
    Drift(
        "rows may be stored anyhow",
        "crates/tables/specs/Rows.antt",
        r"IsStored table db = .*",
        "IsStored table db = ⊤",
        "isn't as the page quotes it",
    ),
    Drift(
        "kept commands lose their segments",
        "crates/stored_json/specs/KeptText.antt",
        r"∷ \(codes \"segments\", array_of \(map segment_json f\.segments\)\) ",
        "",
        "isn't as the page quotes it",
    ),
    Drift(
        "what holds of each book is less",
        "crates/book/src/keeping.rt",
        r"\(b\.failed ≡ false → HasOne \(state S\.Store b\.store\)\)",
        "⊤",
        "isn't as the page quotes it",
    ),
    Drift("honest books may become others", LIVES, r"  pub honest : Honest begin → Honest s\n", "", "isn't as the page quotes it"),
    Drift("a field of a member is left out", "crates/command/src/member.rt", r"    pub base: BaseId,\n", "", "isn't as the page quotes it"),
    Drift("a quotation is changed on the page", STATEMENT, r"IsOver 10_080 3_600", "IsOver 10_080 3_660", "isn't as the page quotes it"),
    Drift("the page has other numbers on top", STATEMENT, r"(What the claim says \| )\d+", r"\g<1>17", "numbers on top"),
)


class Copy:
    """A copy of what tests/statement.py reads, and of that script."""

    def __init__(self, room):
        self.top = Path(room) / "copy"
        for folder in ("crates", "docs", "tests"):
            shutil.copytree(TOP / folder, self.top / folder, ignore=shutil.ignore_patterns("out", "__pycache__"), symlinks=True)
        sys.path.insert(0, str(self.top / "tests"))
        self.statement, sources = (importlib.import_module(name) for name in ("statement", "sources"))
        # (what is kept here goes by a file's path and text, which each run reads anew)
        for file in (*self.top.glob("crates/*/specs/**/*.antt"), *self.top.glob("crates/*/src/**/*.rt")):
            path, text = str(file.relative_to(self.top)), file.read_text()
            sources.imports_in(text)
            for item in sources.items_in(path, text).values():
                sources.used_words(item)

    def said(self, *words):
        """The exit status of tests/statement.py, and what it printed."""
        with tempfile.TemporaryFile("w+") as told:
            run = multiprocessing.get_context("fork").Process(target=self.run, args=(words, told))
            run.start()
            run.join()
            told.seek(0)
            return run.exitcode, told.read()

    def run(self, words, told):
        """Runs the script, in the process that is to end with it."""
        for stream in (sys.stdout, sys.stderr):
            os.dup2(told.fileno(), stream.fileno())
        sys.argv = ["tests/statement.py", *words]
        self.statement.main()

    def pages(self):
        return {page: (self.top / page).read_text() for page in (STATEMENT, CONTRACTS)}

    def put(self, texts):
        for path, text in texts.items():
            (self.top / path).write_text(text)


def try_unchanged(desk, copy):
    pages = copy.pages()
    for words in ((), ("--refresh",)):
        status, told = copy.said(*words)
        desk.expect(status == 0, f"the copy isn't passed as it is {words}: {told}")
    desk.expect(copy.pages() == pages, "--refresh changes pages that are as their sources")
    copy.put(pages)


def try_refresh(desk, copy):
    """That --refresh mends quotations and numbers that are stale, and nothing else."""
    pages = copy.pages()
    stale = pages[STATEMENT].replace("IsOver 10_080 3_600", "IsOver 1 2").replace("| Of the kit | ", "| Of the kit | 9")
    copy.put({STATEMENT: stale})
    status, told = copy.said("--refresh")
    desk.expect(stale != pages[STATEMENT] and status == 0 and copy.pages() == pages, f"--refresh doesn't mend what is stale: {told}")
    copy.put(pages)


def try_drift(desk, copy, drift, words):
    was = (copy.top / drift.path).read_text()
    pages = copy.pages()
    now, count = re.subn(drift.pattern, drift.by, was, count=1)
    desk.expect(count == 1 and now != was, f"{drift.what}: {drift.path} has nothing to change")
    copy.put({drift.path: now})
    status, told = copy.said(*words)
    desk.expect(status == 1 and drift.said in told, f"{drift.what} {' '.join(words)}: [{status}] {told[-2_000:]}")
    copy.put(pages | {drift.path: was})


def main():
    if sys.argv[1:]:
        sys.exit(__doc__)
    desk = Desk()
    with tempfile.TemporaryDirectory(prefix="drifts-") as room:
        copy = Copy(room)
        try_unchanged(desk, copy)
        try_refresh(desk, copy)
        for drift in HIDDEN:
            try_drift(desk, copy, drift, ("--refresh",))
        for drift in SHOWN:
            try_drift(desk, copy, drift, ())
    desk.end()


if __name__ == "__main__":
    main()
