#!/usr/bin/env python3
"""Opens files of version 1 by the program, and shows that they become the same books in version 2, also where it is stopped.

    tests/migration.py [NAME..]

The files are made by plain SQL: the book of tests/tables/version_1.sql, and that of a flight that came late, whose rows the program
made and whose tables are those of version 1. What the program then answers was worked out, and what it leaves in the tables is what
tests/tables/version_2.sql says, read by Python's own `sqlite3`, of SQLite 3.37 or newer.

The machine's C compiler builds tests/migration/stop.c, a library that kills the process into which it is loaded before the n-th of its
calls on files, or in the middle of a write. So the program is killed at each of these calls of a run that opens such a file. On a
disk that takes only this many bytes it is refused. Each time the file holds the book of version 1 or that of version 2, whole, and
who opens it next gets the same answers. Where there is no C compiler, nothing is killed.

What differs is printed on standard error. The line before the last one says how many runs were stopped, and what they left. The last line
is 'N passed, M failed', and the exit status 1 where M isn't 0.
"""

import os
import re
import resource
import shutil
import signal
import sqlite3
import subprocess
import sys
from collections import Counter
from contextlib import closing
from dataclasses import dataclass, field
from pathlib import Path

import reports
import tables
from exchanges import ACCEPTED, get, response
from office import TOP, Book, Ran, build, compact, order, rosterbook
from refusing import folder, has_compiler
from server import serving

LIBRARY = TOP / "tests" / "migration" / "stop.c"
FAULT = Ran(3, "", "refused 90 Store\n")

# ---- The book of version_1.sql, and what it answers.

REPORTS = {
    "roster C1": """
        ROSTER C1 captain Ada Ray
        2025-06-10T11:00Z 2025-06-11T07:30Z pairing P1/1 actual fdp 20:00 flight 10:00
        2025-06-12T08:00Z 2025-06-12T12:00Z ground G1 Simulator
    """,
    "roster C2": """
        ROSTER C2 captain Bo Lind
        2025-06-14T11:00Z 2025-06-14T20:00Z pairing P2/1 plan fdp 3:00 flight 2:00
        2025-06-15T11:00Z 2025-06-15T20:00Z pairing P2/2 plan fdp 3:00 flight 2:00
    """,
    "roster F1": """
        ROSTER F1 first officer Zoë Roy
        2025-06-10T11:00Z 2025-06-11T07:30Z pairing P1/1 actual fdp 20:00 flight 10:00
    """,
    "pairing P1": """
        PAIRING P1
        captain C1
        first officer F1
        1 actual report 2025-06-10T11:00Z release 2025-06-11T07:30Z
        1.1 RB1 BOS 2025-06-10T12:00Z IAD 2025-06-10T14:00Z
        1.2 RB2 IAD 2025-06-10T23:00Z BOS 2025-06-11T07:00Z
    """,
    "pairing P2": """
        PAIRING P2
        captain C2
        first officer -
        1 plan report 2025-06-14T11:00Z release 2025-06-14T20:00Z
        1.1 RB3 BOS 2025-06-14T12:00Z IAD 2025-06-14T14:00Z
        2 plan report 2025-06-15T11:00Z release 2025-06-15T20:00Z
        2.1 RB4 IAD 2025-06-15T12:00Z KBOS 2025-06-15T14:00Z
    """,
    "exceedances": """
        EXCEEDANCES 1
        13 C1 117.13(a) P1/1
    """,
}
KEPT = (6, "assign P1 C1", ACCEPTED)
NO_CREW = compact({"name": "NoSuchCrew", "refusal": 2, "result": "refused"})

# What it answers of C1 and of exceedances with an outside period that reports nine hours and 59 minutes after P1.
WITH_OUTSIDE = {
    "roster C1": """
        ROSTER C1 captain Ada Ray
        2025-06-10T11:00Z 2025-06-11T07:30Z pairing P1/1 actual fdp 20:00 flight 10:00
        2025-06-11T17:29Z 2025-06-11T18:30Z outside X1 fdp 1:01 flight 0:45
        2025-06-12T08:00Z 2025-06-12T12:00Z ground G1 Simulator
    """,
    "exceedances": """
        EXCEEDANCES 2
        13 C1 117.13(a) P1/1
        100 C1 117.25(e) outside X1
    """,
}

# What the book of a late flight answers, and how it was asked of its members and of the flight.
LATE_REPORTS = reports.CASES["a_late_period_is_shown_as_flown"][1]
LATE_KEPT = (
    (1_000, "hire C1 captain: Ada Ray", ACCEPTED),
    (1_000, "hire C1 captain HOME: Ada Ray", ACCEPTED),
    (
        113,
        "fly P13A 1 10: 11:00 | 23:00-+1 07:00 | +1 07:30",
        compact({
            "exceedances": [
                {"crew": "C1", "section": "117.13(a)"}, {"crew": "C1", "section": "117.25(e)"}, {"crew": "F1", "section": "117.13(a)"},
            ],
            "result": "accepted",
        }),
    ),
)  # fmt: skip


# ---- Files of version 1, and what is in a file.


def made(file, statements):
    """A book in this file, by plain SQL."""
    file.parent.mkdir(exist_ok=True)
    return Book(tables.database(file, statements).parent)


def declarations(file):
    """The text by which each table was made, with a blank for each run of blanks and line ends."""
    with closing(sqlite3.connect(file)) as opened:
        rows = opened.execute("SELECT name, sql FROM sqlite_schema WHERE type = 'table'").fetchall()
    return {name: re.sub(r"\s+", " ", sql) for name, sql in rows}


# ---- What is tried.


@dataclass
class Desk:
    """A folder for files, the book of version 1 that is opened, and what came of it."""

    room: Path
    first: Book
    before: list  # all rows of that book, those of the schema too
    after: list = field(default_factory=list)  # the same once it was opened
    passed: int = 0
    failed: int = 0
    name: str = ""
    left: Counter = field(default_factory=Counter)  # which version the stopped runs left

    @classmethod
    def of(cls, room):
        first = made(room / "first" / "roster.db", tables.FIRST)
        return cls(room, first, tables.told(first.file))

    def expect(self, what, got, wanted):
        self.passed += got == wanted
        self.failed += got != wanted
        if got != wanted:
            print(f"tests/migration.py: {self.name}: {what}\n  wanted: {wanted}\n  got:    {got}", file=sys.stderr)

    def expect_reports(self, what, book, wanted):
        for words, text in wanted.items():
            word, *ids = words.split(" ")
            self.expect(f"{words} {what}", rosterbook(word, book.file, *ids), Ran(0, reports.text_of(text), ""))

    def expect_kept(self, what, book, kept):
        """A request that was accepted in version 1 is answered as it was then, and changes no row."""
        number, line, reply = kept
        before = tables.told(book.file)
        self.expect(f"{line} {what}", book.do(number, order(line)), Ran(0, f"{reply}\n", ""))
        self.expect(f"the rows after {line} {what}", tables.told(book.file), before)

    def expect_migrated(self, what, book, before):
        """The rows are those of before in a book of version 2, whose tables are declared so, and SQLite finds no fault in the file."""
        self.expect(f"the rows {what}", tables.rows(book.file), tables.migrated(before))
        other = made(self.room / "other" / "roster.db", tables.FIRST + tables.LATER)
        self.expect(f"the tables {what}", declarations(book.copy().file), declarations(other.file))
        shutil.rmtree(other.folder)
        with closing(sqlite3.connect(book.copy().file)) as opened:
            self.expect(f"the file {what}", opened.execute("PRAGMA integrity_check").fetchall(), [("ok",)])

    def expect_either(self, what, book):
        """The file holds the book in one version, whole, and who opens it next finds it in the other. Which one it held."""
        rows = tables.told(book.file)
        version = 1 if rows == self.before else 2 if rows == self.after else 0
        self.expect(f"the version that {what} leaves", version in (1, 2), True)
        self.expect_reports(f"after {what}", book, {"roster C1": REPORTS["roster C1"]})
        self.expect_kept(f"after {what}", book, KEPT)
        self.expect(f"the rows in the end, after {what}", tables.told(book.file), self.after)
        return version


def try_reports(desk):
    """Each report of a file of version 1, as the first thing that is done with it, and then again."""
    before = tables.rows(desk.first.file)
    for words, text in REPORTS.items():
        book = desk.first.copy()
        for what in ("of version 1", "of version 2"):
            desk.expect_reports(what, book, {words: text})
            desk.expect_migrated(f"after {words} {what}", book, before)
    desk.expect_reports("in turn", book, REPORTS)


def try_requests(desk):
    """Requests and schedules, as the first thing; a request that is kept already acts no more."""
    before = tables.rows(desk.first.file)
    book = desk.first.copy()
    number, line, reply = KEPT
    desk.expect("a kept request", book.do(number, order(line)), Ran(0, f"{reply}\n", ""))
    desk.expect_migrated("after a kept request", book, before)
    desk.expect_kept("again", book, KEPT)
    book = desk.first.copy()
    taken = compact({"name": "SeatTaken", "refusal": 6, "result": "refused"})
    desk.expect("a refused one", book.do(100, order("assign P2 C1")), Ran(1, f"{taken}\n", ""))
    desk.expect_migrated("after a refused one", book, before)
    book = desk.first.copy()
    desk.expect("a new member", book.do(100, order("hire C3 captain: Cy Moe")), Ran(0, f"{ACCEPTED}\n", ""))
    with_member = [*before, "crew C3|0|Cy Moe", f'request 100|0|{compact(order("hire C3 captain: Cy Moe"))}|{ACCEPTED}']
    desk.expect_migrated("after a new member", book, sorted(with_member))
    denver = order("base DEN: MST7MDT,M3.2.0,M11.1.0")
    book = desk.first.copy()
    desk.expect("a new base", book.do(100, denver), Ran(0, f"{ACCEPTED}\n", ""))
    with_base = [*before, f"base DEN|{denver['zone']}", f"request 100|0|{compact(denver)}|{ACCEPTED}"]
    desk.expect_migrated("after a new base", book, sorted(with_base))
    book = desk.first.copy()
    line = "outside X1 C1 11: 17:29 | 17:30-18:00, 18:15-18:30 | 18:30"
    short_rest = compact({"exceedances": [{"crew": "C1", "section": "117.25(e)"}], "result": "accepted"})
    desk.expect("a first outside period", book.do(100, order(line)), Ran(0, f"{short_rest}\n", ""))
    with_outside = [
        *before, "outside X1|C1|13382969|13383030", "outside_segment X1|1|13382970|13383000", "outside_segment X1|2|13383015|13383030",
        "exceedance 100|0|C1|8|X1|0", f"request 100|0|{compact(order(line))}|{short_rest}",
    ]  # fmt: skip
    desk.expect_migrated("after an outside period", book, sorted(with_outside))
    taken = compact({"name": "OutsideTaken", "refusal": 22, "result": "refused"})
    desk.expect("it is one member's", book.do(101, order(line.replace("C1", "C2"))), Ran(1, f"{taken}\n", ""))
    desk.expect_reports("with an outside period", book, WITH_OUTSIDE)
    book = desk.first.copy()
    desk.expect("a refused outside period", book.do(100, order(line.replace("C1", "C9"))), Ran(1, f"{NO_CREW}\n", ""))
    desk.expect_migrated("after a refused outside period", book, before)
    book = desk.first.copy()
    no_base = compact({"name": "NoSuchBase", "refusal": 20, "result": "refused"})
    desk.expect("a member of no base", book.do(100, order("hire C3 captain DEN: Cy Moe")), Ran(1, f"{no_base}\n", ""))
    desk.expect_migrated("after a member of no base", book, before)
    book = desk.first.copy()
    header = "pairing,period,report,release,flight,from,out,to,in\n"
    desk.expect("a schedule of nothing", book.import_schedule(100, header), Ran(0, "", ""))
    desk.expect_migrated("after a schedule", book, before)


def try_server(desk):
    """A server of a file of version 1."""
    book = desk.first.copy()
    with serving(book, 1) as server:
        answer = response(200, reports.text_of(REPORTS["exceedances"]))
        desk.expect("an answer", server.exchange(get("/exceedances")), answer)
        desk.expect("the end", server.end(), server.served())
    desk.expect_migrated("after it", book, tables.rows(desk.first.file))


def try_late_flight(desk):
    """The reports of a flight that came late, and the requests of it, after they were kept in version 1. A member who was added then is
    added no second time by a command that names HOME."""
    book = Book.made(desk.room)
    desk.expect("the book", reports.carry_out(book, reports.MEMBERS + reports.A_LATE_PERIOD), [])
    first = Book(desk.room / "late")
    first.folder.mkdir()
    tables.lower(book.file, first.file)
    before = tables.rows(first.file)
    for kept in LATE_KEPT:
        book = first.copy()
        number, line, reply = kept
        desk.expect(f"{line} of version 1", book.do(number, order(line)), Ran(0, f"{reply}\n", ""))
        desk.expect_kept("of version 2", book, kept)
        desk.expect_migrated(f"after {line}", book, before)
    book = first.copy()
    desk.expect_reports("in turn", book, LATE_REPORTS)
    desk.expect_migrated("after the reports", book, before)


# ---- What is tried with stops.


def opening(book, **options):
    """A run that opens the file, finds the request kept, and then copies the log into the file."""
    number, line, _ = KEPT
    return rosterbook("do", book.file, given=compact({"number": number, **order(line)}), **options)


def stopped(library, book, number):
    """How a run ends that is killed at this number, and at how many it could be, where it isn't."""
    reader, writer = os.pipe()
    more = {"LD_PRELOAD": str(library), "STOPPED_CALL": str(number), "STOPPED_NOTE": str(writer)}
    try:
        ran = opening(book, env={**os.environ, **more}, pass_fds=(writer,))
    finally:
        os.close(writer)
    with open(reader) as note:
        return ran, int(note.read() or 0)


def try_kill(desk):
    """The program is killed at each of its calls on files, while it opens a file of version 1, and on to its end."""
    if not has_compiler():
        print("tests/migration.py: no run is killed, since no cc is on the PATH", file=sys.stderr)
        return
    library = desk.room / "stop.so"
    subprocess.run(["cc", "-O2", "-shared", "-fPIC", "-o", library, LIBRARY], check=True)
    whole, count = stopped(library, desk.first.copy(), 0)
    desk.expect("a run that isn't killed", (whole, count > 20), (Ran(0, f"{ACCEPTED}\n", ""), True))
    left = Counter()
    for number in range(1, count + 1):
        book = desk.first.copy()
        ran, _ = stopped(library, book, number)
        desk.expect(f"the end at {number}", ran.status, -signal.SIGKILL)
        left[desk.expect_either(f"a kill at {number}", book)] += 1
        shutil.rmtree(book.folder)
    desk.expect(f"that some were left in version 1 and some in 2: {left}", min(left[1], left[2]) > 5, True)
    desk.left += left


def try_full_disk(desk):
    """A disk on which no file gets longer than this many bytes."""
    left = Counter()
    refused = 0
    size = desk.first.file.stat().st_size
    for most in (0, 16, 40, 4_000, 20_000, 45_000, 70_000, size - 1, size, size + 4_096, size + 20_000):
        book = desk.first.copy()

        def limit(most=most):
            signal.signal(signal.SIGXFSZ, signal.SIG_IGN)
            resource.setrlimit(resource.RLIMIT_FSIZE, (most, most))

        ran = opening(book, preexec_fn=limit)
        desk.expect(f"the end at {most} bytes", ran in (FAULT, Ran(0, f"{ACCEPTED}\n", "")), True)
        refused += ran == FAULT
        version = desk.expect_either(f"a disk of {most} bytes", book)
        desk.expect(f"the version of an answer at {most} bytes", version == 2 or ran == FAULT, True)
        left[version] += 1
        shutil.rmtree(book.folder)
    desk.expect(f"that some were refused, and left in version 1: {left}", refused > 2 and left[1] > 2, True)
    desk.left += left


TRIED = (try_reports, try_requests, try_server, try_late_flight, try_kill, try_full_disk)


def main(names):
    tried = {it.__name__.removeprefix("try_"): it for it in TRIED}
    for name in names:
        if name not in tried:
            sys.exit(f"tests/migration.py: there is no case {name}")
    if not build():
        return 3
    with folder("migration-") as room:
        desk = Desk.of(Path(room))
        book = desk.first.copy()
        desk.expect("the first opening", opening(book), Ran(0, f"{ACCEPTED}\n", ""))
        desk.after = tables.told(book.file)
        desk.expect("what it leaves", tables.rows(book.file), tables.migrated(tables.rows(desk.first.file)))
        for desk.name in names or tried:
            tried[desk.name](desk)
    print(f"{desk.left.total()} stopped runs, of which {desk.left[1]} left version 1 and {desk.left[2]} version 2")
    print(f"{desk.passed} passed, {desk.failed} failed")
    return 1 if desk.failed else 0


if __name__ == "__main__":
    sys.exit(main(sys.argv[1:]))
