#!/usr/bin/env python3
"""Posts many commands at once, a line each, to `rosterbook serve`, and compares the answers, and the rows that they leave, with what was
worked out.

    tests/lines_http.py [NAME..]

Each try is a function here, of which NAME picks some, without `try_`. What differs is printed on standard error. The last line is
'N passed, M failed', and the exit status 1 where M isn't 0.
"""

import resource
import signal
import sqlite3
import sys
import tempfile
from dataclasses import dataclass
from pathlib import Path

from exchanges import ACCEPTED, LONGEST, STORE, UNKEPT, body_of, error, get, post, refused, response
from office import Book, Ran, build, compact, order
from server import serving

UNREAD = refused(31, "BadJson", field="body")


@dataclass
class Office:
    """What was tried, on books in a folder."""

    room: Path
    passed: int = 0
    failed: int = 0
    name: str = ""

    def expect(self, what, got, wanted):
        self.passed += got == wanted
        self.failed += got != wanted
        if got != wanted:
            print(f"tests/lines_http.py: {self.name}: {what}\n  wanted: {wanted}\n  got:    {got}", file=sys.stderr)

    def book(self):
        return Book.made(self.room)

    def expect_served(self, book, samples):
        """A server answers these requests, each as it stands beside it, and then ends."""
        with serving(book, len(samples)) as server:
            for given, wanted in samples:
                self.expect(given[:200], server.exchange(given), wanted)
            self.expect("the end", server.end(), server.served())


def lines(*asked):
    """A body of lines of tests/office.py, each with its number; one in braces, or an empty one, stands as it is."""
    made = []
    for line in asked:
        number, _, command = line.partition(" ")
        made.append(body_of(int(number), command) if number.isdigit() and command else line)
    return "\n".join(made)


def many(*answers):
    """The response to lines."""
    return response(200, f'{{"answers":[{",".join(answers)}]}}')


def kept(book):
    """The number of each request that a book keeps."""
    return [row[0] for row in book.requests()]


# ---- What is answered.

MORNING = lines(
    "1 hire C1 captain: Ada Ray",
    "",
    "2 hire C1 captain: Ada Ray",
    "3 plan P1 10: 11:00 | 12:00-19:30 | 20:00",
    "{}",
    '{"number":4,"do":"assign","pairing":"P1"}',
    "5 assign P1 C1",
    "6 assign P1 C1",
    "no JSON at all",
    "7 plan p7",
)
MORNING_ANSWERS = (
    ACCEPTED,
    refused(3, "CrewExists"),
    ACCEPTED,
    refused(31, "BadJson", field="number"),
    refused(31, "BadJson", field="crew"),
    ACCEPTED,
    refused(6, "SeatTaken"),
    UNREAD,
    refused(18, "BadField", field="pairing"),
)


def try_a_morning(office):
    """Lines are asked in turn, each by what those before it left; one that is refused or isn't read stops nothing."""
    book = office.book()
    office.expect_served(book, [(post("/lines", MORNING), many(*MORNING_ANSWERS))])
    office.expect("the members", book.rows("SELECT id, name FROM crew"), [("C1", "Ada Ray")])
    office.expect("the seats", book.seats(), ["P1 C1 -"])
    office.expect("what is kept", kept(book), [1, 3, 5])


def try_again(office):
    """The same lines again are answered as they were, and change no row."""
    book = office.book()
    office.expect_served(book, [(post("/lines", MORNING), many(*MORNING_ANSWERS))])
    tables = book.tables()
    office.expect_served(book, [
        (post("/lines", MORNING), many(*MORNING_ANSWERS)),
        # (and another command under a number that is taken)
        (post("/requests", body_of(1, "hire C2 captain: Bo Lind")), response(409, refused(1, "NumberUsed"))),
        (post("/lines", body_of(1, "hire C2 captain: Bo Lind")), many(refused(1, "NumberUsed"))),
    ])  # fmt: skip
    office.expect("the tables", book.tables(), tables)


def try_a_part_before(office):
    """Lines of which the first were asked before, as after a connection that broke, are answered as if they hadn't been."""
    book = office.book()
    office.expect("alone", book.do(1, order("hire C1 captain: Ada Ray")), Ran(0, f"{ACCEPTED}\n", ""))
    office.expect_served(book, [(post("/lines", MORNING), many(*MORNING_ANSWERS))])
    office.expect("what is kept", kept(book), [1, 3, 5])


def try_checks(office):
    """Lines that are only checked are answered each as if it were asked alone, and leave no row."""
    book = office.book()
    asked = lines("1 hire C1 captain: Ada Ray", "2 hire C1 captain: Ada Ray", "", "3 assign P1 C1", "{}", "1 hire C2 captain: Bo Lind")
    before = (ACCEPTED, ACCEPTED, refused(2, "NoSuchCrew"), refused(31, "BadJson", field="number"), ACCEPTED)
    after = (ACCEPTED, refused(3, "CrewExists"), refused(4, "NoSuchPairing"), before[3], refused(1, "NumberUsed"))
    tables = book.tables()
    office.expect_served(book, [(post("/lines/checks", asked), many(*before))] * 2)
    office.expect("the tables", book.tables(), tables)
    office.expect("a member", book.do(1, order("hire C1 captain: Ada Ray")), Ran(0, f"{ACCEPTED}\n", ""))
    tables = book.tables()
    office.expect_served(book, [(post("/lines/checks", asked), many(*after))])
    office.expect("the tables with a member", book.tables(), tables)


# ---- What the lines are.


def try_ends(office):
    """A line ends at a line feed or with the body; a carriage return belongs to its line, and is a blank of JSON."""
    book = office.book()
    hire = [body_of(number, f"hire C{number} captain: Ada Ray") for number in range(1, 9)]
    office.expect_served(book, [
        (post("/lines", ""), many()),
        (post("/lines", "\n"), many()),
        (post("/lines", "\n\n\n"), many()),
        (post("/lines", hire[0]), many(ACCEPTED)),
        (post("/lines", hire[1] + "\n"), many(ACCEPTED)),
        (post("/lines", f"\n\n{hire[2]}\n\n{hire[3]}\n\n"), many(ACCEPTED, ACCEPTED)),
        (post("/lines", f"{hire[4]}\r\n{hire[5]}\r\n"), many(ACCEPTED, ACCEPTED)),
        (post("/lines", "\r\n"), many(UNREAD)),
        (post("/lines", f" {hire[6]}\t\n "), many(ACCEPTED, UNREAD)),
        (post("/lines", f"{hire[7]}{hire[7]}"), many(UNREAD)),
        (post("/lines", hire[7].replace(",", ",\n", 1)), many(UNREAD, UNREAD)),
        (post("/lines", b"\xff\n" + hire[7].encode() + b"\n\xff"), many(UNREAD, ACCEPTED, UNREAD)),
        (post("/lines", "\n" * LONGEST), many()),
        (post("/lines", "\n" * (LONGEST + 1)), error(413)),
    ])  # fmt: skip
    office.expect("what is kept", kept(book), list(range(1, 9)))


def try_many(office):
    """A thousand lines in one body, and how many requests are kept then."""
    book = office.book()
    asked = "".join(f"{body_of(number, f'hire C{number} captain: Ada Ray')}\n" for number in range(1, 1_001))
    counted = response(200, '{"count":"1000","next":"1001"}\n', UNKEPT)
    office.expect_served(book, [(post("/lines", asked), many(*[ACCEPTED] * 1_000)), (get("/json/count"), counted)])
    office.expect("what is kept", kept(book), list(range(1, 1_001)))


# ---- Where the store fails.


def on_a_full_disk(book):
    """Has a process write no file beyond the bytes that the book has now."""
    size = book.file.stat().st_size

    def limit():
        signal.signal(signal.SIGXFSZ, signal.SIG_IGN)
        resource.setrlimit(resource.RLIMIT_FSIZE, (size, size))

    return {"preexec_fn": limit}


def try_full_disk(office):
    """Lines that the disk doesn't take whole are answered so in place of all; what was done is kept, and they are handed in again whole."""
    book = office.book()
    asked = lines(*(f"{number} hire C{number} captain: Ada Ray" for number in range(1, 101)))
    with serving(book, 1_000, **on_a_full_disk(book)) as server:
        office.expect("the answer", server.exchange(post("/lines", asked)), response(503, STORE))
        office.expect("the end", server.end(), Ran(3, f"listening {server.port}\n", "refused 90 Store\n"))
    numbers = kept(book)
    office.expect("those that are kept", numbers, list(range(1, len(numbers) + 1)))
    office.expect("that some are, and not all", 0 < len(numbers) < 100, True)
    office.expect("the members", len(book.members()), len(numbers))
    office.expect_served(book, [(post("/lines", asked), many(*[ACCEPTED] * 100))])
    office.expect("what is kept in the end", kept(book), list(range(1, 101)))


def try_methods(office):
    """Both resources take POST alone, and neither is there below /json."""
    book = office.book()
    office.expect_served(book, [
        (get("/lines"), error(405, "POST")),
        (get("/lines/checks", "PUT"), error(405, "POST")),
        (get("/lines", "HEAD"), error(405, "POST", "HEAD")),
        (post("/lines/", ""), error(404)),
        (post("/lines/check", ""), error(404)),
        (post("/lines/checks/", ""), error(404)),
        (post("/line", ""), error(404)),
        (post("/json/lines", ""), error(404)),
        (post("/json/lines/checks", ""), error(404)),
        (post("/lines", compact({}), "Origin: null"), error(403)),
    ])  # fmt: skip


TRIED = (
    try_a_morning, try_again, try_a_part_before, try_checks, try_ends, try_many, try_full_disk, try_methods,
)  # fmt: skip


def main(names):
    tried = {it.__name__.removeprefix("try_"): it for it in TRIED}
    for name in names:
        if name not in tried:
            sys.exit(f"tests/lines_http.py: there is no case {name}")
    if not build():
        return 3
    with tempfile.TemporaryDirectory(prefix="lines-") as room:
        office = Office(Path(room))
        for office.name in names or tried:
            try:
                tried[office.name](office)
            except (OSError, RuntimeError, sqlite3.Error) as fault:
                office.expect("what ends it", repr(fault), None)
    print(f"{office.passed} passed, {office.failed} failed")
    return 1 if office.failed else 0


if __name__ == "__main__":
    sys.exit(main(sys.argv[1:]))
