#!/usr/bin/env python3
"""Refuses the program memory, one call for it after the other, and compares what it answers and what its book holds then.

    tests/allocations.py [--all] [CASE..]

The machine's C compiler builds tests/allocations/refuse.c, a library that refuses the n-th call for memory of the process that it is
loaded into. A case is one call of the program on a copy of one book, or one exchange of a client with its server. It is made with
one of its first calls for memory refused, then with one that comes some calls later, and so on; with each of its last calls, which are
those of a commit and of an answer; and with one more, which isn't made. With --all each call is refused in turn. Each of these runs

- ends as a run that has all memory, or with 91, or with 90 where it commits; an import, and commands one a line, have printed the lines of
  their first parts then. A client has the whole answer, or the whole 503 of 91 or 90, or nothing, where its connection failed (92);
- leaves the rows that a run with all memory leaves, or where it was stopped those of the parts that were answered, or of one more;
- is made again with all memory, and then is answered and leaves all rows as a run that had all memory at once. An `init` that had
  made its book is refused with 43.

What is answered with all memory is written here by hand. What differs is printed on standard error. The line before the last one says
how many calls were refused; the last line is 'N passed, M failed', in which such a run counts as one, and the exit status is 1 where
M isn't 0. Where there is no C compiler, nothing is tried.
"""

import argparse
import shutil
import sqlite3
import subprocess
import sys
import tempfile
from collections import Counter
from contextlib import contextmanager
from dataclasses import dataclass, field
from pathlib import Path

import tables
from exchanges import ACCEPTED, DESK, MEMORY, STORE, UNKEPT, body_of, check, get, refused, request_of, response
from office import ZONE, Book, Ran, build, compact, rosterbook, schedule
from refusing import Memory, folder, has_compiler
from reports import carry_out
from server import started

STRIDE = 307  # from one call that is refused to the next one
LAST = 40  # this many calls at the end of a run are refused in turn
NO_CALL = 1_000  # this many calls behind the last one there is none
PATIENCE = 60  # seconds for a run of the program
FAULTS = {"91": "refused 91 Memory\n", "90": "refused 90 Store\n"}

# ---- The book: C1 and F1 have flown P1 late and hold P4; P2 begins nine hours after P1, and P3 is free.

OFFICE = """
    1 hire C1 captain: Ada Ray
    2 hire F1 first-officer: Zoë Roy
    3 plan P1 10: 11:00 | 12:00-19:30 | 20:00
    4 assign P1 C1
    5 assign P1 F1
    6 plan P2 11: 11:00 | 12:00-14:00 | 14:30
    7 plan P3 13: 11:00 | 12:00-14:00, 15:00-17:00 | 18:00; 14: 11:00 | 12:00-15:00 | 16:00
    8 plan P4 17: 11:00 | 12:00-19:30 | 20:00
    9 assign P4 C1
    10 assign P4 F1
    11 train G1 20: 12:00-13:00
    12 fly P1 1 10: 11:00 | 23:00-+1 01:30 | +1 02:00
"""

# What is there too, but in no book of version 1: a second base, and flying for another certificate holder.
LATER = """
    13 base DEN: MST7MDT,M3.2.0,M11.1.0
    14 hire C9 captain DEN: Lee Roy
    15 outside X1 F1 24: 11:00 | 12:00-14:00, 15:00-16:30 | 17:00
    16 outside X2 F1 25: 02:00 | 02:30-04:00 | 04:30
"""

AT_DENVER = "ROSTER C9 captain Lee Roy\nbase DEN\n"

OUTSIDE_TOO = """\
ROSTER F1 first officer Zoë Roy
2025-06-10T11:00Z 2025-06-11T02:00Z pairing P1/1 actual fdp 14:30 flight 2:30
2025-06-17T11:00Z 2025-06-17T20:00Z pairing P4/1 plan fdp 8:30 flight 7:30
2025-06-24T11:00Z 2025-06-24T17:00Z outside X1 fdp 5:30 flight 3:30
2025-06-25T02:00Z 2025-06-25T04:30Z outside X2 fdp 2:00 flight 1:30
"""

ROSTER = """\
ROSTER C1 captain Ada Ray
2025-06-10T11:00Z 2025-06-11T02:00Z pairing P1/1 actual fdp 14:30 flight 2:30
2025-06-17T11:00Z 2025-06-17T20:00Z pairing P4/1 plan fdp 8:30 flight 7:30
2025-06-20T12:00Z 2025-06-20T13:00Z ground G1 Simulator
"""

LIMITS = """\
LIMITS C1 captain Ada Ray
117.11(a)(1) 7:30 of 9:00 P4/1 within
117.13(a) 14:30 of 14:00 P1/1 exceeds
117.23(b)(1) 10:00 of 100:00 from 2025-05-20T19:30Z within
117.23(b)(2) 10:00 of 1000:00 from 2024-06-18T00:00Z within
117.23(c)(1) 14:30 of 60:00 from 2025-06-04T01:30Z within
117.23(c)(2) 23:00 of 190:00 from 2025-05-20T19:30Z within
117.25(b) 153:00 of 30:00 P4/1 within
117.25(e) 153:00 of 10:00 P4/1 within
"""

# P2 begins nine hours after C1 is released from P1.
WITH_P2 = """\
LIMITS C1 captain Ada Ray with P2
117.11(a)(1) 2:00 of 9:00 P2/1 within
117.13(a) 3:00 of 14:00 P2/1 within
117.23(b)(1) 12:00 of 100:00 from 2025-05-20T19:30Z within
117.23(b)(2) 12:00 of 1000:00 from 2024-06-18T00:00Z within
117.23(c)(1) 17:30 of 60:00 from 2025-06-04T14:00Z within
117.23(c)(2) 26:00 of 190:00 from 2025-05-20T19:30Z within
117.25(b) 140:30 of 30:00 P4/1 within
117.25(e) 9:00 of 10:00 P2/1 exceeds
"""

PAIRING = """\
PAIRING P1
captain C1
first officer F1
1 actual report 2025-06-10T11:00Z release 2025-06-11T02:00Z
1.1 RB1 BOS 2025-06-10T23:00Z IAD 2025-06-11T01:30Z
"""

MEMBERS = """\
MEMBERS 3
C1 captain HOME Ada Ray
C9 captain DEN Lee Roy
F1 first officer HOME Zoë Roy
"""

PAIRINGS = """\
PAIRINGS 4
P1 2025-06-10T11:00Z 2025-06-11T02:00Z flown C1 F1
P2 2025-06-11T11:00Z 2025-06-11T14:30Z plan - -
P3 2025-06-13T11:00Z 2025-06-14T16:00Z plan - -
P4 2025-06-17T11:00Z 2025-06-17T20:00Z plan C1 F1
"""

OPEN = """\
PAIRINGS 2
P2 2025-06-11T11:00Z 2025-06-11T14:30Z plan - -
P3 2025-06-13T11:00Z 2025-06-14T16:00Z plan - -
"""

EXCEEDANCES = """\
EXCEEDANCES 3
12 C1 117.13(a) P1/1
12 F1 117.13(a) P1/1
16 F1 117.25(e) outside X2
"""

# ---- The same in JSON.


def in_json(**value):
    return f"{compact(value)}\n"


def one_flight(report, release, out, into, **more):
    """The times of a period with one segment, in which more may be said of the flight."""
    return {"report": report, "release": release, "segments": [{"out": out, "in": into, **more}]}


P1_PLAN = one_flight("2025-06-10T11:00Z", "2025-06-10T20:00Z", "2025-06-10T12:00Z", "2025-06-10T19:30Z", flight="RB1", **{"from": "BOS"}, to="IAD")
P1_FLOWN = one_flight("2025-06-10T11:00Z", "2025-06-11T02:00Z", "2025-06-10T23:00Z", "2025-06-11T01:30Z")
P1_PERIOD = {**P1_PLAN, "actual": P1_FLOWN, "period": 1, "fdp": 870, "flight": 150}
P4_PLAN = one_flight("2025-06-17T11:00Z", "2025-06-17T20:00Z", "2025-06-17T12:00Z", "2025-06-17T19:30Z", flight="RB1", **{"from": "BOS"}, to="IAD")
P4_PERIOD = {**P4_PLAN, "actual": None, "period": 1, "fdp": 510, "flight": 450}

ROSTER_JSON = in_json(
    crew="C1",
    seat="captain",
    name="Ada Ray",
    base="HOME",
    zone=ZONE,
    duties=[
        {"kind": "pairing", "pairing": "P1", "begin": "2025-06-10T11:00Z", "end": "2025-06-11T02:00Z", **P1_PERIOD},
        {"kind": "pairing", "pairing": "P4", "begin": "2025-06-17T11:00Z", "end": "2025-06-17T20:00Z", **P4_PERIOD},
        {"kind": "ground", "ground": "G1", "task": "Simulator", "begin": "2025-06-20T12:00Z", "end": "2025-06-20T13:00Z"},
    ],
)

PAIRING_JSON = in_json(pairing="P1", captain="C1", first_officer="F1", periods=[P1_PERIOD])


def near(section, minutes, limit, duty=None, begin=None, exceeds=False):
    return {"section": section, "minutes": minutes, "limit": limit, "duty": duty, "from": begin, "exceeds": exceeds}


WITH_P2_JSON = in_json(
    crew="C1",
    seat="captain",
    name="Ada Ray",
    pairing="P2",
    limits=[
        near("117.11(a)(1)", 120, 540, "P2/1"),
        near("117.13(a)", 180, 840, "P2/1"),
        near("117.23(b)(1)", 720, 6000, begin="2025-05-20T19:30Z"),
        near("117.23(b)(2)", 720, 60000, begin="2024-06-18T00:00Z"),
        near("117.23(c)(1)", 1050, 3600, begin="2025-06-04T14:00Z"),
        near("117.23(c)(2)", 1560, 11400, begin="2025-05-20T19:30Z"),
        near("117.25(b)", 8430, 1800, "P4/1"),
        near("117.25(e)", 540, 600, "P2/1", exceeds=True),
    ],
)

MEMBERS_JSON = in_json(
    bases=[{"base": "DEN", "zone": "MST7MDT,M3.2.0,M11.1.0"}, {"base": "HOME", "zone": ZONE}],
    members=[
        {"crew": "C1", "seat": "captain", "base": "HOME", "name": "Ada Ray"},
        {"crew": "C9", "seat": "captain", "base": "DEN", "name": "Lee Roy"},
        {"crew": "F1", "seat": "first officer", "base": "HOME", "name": "Zoë Roy"},
    ],
)


def listed(number, report, release, fdp, flight):
    """A period that isn't flown, in the list of pairings."""
    return {"period": number, "report": report, "release": release, "fdp": fdp, "flight": flight, "actual": None}


OPEN_JSON = in_json(
    pairings=[
        {
            "pairing": "P2",
            "captain": None,
            "first_officer": None,
            "periods": [listed(1, "2025-06-11T11:00Z", "2025-06-11T14:30Z", 180, 120)],
        },
        {
            "pairing": "P3",
            "captain": None,
            "first_officer": None,
            "periods": [
                listed(1, "2025-06-13T11:00Z", "2025-06-13T18:00Z", 360, 240),
                listed(2, "2025-06-14T11:00Z", "2025-06-14T16:00Z", 240, 180),
            ],
        },
    ],
)

EXCEEDANCES_JSON = in_json(
    exceedances=[
        {"number": "12", "part": 0, "crew": "C1", "section": "117.13(a)", "kind": "pairing", "pairing": "P1", "period": 1},
        {"number": "12", "part": 0, "crew": "F1", "section": "117.13(a)", "kind": "pairing", "pairing": "P1", "period": 1},
        {"number": "16", "part": 0, "crew": "F1", "section": "117.25(e)", "kind": "outside", "outside": "X2"},
    ],
)

# ---- What is asked.

# P4 is flown for twenty hours.
LATE = "21 fly P4 1 17: 11:00 | 23:00-+1 07:00 | +1 07:30"
BOTH_LATE = '{"exceedances":[{"crew":"C1","section":"117.13(a)"},{"crew":"F1","section":"117.13(a)"}],"result":"accepted"}'
# X2 is recorded anew, and reports nine hours after X1 once more.
OUTSIDE_ANEW = "20 outside X2 F1 25: 02:00 | 02:15-03:00, 03:30-04:00 | 04:15"
TOO_LITTLE_REST = '{"exceedances":[{"crew":"F1","section":"117.25(e)"}],"result":"accepted"}'
TAKEN = refused(22, "OutsideTaken")
TOO_SOON = refused(12, "Limits", limits=[{"crew": "C1", "section": "117.25(e)"}])

# A schedule whose second pairing is there already.
PLANS = [
    "plan P10 20: 06:30 | 07:30-10:30 | 11:00",
    "plan P2 21: 06:30 | 07:30-10:30 | 11:00",
    "plan P30 22: 06:30 | 07:30-10:30 | 11:00",
]
PARTS = "1 accepted\n2 refused 5 PairingExists\n3 accepted\n"

# Commands one a line, whose second one is refused.
LINES = ["20 assign P3 C1", "21 assign P2 C1", "22 hire C8 captain DEN: Bo Lind"]
REPLIES = f"{ACCEPTED}\n{TOO_SOON}\n{ACCEPTED}\n"

# A period of fourteen hours, and its verdict.
PERIOD = f"duty {ZONE} 2025-06-10T15:59Z 2025-06-10T16:30Z 2025-06-10T20:30Z 2025-06-11T01:29Z 2025-06-11T05:59Z"
WITHIN = "report 11:59 segments 2 fdp 14:00 of 14:00 flight 8:30 of 9:00 within\n"

# ---- What is tried.


@dataclass(frozen=True)
class Call:
    """A call of the program, in whose words BOOK is the file, and how it ends with all memory."""

    words: str
    given: str
    answer: Ran
    is_made: bool = True  # whether the book is there before
    is_first: bool = False  # whether it is of version 1 before
    fronts: tuple = ()  # of an import, and of lines: what is given up to each of its parts but the last
    stride: int = STRIDE

    def run(self, book, given=None, **options):
        words = [book.file if word == "BOOK" else word for word in self.words.split()]
        given = self.given if given is None else given
        try:
            return rosterbook(*words, given=given, timeout=PATIENCE, **options)
        except subprocess.TimeoutExpired:
            return Ran(None, "", "")

    def stops(self):
        """How it may end where it is stopped, each with what is printed of that, and how many parts were answered before."""
        lines = self.answer.out.splitlines(keepends=True) if self.fronts else []
        for fault, line in FAULTS.items():
            for parts in range(len(lines) + 1):
                yield Ran(3, "".join(lines[:parts]), line), fault, parts

    def again(self):
        """How it ends when it is made once more after it was done."""
        return self.answer if self.is_made else Ran(3, "", "refused 43 NotEmpty\n")


@dataclass(frozen=True)
class Exchange:
    """An exchange of one client with the server: what is sent, and what is answered with all memory."""

    sent: bytes
    response: bytes
    is_made = True
    is_first = False
    fronts = ()
    stride = STRIDE

    @property
    def answer(self):
        return self.response, Ran(0, "listening\n", "")

    def run(self, book, **options):
        """What the client gets, nothing of a server that doesn't listen, and how that ends."""
        with started(book, 1, **options) as server:
            got = server.exchange(self.sent) if server.listens() else None
            ended = server.end()
        if isinstance(got, str) and got.startswith(("ConnectionResetError", "BrokenPipeError")):
            got = b""
        return got, Ran(ended.status, ended.out.replace(f"listening {server.port}", "listening"), ended.err)

    def stops(self):
        for fault, line in FAULTS.items():
            yield (None, Ran(3, "", line)), fault, 0
        yield (response(503, MEMORY), Ran(0, "listening\n", "")), "503 with 91", 0
        yield (response(503, STORE), Ran(3, "listening\n", FAULTS["90"])), "503 with 90", 0
        yield (b"", Ran(0, "listening\n", "refused 92 Channel\n")), "92", 0

    def again(self):
        return self.answer


def bodies(lines):
    """The bodies of lines with their numbers, one a line."""
    return "".join(f"{body_of(int(number), command)}\n" for number, _, command in (line.partition(" ") for line in lines))


def asked(line, status, text, words="do BOOK"):
    """The call of `do` that asks a line with its number, and how it ends."""
    return Call(words, bodies([line]), Ran(status, f"{text}\n", ""))


def asked_in_lines(words):
    """The call of `do` that asks the lines, and how it ends."""
    return Call(words, bodies(LINES), Ran(1, REPLIES, ""), fronts=(bodies(LINES[:1]), bodies(LINES[:2])))


CASES = {
    "init": Call(f"init BOOK {ZONE}", "", Ran(0, "ready\n", ""), is_made=False),
    "do_accepted": asked("20 assign P3 C1", 0, ACCEPTED),
    "do_refused": asked("20 assign P2 C1", 1, TOO_SOON),
    "do_repeated": asked("4 assign P1 C1", 0, ACCEPTED),
    "do_actual": asked(LATE, 0, BOTH_LATE),
    "do_base": asked("20 base PHX: MST7", 0, ACCEPTED),
    "do_hire": asked("20 hire C8 captain DEN: Bo Lind", 0, ACCEPTED),
    "do_outside": asked(OUTSIDE_ANEW, 0, TOO_LITTLE_REST),
    "do_outside_of_another": asked("20 outside X1 C1 24: 11:00 | 12:00-14:00 | 17:00", 1, TAKEN),
    "do_checked": asked(LATE, 0, BOTH_LATE, "do BOOK --dry-run"),
    "do_lines": asked_in_lines("do BOOK --lines"),
    "do_lines_checked": asked_in_lines("do BOOK --lines --dry-run"),
    "import": Call("import BOOK 500", schedule(PLANS), Ran(1, PARTS, ""), fronts=(schedule(PLANS[:1]), schedule(PLANS[:2]))),
    "roster": Call("roster BOOK C1", "", Ran(0, ROSTER, "")),
    "roster_of_a_base": Call("roster BOOK C9", "", Ran(0, AT_DENVER, "")),
    "roster_with_outside": Call("roster BOOK F1", "", Ran(0, OUTSIDE_TOO, "")),
    "roster_of_version_1": Call("roster BOOK C1", "", Ran(0, ROSTER, ""), is_first=True),
    "limits": Call("limits BOOK C1", "", Ran(0, LIMITS, "")),
    "limits_with": Call("limits BOOK C1 --with P2", "", Ran(0, WITH_P2, "")),
    "pairing": Call("pairing BOOK P1", "", Ran(0, PAIRING, "")),
    "exceedances": Call("exceedances BOOK", "", Ran(0, EXCEEDANCES, "")),
    "members": Call("members BOOK", "", Ran(0, MEMBERS, "")),
    "pairings": Call("pairings BOOK", "", Ran(0, PAIRINGS, "")),
    "pairings_open": Call("pairings BOOK --open", "", Ran(0, OPEN, "")),
    "roster_json": Call("roster BOOK C1 --json", "", Ran(0, ROSTER_JSON, "")),
    "limits_json": Call("limits BOOK C1 --with P2 --json", "", Ran(0, WITH_P2_JSON, "")),
    "pairing_json": Call("pairing BOOK P1 --json", "", Ran(0, PAIRING_JSON, "")),
    "exceedances_json": Call("exceedances BOOK --json", "", Ran(0, EXCEEDANCES_JSON, "")),
    "members_json": Call("members BOOK --json", "", Ran(0, MEMBERS_JSON, "")),
    "pairings_json": Call("pairings BOOK --open --json", "", Ran(0, OPEN_JSON, "")),
    "duty": Call(PERIOD, "", Ran(0, WITHIN, ""), stride=5),
    "serve_accepted": Exchange(request_of("20 assign P3 C1"), response(200, ACCEPTED)),
    "serve_refused": Exchange(request_of("20 assign P2 C1"), response(409, TOO_SOON)),
    "serve_checked": Exchange(request_of(check("20 assign P3 C1")), response(200, ACCEPTED)),
    "serve_roster": Exchange(get("/crew/C1"), response(200, ROSTER)),
    "serve_limits": Exchange(get("/reports/limits/C1/P2"), response(200, WITH_P2)),
    "serve_open": Exchange(get("/reports/open"), response(200, OPEN)),
    "serve_json": Exchange(get("/json/crew/C1"), response(200, ROSTER_JSON, UNKEPT)),
    "serve_desk": Exchange(get("/"), response(*DESK)),
}

# ---- How it is tried.


@dataclass(frozen=True)
class Whole:
    """What a case comes to with all memory, and how it may end without."""

    case: object
    rows: list  # all rows before it, and after each of its parts
    ends: dict  # what is printed of each end, and the rows that may stand then

    @classmethod
    def of(cls, case, rows):
        ends = {case.answer: ("nothing", rows[-1:])}
        for ended, fault, parts in case.stops():
            # (only a commit reports out of memory as 90)
            if "90" not in fault or rows[0] != rows[-1]:
                ends[ended] = fault, rows[parts : parts + 2]
        return cls(case, rows, ends)

    def look_up(self, ended):
        return self.ends.get(ended, ("something else", []))


@dataclass
class Desk:
    """Books in a folder, the library that refuses a call, and what came of the runs."""

    room: Path
    memory: Memory
    is_all: bool
    office: Book
    first: Book  # the office's book in version 1, without what is only in version 2
    passed: int = 0
    failed: int = 0
    name: str = ""
    functions: Counter = field(default_factory=Counter)  # that were refused
    told: Counter = field(default_factory=Counter)  # how the runs ended

    def expect(self, what, got, wanted):
        self.passed += got == wanted
        self.failed += got != wanted
        if got != wanted:
            print(f"tests/allocations.py: {self.name}: {what}\n  wanted: {wanted}\n  got:    {got}", file=sys.stderr)

    @contextmanager
    def book(self, case):
        """A copy of the office's book, or where the case makes one no book; it doesn't outlive the block."""
        of = self.first if case.is_first else self.office
        book = of.copy() if case.is_made else Book(Path(tempfile.mkdtemp(dir=self.room)))
        try:
            yield book
        finally:
            shutil.rmtree(book.folder)

    def numbers(self, case):
        """The numbers of the calls that are refused. In a sample cases begin apart, since many of their calls are the same."""
        with self.book(case) as book:
            count = self.memory.count(lambda **options: case.run(book, **options))
        if self.is_all:
            return range(1, count + 1)
        first = 1 + list(CASES).index(self.name) * case.stride // len(CASES)
        return sorted({*range(first, count + 1, case.stride), *range(max(1, count - LAST + 1), count + 1)})


def with_all_memory(desk, case):
    """What the case comes to with all memory, which has to be what stands here."""
    between = []
    for front in case.fronts:
        with desk.book(case) as book:
            case.run(book, front)
            between.append(tables.told(book.file))
    with desk.book(case) as book:
        before = tables.told(book.file)
        desk.expect("with all memory", case.run(book), case.answer)
        return Whole.of(case, [before, *between, tables.told(book.file)])


def differences(whole, book, ended):
    """What is wrong of a run that ended so, and of the same run made again, which has all memory."""
    wrong = []
    rows = tables.told(book.file)
    _, wanted = whole.look_up(ended)
    if not wanted:
        wrong.append(f"it ends with {ended}")
    elif rows not in wanted:
        wrong.append(f"it ends with {ended} and leaves {changes(whole, rows)}")
    again = whole.case.run(book)
    if again != (whole.case.again() if rows == whole.rows[-1] else whole.case.answer):
        wrong.append(f"again it ends with {again}")
    rows = tables.told(book.file)
    if rows != whole.rows[-1]:
        wrong.append(f"again it leaves {changes(whole, rows)}")
    return wrong


def changes(whole, rows):
    """How rows differ from those that a run with all memory leaves."""
    wanted = whole.rows[-1]
    return [f"+ {row}" for row in rows if row not in wanted] + [f"- {row}" for row in wanted if row not in rows]


def try_call(desk, whole, number):
    """Refuses a call; how the run ended, which function that called, or nothing, and what is wrong of the run."""
    with desk.book(whole.case) as book:
        ended, function = desk.memory.refuse(lambda **options: whole.case.run(book, **options), number)
        try:
            return ended, function, differences(whole, book, ended)
        except sqlite3.Error as fault:
            return ended, function, [f"it ends with {ended}, and its tables can't be read: {fault}"]


def try_case(desk, case):
    whole = with_all_memory(desk, case)
    told = Counter()
    numbers = desk.numbers(case)
    for number in numbers:
        ended, function, wrong = try_call(desk, whole, number)
        desk.expect(f"call {number}, of {function or 'none'}, refused", wrong, [])
        desk.functions[function or "none"] += 1
        told[whole.look_up(ended)[0]] += 1
    ended, function, wrong = try_call(desk, whole, numbers[-1] + NO_CALL)
    desk.expect("with a call refused that isn't made", (ended, function, wrong), (case.answer, "", []))
    desk.expect("that out of memory is reported", told["91"] > 0, True)
    desk.told += told


def summary(desk):
    """How many calls were refused, and what was printed of that."""
    functions = ", ".join(f"{count} of {function}" for function, count in desk.functions.most_common())
    told = ", ".join(f"{what} of {count}" for what, count in desk.told.most_common())
    return f"{desk.functions.total()} calls for memory refused ({functions}); told: {told}"


def main():
    asked_for = argparse.ArgumentParser(description=__doc__.split("\n")[0])
    asked_for.add_argument("--all", action="store_true", help="refuse each call for memory in turn")
    asked_for.add_argument("cases", nargs="*", metavar="CASE")
    asked_for = asked_for.parse_args()
    for name in asked_for.cases:
        if name not in CASES:
            sys.exit(f"tests/allocations.py: there is no case {name}")
    if not has_compiler():
        print("tests/allocations.py: no call for memory is refused, since no cc is on the PATH", file=sys.stderr)
        print("0 passed, 0 failed")
        return 0
    if not build():
        return 3
    with folder("allocations-") as room:
        desk = Desk(Path(room), Memory.built(room), asked_for.all, Book.made(room), Book(Path(tempfile.mkdtemp(dir=room))))
        desk.expect("the book", carry_out(desk.office, OFFICE), [])
        tables.lower(desk.office.file, desk.first.file)
        desk.expect("what is only in version 2", carry_out(desk.office, LATER), [])
        for desk.name in asked_for.cases or CASES:
            try_case(desk, CASES[desk.name])
    print(summary(desk))
    print(f"{desk.passed} passed, {desk.failed} failed")
    return 1 if desk.failed else 0


if __name__ == "__main__":
    sys.exit(main())
