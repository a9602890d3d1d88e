#!/usr/bin/env python3
"""Compares the reports in JSON with a second reading of the book's tables.

    tests/report_json.py [NAME..]

A case is a few lines, which tests/office.py has, each of which has to be accepted, on a book of three bases. Then each report of the book
is asked for by `--json` and over HTTP below `/json`, and each of both answers is compared, byte for byte, with what this script makes
of the rows of the tables by docs/FORMATS.md ("Reports as JSON"); what is nearest to a limit it counts as tests/judgement.py does, minute
by minute. Each answer is read by a strict reader too, which finds no member twice and none out of order. No report may change a byte of
the book's file. Last, the examples of that section are compared with what the program prints. What differs is printed on standard
error. The last line is 'N passed, M failed', and the exit status 1 where M isn't 0.
"""

import json
import re
import sqlite3
import sys
import tempfile
from contextlib import closing
from dataclasses import dataclass
from datetime import datetime, timedelta
from pathlib import Path

from exchanges import UNKEPT, get, refused, response
from judgement import DAY, ZONES, Period, Training, minute_of, nearest
from office import SECTIONS, TABLES, TOP, Book, Ran, build, compact, instant, order, rosterbook, told, written
from reports import A_LATE_PERIOD, AT_THE_EDGES
from server import serving

HOME, ARIZONA, LONDON = (ZONES[base].rule for base in ("HOME", "PHX", "LON"))
SEATS = "captain", "first officer"

BASES = f"""
    base PHX: {ARIZONA}
    base LON: {LONDON}
"""

CREW_AT_HOME = """
    hire C1 captain: Ada Ray
    hire F1 first-officer: Zoë Roy
"""

CREW = CREW_AT_HOME + """
    hire C2 captain PHX: Bo Lind
    hire F2 first-officer LON: Ann Oh
"""

# Names and tasks with all that JSON escapes, and with letters of two, three and four bytes.
ODD_TEXTS = r"""
    {"do":"add-crew","crew":"Q1","seat":"captain","name":"Ann \"Ace\" O'Neil"}
    {"do":"add-crew","crew":"Q2","seat":"captain","name":"back\\slash \\\" /"}
    {"do":"add-crew","crew":"Q3","seat":"first officer","name":"Łukasz Ünal 李 𝒜 é é"}
    {"do":"add-crew","crew":"Q4","seat":"first officer","name":"<b>&amp;</b> 'x' `y` {\"a\":[1]}","base":"LON"}
    {"do":"add-crew","crew":"A-9","seat":"captain","name":"שרה","base":"PHX"}
    {"do":"add-ground","ground":"G-1","crew":"Q1","begin":"2025-06-20T11:00Z","end":"2025-06-20T15:00Z","task":"\"CRM\" \\ Übung"}
    {"do":"add-ground","ground":"G2","crew":"Q1","begin":"2025-06-19T11:00Z","end":"2025-06-19T15:00Z","task":"a, b 𝒜"}
"""

PLANNED = """
    plan P10 10: 11:00 | 12:00-14:00, 15:00-17:00 | 20:00; 11: 16:00 | 17:00-+1 01:00 | +1 01:30
    plan P9 10: 11:00 | RB7/BOS/JFK 12:00-19:30 | 20:00
    plan P-1 14: 11:00 | 12:00-14:00 | 15:00
    plan P8 16: 11:00 | 12:00-14:00 | 15:00
    assign P10 C1
    assign P10 F2
    assign P9 C2
    assign P-1 F1
"""

# The first period is corrected, the second isn't flown, and the third is flown as it is planned.
FLOWN = """
    plan P2 22: 11:00 | 12:00-14:00, 15:00-17:00 | 20:00; 23: 16:00 | 17:00-23:00 | 23:30; 24: 16:00 | 17:00-23:00 | 23:30
    assign P2 C1
    assign P2 F2
    fly P2 1 22: 10:30 | 12:05-14:10, 15:00-17:20 | 20:45
    fly P2 3 24: 16:00 | 17:00-23:00 | 23:30
    fly P2 1 22: 10:35 | 12:05-14:10, 15:00-17:25 | 20:50
"""

# The late period of tests/reports.py, and an outside period of F1.
LATE = A_LATE_PERIOD + """
    114 outside X1 F1 20: 12:00 | 13:00-+2 13:00, +3 14:00-+3 15:00 | +3 16:00
"""

# Numbers that a reader may round, and an outside period with the id of a pairing.
EXCEEDED = LATE + """
    9223372036854775807 outside X2 C1 12: 11:00 | 12:00-+4 15:01 | +4 16:00
    9007199254740993 outside P13A C1 20: 11:00 | 12:00-+5 15:01 | +5 16:00
"""

OUTSIDE = """
    outside X9 C2 3: 12:00 | 13:00-15:00, 16:00-17:00 | 18:00
    outside X10 C2 1: 12:00 | 13:00-15:00 | 16:00
    outside X10 C2 2: 12:00 | 13:00-15:30 | 16:00
    outside X8 F1 2: 12:00 | 13:00-15:30 | 16:00
    train G9 5: 12:00-20:00
    train G10 6: 12:00-20:00
    excuse G9
"""

# Each window of this period begins before the year 2000.
EARLY = compact({
    "do": "record-outside", "outside": "X0", "crew": "C1", "report": "2000-01-02T00:00Z", "release": "2000-01-04T00:00Z",
    "segments": [{"out": "2000-01-02T01:00Z", "in": "2000-01-03T23:00Z"}],
})  # fmt: skip

# C8 and F9 fly both periods of P9 for too long, and the second is corrected. An outside period of C8 has the same id; there is too little
# rest before it, also after it was moved.
TOO_LONG = """
    hire C8 captain: Max Roe
    hire F9 first-officer: Ann Oh
    plan P9 10: 11:00 | 12:00-14:00 | 15:00; 11: 11:00 | 12:00-14:00 | 15:00
    assign P9 C8
    assign P9 F9
    fly P9 1 10: 11:00 | 12:00-+1 02:00 | +1 03:00
    fly P9 2 11: 11:00 | 12:00-+1 01:00 | +1 02:00
    fly P9 2 11: 11:00 | 12:00-+1 00:00 | +1 02:00
    outside P9 C8 12: 03:00 | 03:00-04:00 | 05:00
    outside P9 C8 12: 04:00 | 04:00-05:00 | 05:00
"""

# The duties at the edges of 10 and 11 June of tests/reports.py.
EDGES = "hire C9 captain PHX: Lee Roy" + AT_THE_EDGES + TOO_LONG

CASES = {
    "an_empty_book": "",
    "bases_without_members": BASES,
    "members_of_three_bases": BASES + CREW,
    "texts_of_any_letters": BASES + ODD_TEXTS,
    "planned_pairings": BASES + CREW + PLANNED,
    "flown_pairings": BASES + CREW + FLOWN,
    "exceedances": BASES + CREW + EXCEEDED,
    "ground_and_outside_duties": BASES + CREW + OUTSIDE,
    "windows_before_2000": BASES + CREW + EARLY,
    "duties_at_the_edges_of_days": BASES + CREW_AT_HOME + EDGES,
    "all_of_these": BASES + CREW + ODD_TEXTS + PLANNED + FLOWN + OUTSIDE,
}

# ---- The second reading: the values of a book's tables.


def or_null(minute):
    return None if minute is None else instant(minute)


@dataclass
class Reading:
    """The reports of these tables: the rows of each, in the order of its columns."""

    rows: dict

    def of(self, table, *key):
        """The rows of a table that begin with this key, in order, without it."""
        return sorted(row[len(key) :] for row in self.rows[table] if row[: len(key)] == key)

    # ---- Periods

    def segments(self, pairing, period):
        """The segments of a period of a pairing: as they are planned, and as they were flown."""
        found = self.of("segment", pairing, period)
        planned = [
            {"flight": flight, "from": start, "out": instant(out), "to": end, "in": instant(into)}
            for _, flight, start, end, out, into, *_ in found
        ]
        return planned, [{"out": or_null(out), "in": or_null(into)} for *_, out, into in found]

    def block_times(self, pairing, period):
        """Block-out and block-in of the segments of a period, in force."""
        found = [(row[-4:-2], row[-2:]) for row in self.of("segment", pairing, period)]
        return tuple(planned if None in flown else flown for planned, flown in found)

    def lengths(self, pairing, period, report):
        """From the report in force to the last block-in, and all minutes of flight."""
        times = self.block_times(pairing, period)
        return {"fdp": times[-1][1] - report, "flight": sum(into - out for out, into in times)}

    def periods(self, pairing):
        """The periods of a pairing, as the pairing has them."""
        for number, report, release, flown_report, flown_release in self.of("period", pairing):
            planned, flown = self.segments(pairing, number)
            is_flown = flown_report is not None
            yield {
                "period": number,
                "report": instant(report),
                "release": instant(release),
                "segments": planned,
                "actual": {"report": instant(flown_report), "release": instant(flown_release), "segments": flown} if is_flown else None,
                **self.lengths(pairing, number, flown_report if is_flown else report),
            }

    # ---- Reports

    def pairing(self, pairing):
        holders = dict(self.of("seat", pairing))
        return {"pairing": pairing, "captain": holders.get(0), "first_officer": holders.get(1), "periods": list(self.periods(pairing))}

    def listed(self, pairing):
        """A pairing in the list, in which no period has segments."""
        value = self.pairing(pairing)
        for period in value["periods"]:
            for part in (period, period["actual"]):
                if part is not None:
                    del part["segments"]
        return value

    def pairings(self, is_open=False):
        values = [self.listed(pairing) for (pairing,) in self.of("pairing")]
        return {"pairings": [it for it in values if not is_open or None in (it["captain"], it["first_officer"])]}

    def bases(self):
        return dict(self.of("base"))

    def base_of(self, crew):
        return dict(self.of("crew_base"))[crew]

    def members(self):
        crew = [{"crew": who, "seat": SEATS[seat], "name": name, "base": self.base_of(who)} for who, seat, name in self.of("crew")]
        return {"bases": [{"base": base, "zone": zone} for base, zone in self.bases().items()], "members": crew}

    def member(self, crew):
        ((seat, name),) = self.of("crew", crew)
        return {"crew": crew, "seat": SEATS[seat], "name": name}

    def held(self, crew):
        return [pairing for (pairing,) in self.of("pairing") if crew in dict(self.of("seat", pairing)).values()]

    def flying(self, crew):
        """The periods of the pairings that a member holds, as duties."""
        for pairing in self.held(crew):
            for period in self.periods(pairing):
                times = period["actual"] or period
                yield {"kind": "pairing", "pairing": pairing, "begin": times["report"], "end": times["release"], **period}

    def training(self, crew):
        for ground, who, task, begin, end in self.of("ground"):
            if who == crew:
                yield {"kind": "ground", "ground": ground, "task": task, "begin": instant(begin), "end": instant(end)}

    def outside(self, crew):
        for outside, who, report, release in self.of("outside"):
            if who == crew:
                times = [(out, into) for _, out, into in self.of("outside_segment", outside)]
                yield {
                    "kind": "outside",
                    "outside": outside,
                    "begin": instant(report),
                    "end": instant(release),
                    "fdp": times[-1][1] - report,
                    "flight": sum(into - out for out, into in times),
                    "segments": [{"out": instant(out), "in": instant(into)} for out, into in times],
                }

    def roster(self, crew):
        base = self.base_of(crew)
        duties = [*self.flying(crew), *self.training(crew), *self.outside(crew)]
        return {**self.member(crew), "base": base, "zone": self.bases()[base], "duties": duties}

    def exceedances(self):
        rows = []
        for number, part, crew, section, duty, period in self.of("exceedance"):
            named = {"kind": "pairing", "pairing": duty, "period": period} if period else {"kind": "outside", "outside": duty}
            rows.append({"number": str(number), "part": part, "crew": crew, "section": SECTIONS[section - 1], **named})
        return {"exceedances": rows}

    # ---- A board, and what is kept under a number

    def exceeded(self, crew, duty):
        """A duty of a member with the sections of those exceedances that name it; a ground duty without any."""
        if duty["kind"] == "ground":
            return duty
        named = [name for name in ("kind", "pairing", "period", "outside") if name in duty]
        found = [it for it in self.exceedances()["exceedances"] if it["crew"] == crew and all(it.get(name) == duty[name] for name in named)]
        return {**duty, "exceeds": [it["section"] for it in found]}

    def board(self, first, last):
        """The board of the days from one to another: instants sort as texts do."""
        begin, end = f"{first}T00:00Z", written(datetime.fromisoformat(last) + timedelta(days=1))
        value = self.members()
        for member in value["members"]:
            duties = self.roster(member["crew"])["duties"]
            member["duties"] = [self.exceeded(member["crew"], it) for it in duties if it["begin"] < end and begin < it["end"]]
        times = [(pairing, [period["actual"] or period for period in pairing["periods"]]) for pairing in self.pairings(is_open=True)["pairings"]]
        shown = [pairing for pairing, periods in times if any(it["report"] < end and begin < it["release"] for it in periods)]
        return {**value, "open": shown}

    def request(self, number):
        parts = [{"part": part, "command": json.loads(command), "reply": json.loads(reply)} for part, command, reply in self.of("request", number)]
        return {"number": str(number), "parts": parts}

    # ---- Limits

    def in_force(self, pairing):
        """The periods of a pairing with their names, in minutes since 2000-01-01T00:00Z, as tests/judgement.py has them."""
        for number, report, release, flown_report, flown_release in self.of("period", pairing):
            starts = {base: ZONES[base].clock(report) for base in self.bases()}
            ends = (report, release) if flown_report is None else (flown_report, flown_release)
            yield f"{pairing}/{number}", Period(starts, ends[0], self.block_times(pairing, number), ends[1])

    def history(self, crew, without=None):
        """The duties of a member with their names, without the periods of a pairing."""
        duties = [named for pairing in self.held(crew) if pairing != without for named in self.in_force(pairing)]
        duties += [(f"ground {ground}", Training(begin, end)) for ground, who, _, begin, end in self.of("ground") if who == crew]
        for outside, who, report, release in self.of("outside"):
            if who == crew:
                times = tuple((out, into) for _, out, into in self.of("outside_segment", outside))
                duties.append((f"outside {outside}", Period(None, report, times, release)))
        return duties

    def limits(self, crew, pairing=None):
        new, others = (self.history(crew), []) if pairing is None else (list(self.in_force(pairing)), self.history(crew, pairing))
        first = first_day([*others, *new])
        shifted = [[(name, later(duty, -first)) for name, duty in some] for some in (new, others)]
        found = nearest(*shifted, self.base_of(crew), first)
        return {**self.member(crew), "pairing": pairing, "limits": [limit(*it) for it in zip(SECTIONS, found)]}


def first_day(duties):
    """The first minute of the day on which the first of these duties begins."""
    begins = [duty.report if isinstance(duty, Period) else duty.begin for _, duty in duties]
    return min(begins, default=0) // DAY * DAY


def later(duty, minutes):
    """A duty at other times."""
    if isinstance(duty, Training):
        return Training(duty.begin + minutes, duty.end + minutes)
    times = tuple((out + minutes, into + minutes) for out, into in duty.segments)
    return Period(duty.starts, duty.report + minutes, times, duty.release + minutes)


def limit(section, it):
    """What is nearest to the limit of a section, of how it is printed: `8:30 of 9:00 P1/1`, `0:00 of 100:00`, `- of 10:00` or `-`."""
    counted, _, most = it.amount.partition(" of ")
    is_window, where = section.startswith("117.23"), it.where.strip()
    begin = where.removeprefix("from ") if is_window else ""
    return {
        "section": section,
        "minutes": None if counted == "-" else minute_of(counted),
        "limit": minute_of(most) if most else None,
        "duty": where or None if not is_window else None,
        "from": begin if begin and not begin.startswith("before") else None,
        "exceeds": it.is_over,
    }


# ---- A strict reader.


def pairs_in_order(pairs):
    names = [name for name, _ in pairs]
    if names != sorted(set(names)):
        raise ValueError(f"members out of order, or twice: {names}")
    return dict(pairs)


def no_number(text):
    raise ValueError(f"no whole number: {text}")


def fault_of(text):
    """Why a text isn't one compact JSON object with a line end, or None."""
    try:
        value = json.loads(text, object_pairs_hook=pairs_in_order, parse_float=no_number, parse_constant=no_number)
    except ValueError as fault:
        return str(fault)
    return None if isinstance(value, dict) and text == f"{compact(value)}\n" else "it isn't written compactly"


# ---- What is asked, and what is answered.


@dataclass(frozen=True)
class Report:
    """A report: its words without the file, its path, and its value; or the number and name of why it is refused."""

    words: tuple
    path: str
    value: dict | None
    refusal: tuple | None = None

    @property
    def text(self):
        return f"{compact(self.value)}\n"

    @property
    def printed(self):
        if self.refusal:
            return Ran(1, "", f"refused {self.refusal[0]} {self.refusal[1]}\n")
        return Ran(0, self.text, "")

    @property
    def answered(self):
        return response(404, refused(*self.refusal), UNKEPT) if self.refusal else response(200, self.text, UNKEPT)


# One day, two days, whose edges duties have, and 62 days.
DAYS = ("2025-06-20", "2025-06-20"), ("2025-06-10", "2025-06-11"), ("2025-06-01", "2025-08-01")


def numbers(reading):
    """The first and the last three numbers under which something is kept, and two under which nothing is."""
    kept = sorted({number for number, *_ in reading.rows["request"]})
    return sorted({1, 999, *kept[:1], *kept[-3:]})


def reports(reading):
    """Each report of a book, and those of a member and a pairing that aren't there."""
    yield Report(("members",), "/json/reports/members", reading.members())
    yield Report(("pairings",), "/json/reports/pairings", reading.pairings())
    yield Report(("pairings", "--open"), "/json/reports/open", reading.pairings(is_open=True))
    yield Report(("exceedances",), "/json/exceedances", reading.exceedances())
    for days in DAYS:
        yield Report(("board", *days), f"/json/board/{'/'.join(days)}", reading.board(*days))
    for number in numbers(reading):
        yield Report(("request", str(number)), f"/json/requests/{number}", reading.request(number))
    crew = [who for who, *_ in reading.of("crew")]
    pairings = [pairing for (pairing,) in reading.of("pairing")]
    for pairing in pairings:
        yield Report(("pairing", pairing), f"/json/pairings/{pairing}", reading.pairing(pairing))
    for who in crew:
        yield Report(("roster", who), f"/json/crew/{who}", reading.roster(who))
        yield Report(("limits", who), f"/json/reports/limits/{who}", reading.limits(who))
        for pairing in pairings:
            words = ("limits", who, "--with", pairing)
            yield Report(words, f"/json/reports/limits/{who}/{pairing}", reading.limits(who, pairing))
    no_crew, no_pairing = (2, "NoSuchCrew"), (4, "NoSuchPairing")
    yield Report(("roster", "NONE"), "/json/crew/NONE", None, no_crew)
    yield Report(("limits", "NONE"), "/json/reports/limits/NONE", None, no_crew)
    yield Report(("limits", "NONE", "--with", "NONE"), "/json/reports/limits/NONE/NONE", None, no_crew)
    yield Report(("pairing", "NONE"), "/json/pairings/NONE", None, no_pairing)
    for who in crew[:1]:
        yield Report(("limits", who, "--with", "NONE"), f"/json/reports/limits/{who}/NONE", None, no_pairing)


def reading_of(book):
    """The second reading of a book's tables."""
    with closing(sqlite3.connect(book.file)) as tables:
        return Reading({name: tables.execute(f"SELECT * FROM {name}").fetchall() for name in TABLES})


def lines_of(page):
    return [line.strip() for line in page.splitlines() if line.strip()]


def carry_out(book, page):
    """Has each line accepted; one may begin with the number of its request. Returns what differs."""
    for line in lines_of(page):
        number, _, rest = line.partition(" ")
        answer = told(book.do(int(number), order(rest))) if number.isdigit() else book.settle(line)
        if not answer.startswith("accepted"):
            return [f"{line}: {answer}"]
    return []


def tried(room, page):
    """What differs of the reports of a book."""
    book = Book.made(room, HOME)
    bad = carry_out(book, page)
    wanted = list(reports(reading_of(book)))
    before = book.file.read_bytes()
    for report in wanted:
        command, *ids = report.words
        ran = rosterbook(command, book.file, *ids, "--json")
        fault = None if report.refusal else fault_of(ran.out)
        bad += [f"{report.words}: {fault}: {ran.out}"] if fault else []
        bad += [] if ran == report.printed else [f"{report.words}:\nwanted: {report.printed}\ngot:    {ran}"]
    bad += [] if book.file.read_bytes() == before else ["the book has changed"]
    with serving(book, len(wanted)) as server:
        for report in wanted:
            got = server.exchange(get(report.path))
            bad += [] if got == report.answered else [f"{report.path}:\nwanted: {report.answered}\ngot:    {got}"]
    return bad


# ---- The examples of docs/FORMATS.md.

SECTION = "## Reports as JSON"
EXAMPLE = re.compile(r"    \$ rosterbook (\S+) FILE ?(.*) --json\n((?:    .+\n)+)")


def examples():
    """The words of each example, and its text: the lines that follow them, as one."""
    page = (TOP / "docs" / "FORMATS.md").read_text()
    section = page[page.index(SECTION) :]
    section = section[: section.index("\n## ")]
    for command, ids, block in EXAMPLE.findall(section):
        yield (command, *ids.split()), "".join(line.strip() for line in block.splitlines())


def the_examples_of_the_formats(room):
    """They are of the book of examples/requests.jsonl, but for the exceedances, of which that book has none, and the board."""
    book, exceeded = Book.made(room, HOME), Book.made(room, HOME)
    ran = rosterbook("do", book.file, "--lines", given=(TOP / "examples" / "requests.jsonl").read_text())
    bad = [] if ran.status == 0 else [f"examples/requests.jsonl: {ran}"]
    bad += carry_out(exceeded, CREW_AT_HOME + LATE)
    found = list(examples())
    kinds = {words[0] for words, _ in found}
    bad += [] if kinds == {"roster", "pairing", "limits", "exceedances", "members", "pairings", "board", "request"} else [f"examples of {sorted(kinds)} alone"]
    for (command, *ids), text in found:
        file = exceeded.file if command in ("exceedances", "board") else book.file
        ran = rosterbook(command, file, *ids, "--json")
        bad += [] if ran == Ran(0, f"{text}\n", "") else [f"{command} {ids}:\nthe page: {text}\ngot:      {ran}"]
    return bad


def main(names):
    if not build():
        return 3
    cases = {name: (tried, page) for name, page in CASES.items()} | {"the_examples_of_the_formats": (the_examples_of_the_formats,)}
    failed = 0
    with tempfile.TemporaryDirectory(prefix="report-json-") as room:
        for name in names or cases:
            case, *arguments = cases[name]
            bad = case(Path(room), *arguments)
            failed += bool(bad)
            for line in bad:
                print(f"tests/report_json.py: {name}: {line}", file=sys.stderr)
    print(f"{len(names or cases) - failed} passed, {failed} failed")
    return 1 if failed else 0


if __name__ == "__main__":
    sys.exit(main(sys.argv[1:]))
