"""A crew office for the scripts beside this one: books in temporary folders, and requests made of short lines.

    build()                                         the program is there from then on
    book = Book.made(room)                          an empty book, in a folder of its own in this one
    book.settle("hire C1 captain: Ada Ray")         what the program answers, in words, as `accepted`
    book.ask(20, "assign P1 C1")                    as request 20, with a look at the tables before and after

A line is a command, on a day of June 2025 (`10`) or of the whole year (`day-365`):

    base DEN: MST7MDT,M3.2.0,M11.1.0
    hire C1 captain: Ada Ray
    hire F1 first-officer: Zoë Roy
    hire C9 captain DEN: Lee Roy
    plan P1 10: 11:00 | 12:00-19:30 | 20:00
    plan P2 10: 11:00 | 12:00-14:00, 15:00-17:00 | 20:00; 11: 16:00 | 17:00-+1 01:00 | +1 01:30
    cancel P1
    assign P1 C1
    release P1 C1
    swap P1 C1 P2 C2
    train G1 20: 12:00-20:00
    excuse G1
    fly P1 1 10: 11:00 | 12:00-19:30 | 20:00
    outside X1 C1 10: 11:00 | 12:00-19:30 | 20:00

`hire` without a base leaves that member of the command out. Periods are written as `report | out-in, out-in | release`, and `+1` is the
day after. Flights are RB1, RB2 and so on, from BOS to IAD and back in turn; a plan may name all those of a period itself, as
`RB7/BOS/JFK 12:00-19:30`. A ground duty, which `train` adds and `excuse` cancels, is one of C1 in the simulator. `outside` records a
period that a member flew for another certificate holder. Any other command is written as its JSON, `{"do":"assign", ..}`.

The tables are read by Python's own `sqlite3`, of SQLite 3.37 or newer.
"""

import json
import re
import shutil
import sqlite3
import subprocess
import tempfile
from contextlib import closing
from dataclasses import dataclass
from datetime import datetime, timedelta
from pathlib import Path

TOP = Path(__file__).resolve().parent.parent
PROGRAM = TOP / "crates" / "rosterbook_main" / "out" / "rosterbook_main"
NAMED = re.compile(r"([^ ,]*)/(\w+)/(\w*) ")  # what a plan says of a flight
ZONE = "EST5EDT,M3.2.0,M11.1.0"
TABLES = (
    "book", "crew", "pairing", "period", "segment", "seat", "ground", "exceedance", "request", "base", "crew_base", "outside",
    "outside_segment",
)  # fmt: skip
SECTIONS = (
    "117.11(a)(1)", "117.13(a)", "117.23(b)(1)", "117.23(b)(2)", "117.23(c)(1)", "117.23(c)(2)", "117.25(b)", "117.25(e)",
)  # fmt: skip


# ---- The program.


@dataclass(frozen=True)
class Ran:
    """How a run of the program ended, and what it wrote."""

    status: int
    out: str
    err: str

    def __str__(self):
        return f"[{self.status}] {self.out}{self.err}"


def build():
    """Has ./rosterbook build the program, where it is missing or older than its sources; returns whether it is there."""
    return subprocess.run([TOP / "rosterbook", "--version"], stdout=subprocess.DEVNULL).returncode == 0


def rosterbook(*words, given="", **options):
    """Runs the program, once it is built, with these words and this standard input, a text or bytes."""
    given = given if isinstance(given, bytes) else given.encode()
    ran = subprocess.run([PROGRAM, *words], input=given, capture_output=True, **options)
    return Ran(ran.returncode, ran.stdout.decode(errors="replace"), ran.stderr.decode(errors="replace"))


# ---- Commands, made of lines.


def written(moment):
    return f"{moment:%Y-%m-%dT%H:%MZ}"


def day_of(word):
    """The first minute of a day."""
    first = datetime(2025, 1, 1) if word.startswith("day-") else datetime(2025, 6, 1)
    return first + timedelta(days=int(word.removeprefix("day-")) - 1)


def at(day, time):
    """The instant at `hh:mm` of a day, or of the day after it at `+1 hh:mm`."""
    days, _, clock = time.rpartition(" ")
    hours, minutes = clock.split(":")
    return written(day + timedelta(days=int(days or 0), hours=int(hours), minutes=int(minutes)))


def block_times(day, text):
    """The times of the flights that a period has."""
    blocks = [flight.split("-") for flight in text.split(", ") if flight]
    return [{"out": at(day, block_out), "in": at(day, block_in)} for block_out, block_in in blocks]


def times(day, text):
    """The times of a period, as an actual has them."""
    report, flights, release = text.split(" | ")
    return {"report": at(day, report), "release": at(day, release), "segments": block_times(day, flights)}


def periods(text):
    """The periods of a plan, as a pairing has them."""
    made, count = [], 0
    for part in text.split("; "):
        day, _, its_times = part.partition(": ")
        named = NAMED.findall(its_times)
        made.append(times(day_of(day), NAMED.sub("", its_times)))
        for segment in made[-1]["segments"]:
            ports = ("IAD", "BOS") if count % 2 else ("BOS", "IAD")
            count += 1
            flight, start, end = named.pop(0) if named else (f"RB{count}", *ports)
            segment.update({"flight": flight, "from": start, "to": end})
    return made


def order(line):
    """The command of a line, as a request has it beside its number."""
    if line.startswith("{"):
        return json.loads(line)
    head, _, text = line.partition(": ")
    match head.split():
        case ["base", base]:
            return {"do": "add-base", "base": base, "zone": text}
        case ["hire", crew, seat]:
            return {"do": "add-crew", "crew": crew, "seat": seat.replace("-", " "), "name": text}
        case ["hire", crew, seat, base]:
            return {"do": "add-crew", "crew": crew, "seat": seat.replace("-", " "), "name": text, "base": base}
        case ["plan", pairing]:
            return {"do": "add-pairing", "pairing": pairing, "periods": []}
        case ["plan", pairing, _]:
            return {"do": "add-pairing", "pairing": pairing, "periods": periods(line.split(maxsplit=2)[2])}
        case ["cancel", pairing]:
            return {"do": "cancel-pairing", "pairing": pairing}
        case ["assign" | "release" as do, pairing, crew]:
            return {"do": do, "pairing": pairing, "crew": crew}
        case ["swap", pairing, crew, other_pairing, other_crew]:
            others = {"other_pairing": other_pairing, "other_crew": other_crew}
            return {"do": "swap", "pairing": pairing, "crew": crew, **others}
        case ["train", ground, day]:
            begin, end = (at(day_of(day), time) for time in text.split("-"))
            return {"do": "add-ground", "ground": ground, "crew": "C1", "begin": begin, "end": end, "task": "Simulator"}
        case ["excuse", ground]:
            return {"do": "cancel-ground", "ground": ground}
        case ["fly", pairing, period, day]:
            return {"do": "actual", "pairing": pairing, "period": int(period), **times(day_of(day), text)}
        case ["outside", outside, crew, day]:
            return {"do": "record-outside", "outside": outside, "crew": crew, **times(day_of(day), text)}
    raise ValueError(f"no line of a command: {line}")


def schedule(lines):
    """The pairings of lines with `plan`, as a schedule in CSV."""
    records = ["pairing,period,report,release,flight,from,out,to,in"]
    for plan in map(order, lines):
        for number, period in enumerate(plan["periods"], 1):
            for segment in period["segments"]:
                fields = [plan["pairing"], str(number), period["report"], period["release"]]
                fields += [segment[name] for name in ("flight", "from", "out", "to", "in")]
                records.append(",".join(fields))
    return "".join(f"{record}\n" for record in records)


# ---- Answers, in words.


def compact(value):
    """The JSON of a value with no blanks, and its members in order."""
    return json.dumps(value, ensure_ascii=False, separators=(",", ":"), sort_keys=True)


def kept_text(command):
    """The text that a book keeps of a command, which has its instants in the first form: it names no base where that is HOME."""
    return compact({name: value for name, value in command.items() if (name, value, command["do"]) != ("base", "HOME", "add-crew")})


def told(ran):
    """An answer in words, as `accepted C1 117.13(a)`, `12 Limits C1 117.25(e)` or `16 BadTimes 2`; all else as it stands."""
    try:
        answer = dict(json.loads(ran.out))
    except (TypeError, ValueError):
        return str(ran)
    is_accepted = answer.get("result") == "accepted"
    if ran != Ran(0 if is_accepted else 1, f"{compact(answer)}\n", ""):
        return str(ran)
    words = ["accepted"] if is_accepted else [answer.get("refusal"), answer.get("name")]
    words += [answer[name] for name in ("period", "field") if name in answer]
    for broken in answer.get("exceedances" if is_accepted else "limits", []):
        words += [broken["crew"], broken["section"]]
    return " ".join(map(str, words))


# ---- A book.


def instant(minute):
    """The instant of a number of minutes since 2000-01-01T00:00Z, as the tables have it."""
    return written(datetime(2000, 1, 1) + timedelta(minutes=minute))


@dataclass
class Book:
    """A book in a folder of its own."""

    folder: Path
    next_number: int = 1_000  # of the requests that are settled

    @classmethod
    def made(cls, room, zone=ZONE):
        """An empty book, in a new folder in this one."""
        book = cls(Path(tempfile.mkdtemp(dir=room)))
        ran = rosterbook("init", book.file, zone)
        if ran != Ran(0, "ready\n", ""):
            raise RuntimeError(f"no book was made: {ran}")
        return book

    @property
    def file(self):
        return self.folder / "roster.db"

    def copy(self):
        """A copy of it, in a new folder beside its own."""
        folder = tempfile.mkdtemp(dir=self.folder.parent)
        return Book(Path(shutil.copytree(self.folder, folder, dirs_exist_ok=True)), self.next_number)

    def send(self, body):
        """What the program answers to the body of a request."""
        return rosterbook("do", self.file, given=body)

    def do(self, number, command):
        return self.send(compact({"number": number, **command}))

    def check(self, number, command):
        """What the program would answer now; nothing is kept."""
        return rosterbook("do", self.file, "--dry-run", given=compact({"number": number, **command}))

    def import_schedule(self, number, text):
        return rosterbook("import", self.file, str(number), given=text)

    def take_number(self):
        """The next number of a request that is settled."""
        self.next_number += 1
        return self.next_number - 1

    def settle(self, line):
        """How a line is answered under the next number."""
        return told(self.do(self.take_number(), order(line)))

    def settle_lines(self, commands):
        """How commands are answered in one run, a line each, under the next numbers."""
        ran = rosterbook("do", self.file, "--lines", given="".join(f"{compact({'number': self.take_number(), **it})}\n" for it in commands))
        answers = [told(Ran("refusal" in line, line, "")) for line in ran.out.splitlines(keepends=True)]
        is_well = ran.err == "" and ran.status == (not all(answer.startswith("accepted") for answer in answers))
        return answers if is_well else [str(ran)]

    def settle_all(self, lines):
        """How lines with `plan` are answered as one schedule, which is `accepted` where each of them is."""
        ran = self.import_schedule(self.take_number(), schedule(lines))
        each = "".join(f"{part} accepted\n" for part in range(1, len(lines) + 1))
        return "accepted" if ran == Ran(0, each, "") else str(ran)

    def ask(self, number, line):
        """How a line is answered under a number, as `repeated` where it is accepted and no table has changed. What is accepted else
        is kept with its answer, and the requests before it stay; a refusal changes no table."""
        command = order(line)
        before = self.tables()
        ran = self.do(number, command)
        after = self.tables()
        words = told(ran)
        is_accepted = words.startswith("accepted")
        if after == before:
            return words.replace("accepted", "repeated", 1) if is_accepted else words
        kept = (number, 0, kept_text(command), ran.out.strip())
        if is_accepted and after["request"] == before["request"] | {kept}:
            return words
        return f"{words}, with other requests than before: {sorted(before['request'] ^ after['request'])}"

    def rows(self, query, *values):
        """The rows that a query finds in its tables."""
        with closing(sqlite3.connect(self.file)) as tables:
            return tables.execute(query, values).fetchall()

    def tables(self):
        """The rows of each table."""
        with closing(sqlite3.connect(self.file)) as tables:
            return {name: set(tables.execute(f"SELECT * FROM {name}")) for name in TABLES}

    def requests(self):
        """The rows of its requests, in order."""
        return self.rows("SELECT * FROM request ORDER BY number, part")

    def bases(self):
        """Each base with its zone."""
        return [f"{base} {zone}" for base, zone in self.rows("SELECT id, zone FROM base ORDER BY id")]

    def members(self):
        """Each member with the base to which the member belongs."""
        return [f"{crew} {base}" for crew, base in self.rows("SELECT crew, base FROM crew_base ORDER BY crew")]

    def seats(self):
        """Each pairing with its captain and its first officer, or a dash for nobody."""
        crew = {(pairing, seat): who for pairing, seat, who in self.rows("SELECT pairing, seat, crew FROM seat")}
        pairings = [pairing for (pairing,) in self.rows("SELECT id FROM pairing ORDER BY id")]
        return [f"{pairing} {crew.get((pairing, 0), '-')} {crew.get((pairing, 1), '-')}" for pairing in pairings]

    def exceedances(self):
        """Each exceedance: number and part of its request, member, section, and pairing and period, or an outside id and 0."""
        return [
            f"{number} {part} {crew} {SECTIONS[section - 1]} {pairing} {period}"
            for number, part, crew, section, pairing, period in self.rows("SELECT * FROM exceedance ORDER BY 1, 2, 3, 4")
        ]

    def outsides(self):
        """Each outside period with the member who flew it."""
        return [f"{outside} {crew}" for outside, crew in self.rows("SELECT id, crew FROM outside ORDER BY id")]

    def recorded(self, outside):
        """An outside period, as a request has it."""
        found = "SELECT out_at, in_at FROM outside_segment WHERE outside = ? ORDER BY number"
        segments = [{"out": instant(block_out), "in": instant(block_in)} for block_out, block_in in self.rows(found, outside)]
        return [
            {"crew": crew, "report": instant(report), "release": instant(release), "segments": segments}
            for crew, report, release in self.rows("SELECT crew, report_at, release_at FROM outside WHERE id = ?", outside)
        ]

    def planned(self, pairing):
        """The periods of a pairing, as a request has them."""
        found = "SELECT number, report_at, release_at FROM period WHERE pairing = ? ORDER BY number"
        return [
            {"report": instant(report), "release": instant(release), "segments": self.flights(pairing, number)}
            for number, report, release in self.rows(found, pairing)
        ]

    def flights(self, pairing, period):
        """The segments of a period, as a request has them."""
        found = "SELECT flight, origin, out_at, destination, in_at FROM segment WHERE pairing = ? AND period = ? ORDER BY number"
        return [
            {"flight": flight, "from": start, "out": instant(block_out), "to": end, "in": instant(block_in)}
            for flight, start, block_out, end, block_in in self.rows(found, pairing, period)
        ]
