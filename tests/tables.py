#!/usr/bin/env python3
"""Shows how the program reads the tables of a file, and what it leaves in them.

    tests/tables.py

Books of version 1 and of version 2 are made by plain SQL (tests/tables/version_1.sql, version_2.sql), and the program is asked: such
with a damage, or with two, of which the first table has to be named (damages.txt), and sound ones, whose answers show how their rows are
read (answers.txt, of those with a second base bases.txt, and of those with outside periods outside.txt). Books that the program makes are
read by plain SELECTs: after each order of a story (story.txt), with the longest pairing, with the greatest key, and beside other tables.
One of them is damaged (late.txt), and the tables of others are offered rows that they have to refuse (refused.txt). Books with the index
of README ("A book of many years") answer as those without it do, and keep it; and less is read of such a file, where the system counts
what a process reads (/proc/PID/io). Each subcommand is tried on files that are no book, and on books that can't be opened. The SQL is that
of Python's own `sqlite3`, of SQLite 3.37 or newer. What differs is printed on standard error. The last line is 'N passed, M failed', and
the exit status 1 where M isn't 0.
"""

import ctypes
import json
import os
import re
import shutil
import sqlite3
import sys
import tempfile
from contextlib import closing
from dataclasses import dataclass
from pathlib import Path
from types import SimpleNamespace

import office
from office import TABLES, TOP, ZONE, Book, build, instant, rosterbook
from reports import A_LATE_PERIOD, MEMBERS, carry_out
from server import serving

GREATEST = "9223372036854775807"

# ---- What is written in tests/tables


def text_of(name):
    return (TOP / "tests" / "tables" / name).read_text(encoding="utf-8")


def read(name):
    """The lines that aren't indented, each with the list of the indented ones below it."""
    found = []
    for line in re.sub(r"\\\n *", "", text_of(name)).splitlines():
        if line.startswith(" "):
            found[-1][1].append(line.strip())
        elif not line.startswith("#"):
            found.append((line, []))
    return found


FIRST = text_of("version_1.sql")
LATER = text_of("version_2.sql")  # what makes a book of version 2 of one of version 1
STORY = read("story.txt")
MEMBER = STORY[0][0]
FLY = next(kept for kept, _ in STORY if '"do":"actual"' in kept)

# ---- Databases and the program


def database(file, statements):
    """The file, after these statements."""
    with closing(sqlite3.connect(file)) as opened:
        opened.executescript(f"PRAGMA synchronous = OFF; BEGIN; {statements}; COMMIT")
    file.touch()  # (no statement makes no file)
    return file


def told(file, of=""):
    """All rows, those of the schema too, as lines of a table's name and the values; those that begin so. Of a copy, so that the
    log of the file stays."""
    with tempfile.TemporaryDirectory() as copy:
        for part in file.parent.glob(f"{file.name}*"):
            shutil.copy(part, copy)
        with closing(sqlite3.connect(Path(copy) / file.name)) as opened:
            opened.text_factory = lambda text: text.decode(errors="surrogateescape")
            tables = [name for (name,) in opened.execute("SELECT name FROM sqlite_schema WHERE type = 'table'")]
            found = [(table, row) for table in ("sqlite_schema", *tables) for row in opened.execute(f"SELECT * FROM {table}")]
    lines = [f"{table} " + "|".join("" if value is None else str(value) for value in row) for table, row in found]
    return sorted(line for line in lines if line.startswith(of))


def rows(file):
    return [line for line in told(file) if not line.startswith("sqlite_schema ")]


def sound(version, statements=""):
    """The statements that make the sound book of this version, which differs from the one of the SQL files by some statements."""
    return FIRST + statements + (";" + LATER if version == 2 else "")


def lower(file, other):
    """Makes a book of version 1 in another file, with the rows that the book in this file has in the tables of version 1."""
    database(other, FIRST[: FIRST.index("INSERT")])
    with closing(sqlite3.connect(other)) as opened:
        opened.execute("ATTACH ? AS second", (str(file),))
        for (table,) in opened.execute("SELECT name FROM sqlite_schema WHERE type = 'table'").fetchall():
            opened.execute(f"INSERT INTO {table} SELECT * FROM second.{table}")
        opened.execute("UPDATE book SET version = 1")
        opened.commit()


def migrated(lines):
    """The rows that a book of version 1 with these rows has after it was opened, as docs/FORMATS.md has it: those of version 2."""
    (book,) = (line for line in lines if line.startswith("book "))
    members = [line.split(" ")[1].split("|")[0] for line in lines if line.startswith("crew ")]
    zone = book.removeprefix("book 1|1|")
    others = [line for line in lines if line != book]
    return sorted([*others, f"book 1|2|{zone}", f"base HOME|{zone}", *(f"crew_base {crew}|HOME" for crew in members)])


def ran(*words, given="", **options):
    """What the program writes, standard error after `! `, and its exit status where that isn't 0."""
    done = rosterbook(*words, given=given, **options)
    return done.out + "".join(f"! {line}\n" for line in done.err.splitlines()) + (f"[{done.status}]\n" if done.status else "")


# What an order in words names, in turn.
NAMED = {
    "add-base": ("base", "zone"),
    "add-crew": ("crew", "seat", "name", "base"),
    "cancel-pairing": ("pairing",),
    "assign": ("pairing", "crew"),
    "release": ("pairing", "crew"),
    "swap": ("pairing", "crew", "other_pairing", "other_crew"),
    "add-ground": ("ground", "crew", "begin", "end", "task"),
    "cancel-ground": ("ground",),
}


def order(words):
    """An order in words, or by the text that it is kept as."""
    if words.startswith("{"):
        return json.loads(words)
    do, *texts = words.split()
    if do == "fly":
        return {**json.loads(FLY), "pairing": texts[0], "period": int(texts[1])}
    if do == "record-outside":
        begin, end = (instant(int(texts.pop(2))) for _ in range(2))
        segments = [{"out": begin, "in": end}]
        return {"do": do, "outside": texts[0], "crew": texts[1], "report": begin, "release": end, "segments": segments}
    if do == "add-ground":
        begin = int(texts.pop())
        texts += [instant(begin), instant(begin + 1), "Drill"]
    return {"do": do, **dict(zip(NAMED[do], texts))}


def asked(file, words, number=100):
    """What `do` answers to an order under this number."""
    return ran("do", file, given=json.dumps({"number": int(number), **order(words)}))


def imported(file, number, pairings):
    """What `import` answers to these pairings, all of the same times."""
    times = "1,2025-06-10T11:00Z,2025-06-10T20:00Z,RB1,BOS,2025-06-10T12:00Z,IAD,2025-06-10T19:30Z"
    lines = ["pairing,period,report,release,flight,from,out,to,in", *(f"{pairing},{times}" for pairing in pairings)]
    return ran("import", file, number, given="\n".join([*lines, ""]))


# ---- What is wanted, as docs/FORMATS.md has it


def reply(text):
    """The JSON of `accepted` with exceedances, or of a refusal by its number and name, with its limits or its period."""
    word, *rest = text.split()
    name = "" if word == "accepted" else rest.pop(0)
    broken = [{"crew": crew, "section": section} for crew, section in zip(rest[::2], rest[1::2])]
    found = {"name": name, "refusal": int(word), "result": "refused"} if name else {"exceedances": broken, "result": "accepted"}
    if name and rest:
        found |= {"limits": broken} if name == "Limits" else {"period": int(rest[0])}
    return json.dumps(found, sort_keys=True, separators=(",", ":"))


def answer(text):
    """What `do` answers, where that is the reply."""
    return reply(text) + ("\n" if text.startswith("accepted") else "\n[1]\n")


def refused(text):
    """What the program answers, where it stops for that."""
    return f"! refused {text}\n[3]\n"


def of_nothing(text):
    """What `do` answers to a request of no bytes: it reads that only of a book that it has loaded."""
    return '{"field":"body","name":"BadJson","refusal":31,"result":"refused"}\n[1]\n' if text == "loaded" else refused(text)


@dataclass
class Desk:
    """A folder with one database, and how many answers were right."""

    room: Path
    passed: int = 0
    failed: int = 0

    def file(self):
        """A file that isn't there, in the place of the one before."""
        for old in self.room.iterdir():
            old.unlink()
        return self.room / "book.db"

    def book(self):
        """An empty book that the program makes."""
        file = self.file()
        self.expect("an empty book", ran("init", file, ZONE), "ready\n")
        return file

    def expect(self, name, got, wanted):
        self.passed += got == wanted
        self.failed += got != wanted
        if got != wanted:
            print(f"tests/tables.py: {name}\nwanted: {wanted}\ngot: {got}", file=sys.stderr)

    def expect_kept(self, name, file, call, wanted):
        """That the call answers this, and leaves all rows as they were."""
        before = told(file)
        self.expect(name, call() + ("" if told(file) == before else "and other rows\n"), wanted)

    def expect_migrated(self, name, file, call, wanted):
        """That the call answers this, and makes a book of version 2 of the one of version 1: its rows, and four tables more."""
        before, schema = rows(file), told(file, "sqlite_schema ")
        answered = call()
        self.expect(name, answered + ("" if rows(file) == migrated(before) else "and other rows\n"), wanted)
        later = [line for line in told(file, "sqlite_schema ") if line not in schema]
        self.expect(f"{name}: its tables", sorted(name_of(line) for line in later), sorted(LATER_NAMES))


# The tables that version 2 has more, and the indexes by which SQLite keeps their keys.
LATER_TABLES = ("base", "crew_base", "outside", "outside_segment")
LATER_NAMES = [*LATER_TABLES, *(f"sqlite_autoindex_{table}_1" for table in LATER_TABLES), "sqlite_autoindex_outside_2"]


def name_of(line):
    """What a row of the schema names."""
    return line.split("|")[1]


# ---- What is tried


def long_pairing(periods, segments):
    """Statements that add a P3 of this many periods of a day, each of this many segments of an hour."""
    statements = "INSERT INTO pairing VALUES ('P3');"
    for period in range(1, periods + 1):
        begin = 13_400_000 + 1_440 * period
        statements += f"INSERT INTO period VALUES ('P3', {period}, {begin}, {begin + 1_440}, NULL, NULL);"
        for number in range(1, segments + 1):
            times = f"{begin + 60 * number}, {begin + 60 * number + 60}, NULL, NULL"
            statements += f"INSERT INTO segment VALUES ('P3', {period}, {number}, 'RB1', 'BOS', 'BOS', {times});"
    return statements


def damages(name):
    """The statements of a file, each with what is answered of its book after them, and the versions of such books."""
    for heading, lines in read(name):
        wanted, _, version = heading.partition(" of version ")
        for line in lines:
            before, _, rest = line.partition("<")
            inside, _, after = rest.partition(">")
            for one in inside.split(" | "):
                yield before + one + after, wanted, (int(version),) if version else (1, 2)


def long_pairings():
    """The same of pairings that are as long as may be, and longer."""
    yield long_pairing(10, 12), "loaded", (1, 2)
    for periods, segments in ((11, 1), (1, 13), (10, 13)):
        yield long_pairing(periods, segments), "41 Damaged segment", (1, 2)


def try_damages(desk):
    for statements, wanted, versions in (*damages("damages.txt"), *long_pairings()):
        for version in versions:
            try_damage(desk, version, statements, wanted, wanted == "loaded" and 1 in versions)
    for version in (1, 2):
        file = database(desk.file(), sound(version) + "DELETE FROM seat WHERE pairing = 'P1' AND seat = 1")
        desk.expect("damaged", ran("do", file), of_nothing("41 Damaged seat"))
        desk.expect("mended", ran("do", database(file, "INSERT INTO seat VALUES ('P1', 1, 'F1')")), of_nothing("loaded"))


def try_damage(desk, version, statements, wanted, is_of_both):
    """A book of this version after these statements, or, where they are of both versions, made of one of version 1 after them. What
    isn't loaded stays as it is, and what is loaded is of version 2 then."""
    file = database(desk.file(), sound(version, statements) if is_of_both else sound(version) + statements)
    expect = desk.expect_migrated if wanted == "loaded" and version == 1 else desk.expect_kept
    expect(f"version {version}: {statements}", file, lambda: ran("do", file), of_nothing(wanted))


# F1 flies for another certificate holder a minute less than ten hours after the late period, which is request 114.
TOO_SOON_AFTER_IT = "114 outside X1 F1 11: 17:29 | 17:30-18:00, 18:00-18:30 | 18:30"


def try_late_book(desk):
    """Damages of a book that the program made."""
    with tempfile.TemporaryDirectory() as room:
        book = Book.made(room)
        desk.expect("the late book", carry_out(book, f"{MEMBERS}{A_LATE_PERIOD}{TOO_SOON_AFTER_IT}"), [])
        for statements, wanted, _ in damages("late.txt"):
            file = database(book.copy().file, statements)
            desk.expect_kept(f"late: {statements}", file, lambda: ran("do", file), of_nothing(wanted))


def try_no_books(desk):
    crew = "CREATE TABLE crew (id TEXT NOT NULL, seat INTEGER NOT NULL, name TEXT NOT NULL, PRIMARY KEY (id)) STRICT"
    for statements in ("", "CREATE TABLE t (x INTEGER) STRICT", crew):
        file = database(desk.file(), statements)
        desk.expect_kept(f"no book: {statements}", file, lambda: ran("do", file), of_nothing("40 NotABook"))


def answers(name):
    """The statements of a file, each with what a book is asked after them, in words, and what it answers."""
    for statements, lines in read(name):
        for words, wanted in (it.split(": ") for line in lines for it in line.split(" | ")):
            yield statements, words, wanted


def try_answer(desk, name, statements, words, wanted):
    """What a book of these statements answers."""
    file = database(desk.file(), statements)
    number, rest = words.split(" ", 1) if words[0].isdigit() else (100, words)
    desk.expect(f"{name}: {words}", asked(file, rest, number), answer(wanted))


# Each subcommand that opens a book, where FILE stands for the file; tests/serve.py tries `serve`.
SUBCOMMANDS = (
    "do FILE", "do FILE --dry-run", "do FILE --lines", "do FILE --lines --dry-run", "import FILE 1", "roster FILE C1", "pairing FILE P1",
    "limits FILE C1", "limits FILE C1 --with P1", "exceedances FILE", "members FILE", "pairings FILE", "pairings FILE --open",
    "members FILE --json",
)  # fmt: skip


def expect_refused(desk, name, file, wanted, **options):
    """That each subcommand is refused with this."""
    for words in SUBCOMMANDS:
        called = [file if word == "FILE" else word for word in words.split()]
        desk.expect(f"{name}: {words}", ran(*called, **options), refused(wanted))


def try_subcommands(desk):
    """What each subcommand says of a file that isn't a book, or of a book that can't be opened. The file keeps what it has."""
    file = desk.file()
    expect_refused(desk, "no file", file, "40 NotABook")
    desk.expect("that no file was made", file.exists(), False)
    for statements, wanted in (
        ("CREATE TABLE t (x INTEGER) STRICT", "40 NotABook"),
        (sound(2) + "DELETE FROM seat WHERE pairing = 'P1' AND seat = 1", "41 Damaged seat"),
        (sound(2) + "UPDATE book SET version = 3", "42 Version"),
    ):
        file = database(desk.file(), statements)
        before = told(file)
        expect_refused(desk, statements, file, wanted)
        desk.expect(f"{wanted}: the rows", told(file), before)
    file, text = desk.file(), "".join(f"{line}\n" for line in range(1000))
    file.write_text(text)
    expect_refused(desk, "a text", file, "90 Store")
    desk.expect("the text", file.read_text(), text)
    expect_refused(desk, "a folder", desk.room, "90 Store")


def try_rights(desk):
    """What each subcommand says of a book that may not be read, or not be written."""
    file = desk.book()
    before = told(file)
    for mode in (0o000, 0o200, 0o400):
        file.chmod(mode)
        expect_refused(desk, f"rights {mode:03o}", file, "90 Store", preexec_fn=as_another)
    file.chmod(0o600)
    desk.expect("with its rights", ran("members", file, preexec_fn=as_another), "MEMBERS 0\n")
    desk.expect("the rows", told(file), before)


# As linux/prctl.h and linux/capability.h have them.
PR_CAPBSET_DROP = 24
CAP_DAC_OVERRIDE = 1
CAP_DAC_READ_SEARCH = 2


def as_another():
    """Takes from a process of root that it may open each file, whatever the file's rights are."""
    if os.geteuid() == 0:
        for capability in (CAP_DAC_OVERRIDE, CAP_DAC_READ_SEARCH):
            if ctypes.CDLL(None).prctl(PR_CAPBSET_DROP, capability, 0, 0, 0):
                raise OSError(f"the capability {capability} of root can't be dropped")


def try_answers(desk):
    for version in (1, 2):
        for statements, words, wanted in answers("answers.txt"):
            try_answer(desk, f"version {version}: {statements}", sound(version, statements), words, wanted)
        file = database(desk.file(), sound(version))
        desk.expect("a held part", imported(file, "13", ["P4", "P5"]), "1 accepted\n2 refused 1 NumberUsed\n[1]\n")
    for statements, words, wanted in (*answers("bases.txt"), *answers("outside.txt")):
        try_answer(desk, statements, sound(2) + statements, words, wanted)


def try_story(desk):
    """Each call opens the book anew. After each order those before it are asked again, and act once."""
    file, wanted, held = desk.book(), [f"base HOME|{ZONE}", f"book 1|2|{ZONE}"], []
    desk.expect("its rows", rows(file), wanted)
    for number, (kept, (line, *changes)) in enumerate(STORY, 1):
        text, _, anew = line.partition(", then ")
        for sign, row in (change.split(" ", 1) for change in changes):
            wanted = [*wanted, row] if sign == "+" else [it for it in wanted if not it.startswith(row)]
        wanted = sorted([*wanted, f"request {number}|0|{kept}|{reply(text)}"])
        held.append((number, kept, answer(text)))
        desk.expect(kept, asked(file, kept, number), answer(text))
        desk.expect(f"the rows after {kept}", rows(file), wanted)
        if anew:
            desk.expect_kept(f"anew {kept}", file, lambda: asked(file, kept), answer(anew))
        for before, other, as_then in held:
            desk.expect_kept(f"again {other}", file, lambda: asked(file, other, before), as_then)
    another = "add-crew C3 captain Moe"
    for before, other, _ in held:
        desk.expect_kept(f"in the place of {other}", file, lambda: asked(file, another, before), answer("1 NumberUsed"))
    desk.expect("a free number", asked(file, another, len(STORY) + 1), answer("accepted"))


def period_of_twelve(day):
    """Twelve flights, from BOS to IAD and back in turn, each of which ends on the hour."""
    ports = ("BOS", "IAD") * 7
    segments = []
    for i in range(12):
        times = {"out": f"{day}T{i:02}:10Z", "in": f"{day}T{i + 1:02}:00Z"}
        segments.append({"flight": f"RB{i + 1}", "from": ports[i], "to": ports[i + 1], **times})
    return {"report": f"{day}T00:00Z", "release": f"{day}T12:30Z", "segments": segments}


def try_long_pairing(desk):
    file = desk.book()
    periods = [period_of_twelve(f"2025-06-{day:02}") for day in range(1, 11)]
    kept = json.dumps({"do": "add-pairing", "pairing": "P1", "periods": periods})
    desk.expect("a long pairing", asked(file, kept), answer("accepted"))
    desk.expect("its rows", [len(told(file, f"{table} ")) for table in ("pairing", "period", "segment")], [1, 10, 120])
    for row in (
        "pairing P1",
        "period P1|1|13367520|13368270||",
        "period P1|10|13380480|13381230||",
        "segment P1|1|1|RB1|BOS|IAD|13367530|13367580||",
        "segment P1|7|5|RB5|BOS|IAD|13376410|13376460||",
        "segment P1|10|12|RB12|IAD|BOS|13381150|13381200||",
    ):
        desk.expect(f"the row {row}", told(file, row), [row])


def try_greatest_key(desk):
    """All parts of an import of 10,000 pairings but the last are refused; one more pairing is one too many."""
    file = desk.book()
    desk.expect("two pairings", imported(file, "1", ["P1", "P2"]), "1 accepted\n2 accepted\n")
    pairings = ["P1", "P2"] * 4_999 + ["P1", "P3"]
    wanted = "".join(f"{part} refused 5 PairingExists\n" for part in range(1, 10_000)) + "10000 accepted\n[1]\n"
    kept = (
        '{"do":"add-pairing","pairing":"P3","periods":[{"release":"2025-06-10T20:00Z","report":"2025-06-10T11:00Z","segments":['
        '{"flight":"RB1","from":"BOS","in":"2025-06-10T19:30Z","out":"2025-06-10T12:00Z","to":"IAD"}]}]}'
    )
    row = f"request {GREATEST}|10000|{kept}|{reply('accepted')}"
    desk.expect("10,000 parts", imported(file, GREATEST, pairings), wanted)
    desk.expect("the greatest key", told(file, f"request {GREATEST}|"), [row])
    desk.expect_kept("10,000 parts again", file, lambda: imported(file, GREATEST, pairings), wanted)
    refused_whole = "! refused 30 BadCsv 10002\n[1]\n"  # the header is the first record
    desk.expect_kept("10,001 parts", file, lambda: imported(file, GREATEST, [*pairings, "P4"]), refused_whole)
    desk.expect("the greatest number", asked(file, MEMBER, GREATEST), answer("accepted"))
    desk.expect("its rows", told(file, f"request {GREATEST}|"), [f"request {GREATEST}|0|{MEMBER}|{reply('accepted')}", row])


def try_stopped_imports(desk):
    """An import of P10, P20 and P30 into a book that has P20 at other times: handed in once, and again after a stop behind its first
    part or its second."""
    lines = ("1 accepted\n", "2 refused 5 PairingExists\n", "3 accepted\n")
    pairings = ["P10", "P20", "P30"]
    other = next(kept for kept, _ in STORY if '"pairing":"P2"' in kept).replace('"P2"', '"P20"')
    ends = []
    for parts in (3, 1, 2):
        file = desk.book()
        desk.expect("P20", asked(file, other, 2), answer("accepted"))
        desk.expect(f"{parts} parts", imported(file, "500", pairings[:parts]), "".join(lines[:parts]) + "[1]\n" * (parts > 1))
        desk.expect(f"all parts after {parts}", imported(file, "500", pairings), "".join(lines) + "[1]\n")
        ends.append(rows(file))
        desk.expect("its pairings", told(file, "pairing "), ["pairing P10", "pairing P20", "pairing P30"])
        desk.expect("P20 as it was", told(file, "period P20|"), ["period P20|1|13386900|13387440||"])
        desk.expect("its parts", [line.split("|")[1] for line in told(file, "request 500|")], ["1", "3"])
    desk.expect("the rows after a stop", ends[1:], ends[:1] * 2)


def try_making(desk):
    home = [f"base HOME|{ZONE}", f"book 1|2|{ZONE}"]
    member = [*home, "crew C1|0|Ada Ray", "crew_base C1|HOME", f"request 1|0|{MEMBER}|{reply('accepted')}"]
    file = desk.book()
    desk.expect("a member", asked(file, MEMBER, 1), answer("accepted"))
    desk.expect_kept("a second book", file, lambda: ran("init", file, "UTC0"), refused("43 NotEmpty"))
    desk.expect("the rows of the first", rows(file), member)
    file = database(desk.file(), "CREATE TABLE t (x INTEGER) STRICT; INSERT INTO t VALUES (7), (8)")
    desk.expect("a book beside a table", ran("init", file, ZONE), "ready\n")
    desk.expect("a member beside it", asked(file, MEMBER, 1), answer("accepted"))
    desk.expect("the rows of both", rows(file), [*member, "t 7", "t 8"])
    taken = [f"CREATE TABLE {table.title()} (x INTEGER) STRICT; INSERT INTO {table} VALUES (7)" for table in TABLES]
    for statements in (*taken, *(f"CREATE TABLE t (x INTEGER REFERENCES {table}) STRICT" for table in TABLES)):
        file = database(desk.file(), statements)
        desk.expect_kept(statements, file, lambda: ran("init", file, "UTC0"), refused("43 NotEmpty"))
    desk.expect("a book in a folder", ran("init", desk.room, ZONE), refused("90 Store"))


# ---- An index of the office's own, as README has it

OWN_INDEX = re.search(r"CREATE INDEX [^'\"]*", (TOP / "README.md").read_text())[0]
FIRST_OF_YEARS = 11_789_280  # 2022-06-01T00:00Z
PAIRINGS_OF_YEARS, LONG_REQUESTS = 3_000, 800
AFTER_YEARS = """
    plan N1 20: 11:00 | 12:00-15:00, 16:00-19:00 | 19:30
    plan N2 21: 04:00 | 05:00-06:00 | 06:30
    plan N3 20: 18:00 | 18:30-19:30 | 20:00
    plan N4 24: 11:00 | 12:00-15:00 | 15:30; 25: 11:00 | 12:00-15:00 | 15:30
    assign N1 C1
    assign N1 F1
    assign N2 C1
    assign N3 C1
    assign N3 C2
    assign N4 C1
    swap N4 C1 P2 C2
    swap P2 C1 N3 C2
    train G2 20: 12:00-13:00
    train G3 22: 12:00-13:00
    outside X1 C1 26: 01:00 | 02:00-03:00 | 03:30
    fly N1 1 20: 11:00 | 12:00-15:00, 16:00-+1 01:00 | +1 01:30
    release N4 C2
    cancel N4
"""
OWN_REPORTS = ("roster FILE C1", "limits FILE C1", "limits FILE C1 --with N2", "pairing FILE Y0", "pairings FILE", "exceedances FILE")


def pairings_of_years(count, one_of):
    """Statements that add so many pairings, one after the other in the three years before June 2025. C1 and F1 hold one of so many, and
    have flown every second of these, five minutes late."""
    begin = f"({FIRST_OF_YEARS} + {3 * 525_600 // count} * n)"
    late = f"CASE WHEN n % {2 * one_of} = 0 THEN {begin} + "
    statements = (
        f"CREATE TEMP TABLE years AS WITH RECURSIVE years (n) AS (VALUES (0) UNION ALL SELECT n + 1 FROM years WHERE n < {count - 1})"
        " SELECT n, 'Y' || n AS id FROM years; INSERT INTO pairing SELECT id FROM years;"
        f"INSERT INTO period SELECT id, 1, {begin}, {begin} + 390, {late} 5 END, {late} 395 END FROM years;"
    )
    for number, start, end, block_out, block_in in ((1, "BOS", "IAD", 60, 180), (2, "IAD", "BOS", 240, 360)):
        times = f"{begin} + {block_out}, {begin} + {block_in}, {late} {block_out + 5} END, {late} {block_in + 5} END"
        statements += f"INSERT INTO segment SELECT id, 1, {number}, 'RB{number}', '{start}', '{end}', {times} FROM years;"
    for seat, crew in enumerate(("C1", "F1")):
        statements += f"INSERT INTO seat SELECT id, {seat}, '{crew}' FROM years WHERE n % {one_of} = 0;"
    return statements


def without_and_with(desk, statements):
    """Two files of a sound book after these statements, of which the second has the index too."""
    file = database(desk.file(), sound(2) + statements)
    other = file.with_name("own.db")
    shutil.copy(file, other)
    return file, database(other, OWN_INDEX)


def requests(texts, first=1):
    return "".join(f"{json.dumps({'number': number, **it})}\n" for number, it in enumerate(texts, first))


def try_own_index(desk):
    """All answers and reports are the same with the index and without it, and so are the rows; it stays, and has all of them."""
    of_years = [office.order(line.strip()) for line in AFTER_YEARS.strip().splitlines()]
    for name, statements, asked_of in (
        ("the story", None, requests(json.loads(kept) for kept, _ in STORY)),
        ("a book of years", pairings_of_years(300, 3), requests(of_years, 500)),
    ):
        if statements is None:
            files = desk.book(), desk.room / "own.db"
            shutil.copy(*files)
            database(files[1], OWN_INDEX)
        else:
            files = without_and_with(desk, statements)
        for words in ("do FILE --lines --dry-run", "do FILE --lines", "do FILE --lines", *OWN_REPORTS):
            answers = [ran(*(file if it == "FILE" else it for it in words.split()), given=asked_of) for file in files]
            desk.expect(f"with an index of its own, {name}: {words}", answers[1], answers[0])
        desk.expect(f"with an index of its own, {name}: the rows", rows(files[1]), rows(files[0]))
        left = [line for line in told(files[1], "sqlite_schema ") if line not in told(files[0], "sqlite_schema ")]
        desk.expect(f"{name}: the index", [(name_of(line), line.endswith(OWN_INDEX)) for line in left], [("period_times", True)])
        with closing(sqlite3.connect(files[1])) as opened:
            desk.expect(f"{name}: the file", opened.execute("PRAGMA integrity_check").fetchall(), [("ok",)])
            planned = opened.execute("EXPLAIN QUERY PLAN SELECT * FROM period WHERE pairing = 'P1'").fetchall()
            desk.expect(f"{name}: SQLite goes by it", "COVERING INDEX period_times" in planned[0][3], True)


def long_requests(count):
    """Statements that add so many kept requests, each of a pairing of 120 flights."""
    periods = [period_of_twelve(f"2025-06-{day:02}") for day in range(1, 11)]
    kept = office.compact({"do": "add-pairing", "pairing": "P9", "periods": periods})
    numbers = f"WITH RECURSIVE numbers (n) AS (VALUES (1000) UNION ALL SELECT n + 1 FROM numbers WHERE n < {999 + count})"
    return f"INSERT INTO request {numbers} SELECT n, 0, '{kept}', '{reply('accepted')}' FROM numbers;"


def reads_of(file):
    """How often a server reads its file for the first assignment that it judges; None where the system doesn't say."""
    body = json.dumps({"number": 100, "do": "assign", "pairing": "Y1", "crew": "C1"}).encode()
    asking = b"POST /checks HTTP/1.1\r\nHost: localhost\r\nContent-Length: %d\r\n\r\n%s" % (len(body), body)
    with serving(SimpleNamespace(file=file)) as server:
        before = server.file_reads()
        answer = server.exchange(asking)
        if b'"name":"Limits"' not in answer:
            raise RuntimeError(f"an assignment is answered {answer}")
        return None if before is None else server.file_reads() - before


def try_fewer_reads(desk):
    """A member is judged by fewer reads with the index, if the program doesn't have in memory what it reads: it keeps 8 MB of a file, and the
    requests, which it reads after the pairings when it opens the book, are more."""
    counted = [reads_of(file) for file in without_and_with(desk, pairings_of_years(PAIRINGS_OF_YEARS, 10) + long_requests(LONG_REQUESTS))]
    if None in counted:
        print("tests/tables.py: reads weren't counted, since /proc/PID/io isn't there", file=sys.stderr)
        return
    desk.expect(f"with an index of its own {counted[1]} reads, and {counted[0]} without it", counted[1] < counted[0], True)


def is_refused(file, table, values):
    """Whether the table refuses to keep a row of these values."""
    try:
        database(file, f"INSERT INTO {table} VALUES {values}")
    except sqlite3.IntegrityError:
        return True
    return False


def try_refused_rows(desk):
    file = desk.book()
    for held, refused_rows in read("refused.txt"):
        table, values = held.split(" ", 1)
        if table not in ("book", "base"):
            database(file, f"INSERT INTO {table} VALUES {values}")
        for row in refused_rows:
            desk.expect(f"{table} {row} is refused", is_refused(file, table, row), True)


TRIED = (
    try_damages,
    try_late_book,
    try_no_books,
    try_subcommands,
    try_rights,
    try_answers,
    try_story,
    try_long_pairing,
    try_greatest_key,
    try_stopped_imports,
    try_making,
    try_refused_rows,
    try_own_index,
    try_fewer_reads,
)


def main():
    if sqlite3.sqlite_version_info < (3, 37):
        sys.exit("tests/tables.py: Python's sqlite3 has to be of SQLite 3.37 or newer")
    if not build():
        return 3
    with tempfile.TemporaryDirectory() as room:
        desk = Desk(Path(room))
        for tried in TRIED:
            tried(desk)
    print(f"{desk.passed} passed, {desk.failed} failed")
    return 1 if desk.failed else 0


if __name__ == "__main__":
    sys.exit(main())
