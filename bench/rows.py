#!/usr/bin/env python3
"""Writes the rows that accepted commands leave by C SQLite alone, without any rule.

    rows.py BOOK LINES ANSWERS

LINES are requests of JSON and ANSWERS what they were answered, both a line each. Each accepted request is a transaction of its own. One
that was kept already is looked up, and a refused one leaves nothing. The statements and their values are made before the time is
taken. Standard error gets the milliseconds that one took, or `-` where none did anything.
"""

import json
import sqlite3
import sys
import time
from datetime import datetime, timedelta
from pathlib import Path

EPOCH = datetime(2000, 1, 1)
SEATS = {"captain": 0, "first officer": 1}
SECTIONS = (
    "117.11(a)(1)", "117.13(a)", "117.23(b)(1)", "117.23(b)(2)", "117.23(c)(1)", "117.23(c)(2)", "117.25(b)", "117.25(e)",
)  # fmt: skip
KEPT = "SELECT command, reply FROM request WHERE number = ? AND part = 0"


def minute_of(instant):
    """The number of an instant that has no fault."""
    return (datetime.strptime(instant[:16], "%Y-%m-%dT%H:%M") - EPOCH) // timedelta(minutes=1)


def compact(value):
    return json.dumps(value, ensure_ascii=False, separators=(",", ":"), sort_keys=True)


def opened(file):
    """A connection that commits as the program does: each transaction is on the disk, in the log."""
    book = sqlite3.connect(file, isolation_level=None)
    book.execute("PRAGMA locking_mode = EXCLUSIVE")
    book.execute("PRAGMA journal_mode = WAL")
    book.execute("PRAGMA synchronous = FULL")
    return book


def changes(number, command, reply, seat):
    """What an accepted command writes. seat: that of its member, where it names one."""
    match command:
        case {"do": "add-crew", "crew": crew, "seat": word, "name": name}:
            yield "INSERT INTO crew (id, seat, name) VALUES (?, ?, ?)", (crew, SEATS[word], name)
            yield "INSERT INTO crew_base (crew, base) VALUES (?, 'HOME')", (crew,)
        case {"do": "add-pairing", "pairing": pairing, "periods": periods}:
            yield "INSERT INTO pairing (id) VALUES (?)", (pairing,)
            for at, period in enumerate(periods, 1):
                yield from changes_of_period(pairing, at, period)
        case {"do": "assign", "pairing": pairing, "crew": crew}:
            yield "INSERT INTO seat (pairing, seat, crew) VALUES (?, ?, ?)", (pairing, seat, crew)
        case {"do": "release", "pairing": pairing}:
            yield "DELETE FROM seat WHERE pairing = ? AND seat = ?", (pairing, seat)
        case {"do": "actual", "pairing": pairing, "period": period}:
            times = (minute_of(command["report"]), minute_of(command["release"]))
            yield "UPDATE period SET act_report = ?, act_release = ? WHERE pairing = ? AND number = ?", (*times, pairing, period)
            for at, segment in enumerate(command["segments"], 1):
                times = (minute_of(segment["out"]), minute_of(segment["in"]))
                yield "UPDATE segment SET act_out = ?, act_in = ? WHERE pairing = ? AND period = ? AND number = ?", (*times, pairing, period, at)
            for it in reply["exceedances"]:
                values = (number, it["crew"], SECTIONS.index(it["section"]) + 1, pairing, period)
                yield "INSERT INTO exceedance (number, part, crew, section, pairing, period) VALUES (?, 0, ?, ?, ?, ?)", values
    yield "INSERT INTO request (number, part, command, reply) VALUES (?, 0, ?, ?)", (number, compact(command), compact(reply))


def changes_of_period(pairing, number, period):
    values = (pairing, number, minute_of(period["report"]), minute_of(period["release"]))
    yield "INSERT INTO period (pairing, number, report_at, release_at) VALUES (?, ?, ?, ?)", values
    for at, it in enumerate(period["segments"], 1):
        values = (pairing, number, at, it["flight"], it["from"], it["to"], minute_of(it["out"]), minute_of(it["in"]))
        columns = "pairing, period, number, flight, origin, destination, out_at, in_at"
        yield f"INSERT INTO segment ({columns}) VALUES (?, ?, ?, ?, ?, ?, ?, ?)", values


def write(book, statements):
    """Writes all of it in one transaction, or nothing."""
    book.execute("BEGIN IMMEDIATE")
    try:
        for text, values in statements:
            book.execute(text, values)
        book.execute("COMMIT")
    except BaseException:
        book.execute("ROLLBACK")
        raise


def reported(started, count):
    print(f"{(time.perf_counter() - started) * 1_000 / count:.3f}" if count else "-", file=sys.stderr)


def main(file, lines, answers):
    started = time.perf_counter()
    book = opened(file)
    book.execute("SELECT zone FROM book").fetchone()
    if not Path(lines).stat().st_size:
        return reported(started, 1)
    seats, work = dict(book.execute("SELECT id, seat FROM crew")), []
    for line, answer in zip(Path(lines).read_text().splitlines(), Path(answers).read_text().splitlines()):
        command, reply = json.loads(line), json.loads(answer)
        number = command.pop("number")
        if book.execute(KEPT, (number,)).fetchone():
            work.append((number, None))
        elif reply["result"] == "accepted":
            work.append((number, list(changes(number, command, reply, seats.get(command.get("crew"))))))
    started = time.perf_counter()
    for number, statements in work:
        if statements:
            write(book, statements)
        else:
            book.execute(KEPT, (number,)).fetchone()
    return reported(started, len(work))


if __name__ == "__main__":
    main(*sys.argv[1:])
