#!/usr/bin/env python3
"""Makes books of a small airline, and the commands that are timed on them. The times are drawn with a fixed seed.

    airline.py fill BOOK TIMES [YEARS]  fills an empty book with a year, of this many airlines together, or with several years
    airline.py ask FOLDER TIMES COUNT   writes the commands for it, a file of lines each kind
    airline.py same BOOK OTHER          whether two books have the same rows in all tables

The year of one airline: 30 captains and 30 first officers fly 9,000 of 10,000 pairings, each pair six days a week, in two segments a
day. The book has 50,000 requests: each member and pairing is added, both seats are assigned, 6,470 captains are released and take
their seats again, and 9,000 periods are flown. The commands are of the January after it. Without a year, TIMES is 0. Each of
several years is like that, with the same members; the last one is 2025, and the ids of pairings count on.
"""

import json
import random
import sqlite3
import sys
from datetime import datetime, timedelta
from pathlib import Path

from rows import changes, opened

PAIRS, FLOWN, OPEN, TAKEN_AGAIN = 30, 9_000, 1_000, 6_470  # of one airline
YEAR, JANUARY = datetime(2025, 1, 1), datetime(2026, 1, 1)
FIRST_NUMBER = 100_000_000  # of the commands that are timed
ACCEPTED = {"exceedances": [], "result": "accepted"}
SEATS = {"captain": "C", "first officer": "F"}


def written(moment):
    return f"{moment:%Y-%m-%dT%H:%MZ}"


def period(report, blocks):
    """A period of flights from BOS to IAD and back, with the minutes from the report to each block-out and block-in."""
    ports, found = ("BOS", "IAD"), []
    for at, (block_out, block_in) in enumerate(blocks):
        start, end = ports if at % 2 == 0 else ports[::-1]
        times = {"out": written(report + timedelta(minutes=block_out)), "in": written(report + timedelta(minutes=block_in))}
        found.append({"flight": f"RB{at + 1}", "from": start, "to": end, **times})
    release = report + timedelta(minutes=blocks[-1][1] + 30)
    return {"report": written(report), "release": written(release), "segments": found}


def day_of_flying(rng, day):
    """A period of two segments that begins between 11:00 and 13:00 UTC, which takes five to six hours."""
    report = day + timedelta(minutes=660 + rng.randrange(120))
    first, second = 60 + rng.randrange(20), 60 + rng.randrange(20)
    turn = 45 + first + 60 + rng.randrange(30)
    return period(report, [(45, 45 + first), (turn, turn + second)])


def adding(pairing, one):
    return {"do": "add-pairing", "pairing": pairing, "periods": [one]}


def assigning(do, pairing, crew):
    return {"do": do, "pairing": pairing, "crew": crew}


def flying(pairing, one):
    times = {**one, "segments": [{name: it[name] for name in ("out", "in")} for it in one["segments"]]}
    return {"do": "actual", "pairing": pairing, "period": 1, **times}


def hiring(letters, number):
    """A captain and a first officer."""
    for seat, letter in SEATS.items():
        yield {"do": "add-crew", "crew": f"{letter}{letters}{number}", "seat": seat, "name": "Ada Ray"}


# ---- Years.


def years(airlines, count):
    """The commands that made the book, in their order: those of the years up to, and with, 2025."""
    rng = random.Random(117)
    for pair in range(PAIRS * airlines):
        yield from hiring("", pair)
    for at in range(count):
        yield from year(rng, airlines, at, YEAR.replace(year=YEAR.year - count + 1 + at))


def year(rng, airlines, at, begin):
    """The commands of the year that begins then, in which so many years have been before it."""
    flown, of_open = FLOWN * airlines, OPEN * airlines
    for turn in range(flown):
        day, pair = divmod(turn, PAIRS * airlines)
        one = day_of_flying(rng, begin + timedelta(days=day // 6 * 7 + day % 6))
        pairing = f"P{at * flown + turn}"
        yield adding(pairing, one)
        for letter in SEATS.values():
            yield assigning("assign", pairing, f"{letter}{pair}")
        if turn < TAKEN_AGAIN * airlines:
            for do in ("release", "assign"):
                yield assigning(do, pairing, f"C{pair}")
        yield flying(pairing, one)
    for turn in range(of_open):
        yield adding(f"O{at * of_open + turn}", day_of_flying(rng, begin + timedelta(days=turn % 365)))


def fill(file, airlines, count=1):
    book = opened(file)
    book.execute("BEGIN")
    for number, command in enumerate(years(int(airlines), int(count)), 1):
        seat = [*SEATS.values()].index(command["crew"][0]) if "crew" in command else None
        for text, values in changes(number, command, ACCEPTED, seat):
            book.execute(text, values)
    book.execute("COMMIT")
    book.execute("PRAGMA wal_checkpoint(TRUNCATE)")


# ---- What is timed.


def commands(airlines, count):
    """The kinds of commands in turn, each with its commands."""
    rng = random.Random(25)
    pairs = [f"{pair}" for pair in range(PAIRS * airlines)] or [f"N{pair}" for pair in range(PAIRS)]
    of_turn = [pairs[turn * 7 % len(pairs)] for turn in range(count)]
    days = [JANUARY + timedelta(days=2 * (turn // PAIRS)) for turn in range(count)]
    plans = [day_of_flying(rng, day) for day in days]
    # Six hours after a day of flying, which leaves too little rest.
    soon = [period(datetime.strptime(it["release"], "%Y-%m-%dT%H:%MZ") + timedelta(hours=6), [(45, 105)]) for it in plans]
    seats = [(turn, f"{letter}{of_turn[turn]}") for turn in range(count) for letter in SEATS.values()]
    yield "add-crew", [it for pair in range(PAIRS) for it in hiring("N", pair)]
    yield "add-pairing", [adding(f"{name}{turn}", it) for name, list in (("Q", plans), ("R", soon)) for turn, it in enumerate(list)]
    taken = [assigning("assign", f"Q{turn}", crew) for turn, crew in seats]
    yield "assign", taken
    yield "assign, sent again", taken
    yield "assign, refused with 6", [assigning("assign", f"Q{turn}", f"C{of_turn[turn - 1]}") for turn in range(count)]
    yield "assign, refused with 12", [assigning("assign", f"R{turn}", f"C{of_turn[turn]}") for turn in range(count)]
    late = [period(datetime.strptime(it["report"], "%Y-%m-%dT%H:%MZ"), [(45, 120), (780 + turn % 120, 860 + turn % 120)]) for turn, it in enumerate(plans)]
    yield "actual", [flying(f"Q{turn}", late[turn] if turn % 10 == 0 else plans[turn]) for turn in range(0, count, 2)]
    yield "release", [assigning("release", f"Q{turn}", crew) for turn, crew in seats if turn % 2]


def ask(folder, airlines, count):
    numbers, number = {}, FIRST_NUMBER
    for at, (kind, asked) in enumerate(commands(int(airlines), int(count)), 1):
        lines = []
        for command in asked:
            number += 1
            # (a command that is sent again comes under its first number)
            key = json.dumps(command)
            numbers[key] = numbers.get(key, number) if kind.endswith("again") else number
            lines.append(json.dumps({"number": numbers[key], **command}, ensure_ascii=False))
        (Path(folder) / f"{at} {kind}").write_text("\n".join(lines) + "\n")


def rows(file):
    book = sqlite3.connect(file)
    names = sorted(name for (name,) in book.execute("SELECT name FROM sqlite_schema WHERE type = 'table'"))
    return {name: sorted(book.execute(f"SELECT * FROM {name}"), key=repr) for name in names}


def same(file, other):
    one, two = rows(file), rows(other)
    if one != two:
        sys.exit(f"airline.py: {file} and {other} differ in {[name for name in one if one[name] != two.get(name)]}")


if __name__ == "__main__":
    {"fill": fill, "ask": ask, "same": same}[sys.argv[1]](*sys.argv[2:])
