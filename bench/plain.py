#!/usr/bin/env python3
"""A roster book in plain Python, as a careful programmer would write it without proofs, for comparison.

    plain.py BOOK <LINES >ANSWERS

Answers requests of JSON, a line each, as `rosterbook do` answers them, over the same tables: add-crew (of members of HOME alone, who fly
for no other certificate holder), add-pairing, assign, release and actual. What a command needs is read by key. A member's duties are judged by sorted intervals with running
sums. What is accepted is committed before the next line is looked at. Standard error gets the milliseconds that one took; without any line,
what the opening took.
"""

import json
import os
import re
import sys
import time
from bisect import bisect_left
from datetime import datetime
from typing import NamedTuple

from rows import KEPT, SEATS, SECTIONS, changes, compact, minute_of, opened, reported, write

DAY, UNIX_EPOCH = 1_440, 946_684_800
TABLE_A = ((0, 8), (5 * 60, 9), (20 * 60, 8))
TABLE_B = (
    (0 * 60, (9, 9, 9, 9, 9, 9, 9)),
    (4 * 60, (10, 10, 10, 10, 9, 9, 9)),
    (5 * 60, (12, 12, 12, 12, 11.5, 11, 10.5)),
    (6 * 60, (13, 13, 12, 12, 11.5, 11, 10.5)),
    (7 * 60, (14, 14, 13, 13, 12.5, 12, 11.5)),
    (12 * 60, (13, 13, 13, 13, 12.5, 12, 11.5)),
    (13 * 60, (12, 12, 12, 12, 11.5, 11, 10.5)),
    (17 * 60, (12, 12, 11, 11, 10, 9, 9)),
    (22 * 60, (11, 11, 10, 10, 9, 9, 9)),
    (23 * 60, (10, 10, 10, 9, 9, 9, 9)),
)
SHAPES = {
    "id": re.compile(r"[A-Z0-9-]{1,12}"), "flight": re.compile(r"[A-Z0-9]{1,8}"), "airport": re.compile(r"[A-Z0-9]{3,4}"),
    "name": re.compile(r"[^\x00-\x1f\x7f]+"), "instant": re.compile(r"20\d\d-\d\d-\d\dT\d\d:\d\d(:00)?Z"),
}  # fmt: skip
MEMBERS = {
    "add-crew": ("crew", "seat", "name"), "add-pairing": ("pairing", "periods"), "assign": ("pairing", "crew"),
    "release": ("pairing", "crew"), "actual": ("pairing", "period", "report", "release", "segments"),
}  # fmt: skip


class Refused(Exception):
    """A refusal: its number and its name, and what is said with it."""

    def __init__(self, number, name, **more):
        super().__init__(number, name)
        self.answer = compact({"name": name, "refusal": number, "result": "refused", **more})


# ---- Minutes, duties and limits.


class Minutes:
    """A set of minutes, as sorted disjoint intervals with running sums."""

    def __init__(self, spans):
        self.begins, self.ends, self.sums = [], [], [0]
        for begin, end in sorted(spans):
            if begin >= end:
                continue
            if self.ends and begin <= self.ends[-1]:
                more = max(end - self.ends[-1], 0)
                self.ends[-1] += more
                self.sums[-1] += more
            else:
                self.begins.append(begin)
                self.ends.append(end)
                self.sums.append(self.sums[-1] + end - begin)

    def before(self, minute):
        at = bisect_left(self.begins, minute)
        return self.sums[at] - max(self.ends[at - 1] - minute, 0) if at else 0

    def between(self, begin, end):
        return self.before(end) - self.before(begin)

    def near(self, begin, end):
        """The intervals that may have minutes from begin up to end."""
        first = max(bisect_left(self.begins, begin) - 1, 0)
        last = bisect_left(self.begins, end)
        return zip(self.begins[first:last], self.ends[first:last])

    def most(self, length, begin, end):
        """The most of them in this many minutes in a row that meet those from begin up to end."""
        low, high = begin - length + 1, end - 1
        edges = [it for pair in self.near(low, high + length) for it in pair]
        starts = {low, high, *(at for edge in edges for at in (edge, edge - length) if low <= at <= high)}
        return max(self.between(at, at + length) for at in starts)

    def most_in_days(self, days, begin, end):
        """The most of them in this many days in a row that meet those from begin up to end."""
        first, last = begin // DAY - days + 1, (end - 1) // DAY
        return max(self.between(DAY * at, DAY * (at + days)) for at in range(first, last + 1))

    def is_free(self, begin, end, length):
        """Whether this many minutes in a row, from begin up to end, are none of them."""
        for first, last in self.near(begin, end):
            if first - begin >= length:
                return True
            begin = max(begin, last)
        return end - begin >= length


class Duty(NamedTuple):
    """A flight duty period with its times in force, or a ground duty, which has no segments."""

    planned: int
    report: int
    release: int
    segments: tuple

    @property
    def last_in(self):
        return self.segments[-1][1]


def flight_spans(duties):
    return [segment for duty in duties for segment in duty.segments]


def period_spans(duties):
    return [(duty.report, duty.last_in) for duty in duties if duty.segments]


def duty_spans(duties):
    return [(duty.report, duty.release) for duty in duties]


def row_of(table, minute):
    return next(row for first, row in reversed(table) if first <= minute)


def local_minute(minute):
    clock = time.localtime(UNIX_EPOCH + 60 * minute)
    return 60 * clock.tm_hour + clock.tm_min


def is_longer_than_table_a(duty):
    flight = sum(block_in - block_out for block_out, block_in in duty.segments)
    return bool(duty.segments) and flight > 60 * row_of(TABLE_A, local_minute(duty.planned))


def is_longer_than_table_b(duty):
    if not duty.segments:
        return False
    return duty.last_in - duty.report > 60 * row_of(TABLE_B, local_minute(duty.planned))[min(len(duty.segments), 7) - 1]


def judge(others, new):
    """The sections that the new duties break beside the others, in their order."""
    duties = [*others, *new]
    flight, period, duty = Minutes(flight_spans(duties)), Minutes(period_spans(duties)), Minutes(duty_spans(duties))
    new_flights, new_periods = ([it for it in spans(new) if it[0] < it[1]] for spans in (flight_spans, period_spans))

    def touched(look_back):
        """The reports before which new duties are within this many minutes."""
        added = Minutes(duty_spans(new))
        yield from (it.report for it in new if it.segments)
        yield from (it.report for it in others if it.segments and added.between(it.report - look_back, it.report))

    broken = (
        any(map(is_longer_than_table_a, new)),
        any(map(is_longer_than_table_b, new)),
        any(flight.most(40_320, *it) > 6_000 for it in new_flights),
        any(flight.most_in_days(365, *it) > 60_000 for it in new_flights),
        any(period.most(10_080, *it) > 3_600 for it in new_periods),
        any(period.most(40_320, *it) > 11_400 for it in new_periods),
        any(not duty.is_free(it - 10_080, it, 1_800) for it in touched(10_080)),
        any(duty.between(it - 600, it) for it in touched(600)),
    )
    return [section for section, is_broken in zip(SECTIONS, broken) if is_broken]


# ---- Requests.


def has_shape(text, kind):
    return isinstance(text, str) and bool(SHAPES[kind].fullmatch(text)) and (kind != "name" or len(text.encode()) <= 60)


def instant(value, field):
    """The instant as it is kept."""
    try:
        if not SHAPES["instant"].fullmatch(value):
            raise ValueError(value)
        datetime.strptime(value[:16], "%Y-%m-%dT%H:%M")
    except (TypeError, ValueError):
        raise Refused(31, "BadJson", field=field) from None
    return value[:16] + "Z"


def segments(given, names, field):
    if not isinstance(given, list) or not all(isinstance(it, dict) and {*names, "out", "in"} <= it.keys() for it in given):
        raise Refused(31, "BadJson", field=field)
    texts = [{name: it[name] for name in names} for it in given]
    if not all(isinstance(text, str) for it in texts for text in it.values()):
        raise Refused(31, "BadJson", field=field)
    return [{**text, "out": instant(it["out"], field), "in": instant(it["in"], field)} for text, it in zip(texts, given)]


def period(given):
    if not isinstance(given, dict) or not {"report", "release", "segments"} <= given.keys():
        raise Refused(31, "BadJson", field="periods")
    times = {name: instant(given[name], "periods") for name in ("report", "release")}
    return {**times, "segments": segments(given["segments"], ("flight", "from", "to"), "periods")}


def member(command, name):
    """A member of a request, as the command is kept."""
    value = command.get(name)
    if name == "periods" and isinstance(value, list):
        return [period(it) for it in value]
    if name == "segments":
        return segments(value, (), "segments")
    if name in ("report", "release"):
        return instant(value, name)
    is_text, is_number = isinstance(value, str), type(value) is int
    if is_number and name == "period" and 1 <= value <= 10 or is_text and name != "period" and (name != "seat" or value in SEATS):
        return value
    raise Refused(31, "BadJson", field=name)


def read(line):
    """The number and the command of a request."""
    try:
        given = json.loads(line)
    except ValueError:
        given = None
    if not isinstance(given, dict):
        raise Refused(31, "BadJson", field="body")
    number = given.get("number")
    if type(number) is not int or not 1 <= number < 2**63:
        raise Refused(31, "BadJson", field="number")
    if given.get("do") not in MEMBERS:
        raise Refused(31, "BadJson", field="do")
    command = {"do": given["do"], **{name: member(given, name) for name in MEMBERS[given["do"]]}}
    look_for_faults(command)
    return number, command


def look_for_faults(command):
    for name, kind in (("crew", "id"), ("pairing", "id"), ("name", "name")):
        if name in command and not has_shape(command[name], kind):
            raise Refused(18, "BadField", field=name)
    periods = [command] if command["do"] == "actual" else command.get("periods")
    if periods is None:
        return
    texts = [(it[name], kind) for one in periods for it in one["segments"] for name, kind in (("flight", "flight"), ("from", "airport"), ("to", "airport")) if name in it]
    if not all(has_shape(*it) for it in texts):
        raise Refused(18, "BadField", field="periods")
    if not 1 <= len(periods) <= 10:
        raise Refused(19, "SegmentCount", period=0)
    first = command.get("period", 1)
    for at, one in enumerate(periods, first):
        if not 1 <= len(one["segments"]) <= 12:
            raise Refused(19, "SegmentCount", period=at)
    end, place = None, None
    for at, one in enumerate(periods, first):
        times = [one["report"], *(it[name] for it in one["segments"] for name in ("out", "in")), one["release"]]
        ordered = times == sorted(times) and all(it["out"] < it["in"] for it in one["segments"])
        if not ordered or end is not None and one["report"] < end:
            raise Refused(16, "BadTimes", period=at)
        end = one["release"]
    for at, one in enumerate(periods if "periods" in command else (), first):
        for it in one["segments"]:
            if place not in (None, it["from"]):
                raise Refused(17, "BadChain", period=at)
            place = it["to"]


# ---- The book.


class Book:
    def __init__(self, file):
        self.tables = opened(file)
        os.environ["TZ"] = self.one("SELECT zone FROM book")[0]
        time.tzset()

    def one(self, text, *values):
        return self.tables.execute(text, values).fetchone()

    def duties(self, crew, but=None):
        """The duties of a member, without those of one pairing."""
        times = {}
        for pairing, number, block_out, block_in in self.tables.execute(
            "SELECT segment.pairing, segment.period, coalesce(act_out, out_at), coalesce(act_in, in_at) FROM seat JOIN segment"
            " ON segment.pairing = seat.pairing WHERE crew = ? ORDER BY segment.pairing, segment.period, segment.number",
            (crew,),
        ):
            times.setdefault((pairing, number), []).append((block_out, block_in))
        found = [
            Duty(planned, report, release, tuple(times[pairing, number]))
            for pairing, number, planned, report, release in self.tables.execute(
                "SELECT period.pairing, period.number, report_at, coalesce(act_report, report_at), coalesce(act_release, release_at)"
                " FROM seat JOIN period ON period.pairing = seat.pairing WHERE crew = ?",
                (crew,),
            )
            if pairing != but
        ]
        ground = self.tables.execute("SELECT begin_at, end_at FROM ground WHERE crew = ?", (crew,))
        return found + [Duty(begin, begin, end, ()) for begin, end in ground]

    def periods(self, pairing):
        """The periods of a pairing, by their numbers."""
        found = {}
        for number, block_out, block_in in self.tables.execute(
            "SELECT period, coalesce(act_out, out_at), coalesce(act_in, in_at) FROM segment WHERE pairing = ? ORDER BY period, number", (pairing,)
        ):
            found.setdefault(number, []).append((block_out, block_in))
        text = "SELECT number, report_at, coalesce(act_report, report_at), coalesce(act_release, release_at) FROM period WHERE pairing = ?"
        return {number: Duty(*times, tuple(found[number])) for number, *times in self.tables.execute(text, (pairing,))}

    def seats(self, pairing):
        return dict(self.tables.execute("SELECT seat, crew FROM seat WHERE pairing = ? ORDER BY seat", (pairing,)))

    def answer(self, line):
        try:
            number, command = read(line)
            kept = self.one(KEPT, number)
            if kept:
                if kept[0] != compact(command):
                    raise Refused(1, "NumberUsed")
                return kept[1]
            seat = self.seat_of(command)
            reply = {"exceedances": getattr(self, command["do"].replace("-", "_"))(command, seat), "result": "accepted"}
            write(self.tables, changes(number, command, reply, seat))
            return compact(reply)
        except Refused as refused:
            return refused.answer

    def seat_of(self, command):
        """The seat of the member that is named, and that there is one."""
        if "crew" not in command or command["do"] == "add-crew":
            return None
        found = self.one("SELECT seat FROM crew WHERE id = ?", command["crew"])
        if not found:
            raise Refused(2, "NoSuchCrew")
        return found[0]

    def look_for_pairing(self, pairing):
        if not self.one("SELECT 1 FROM pairing WHERE id = ?", pairing):
            raise Refused(4, "NoSuchPairing")

    def add_crew(self, command, _):
        if self.one("SELECT 1 FROM crew WHERE id = ?", command["crew"]):
            raise Refused(3, "CrewExists")
        return []

    def add_pairing(self, command, _):
        if self.one("SELECT 1 FROM pairing WHERE id = ?", command["pairing"]):
            raise Refused(5, "PairingExists")
        return []

    def assign(self, command, seat):
        pairing, crew = command["pairing"], command["crew"]
        self.look_for_pairing(pairing)
        if seat in self.seats(pairing):
            raise Refused(6, "SeatTaken")
        others, new = self.duties(crew), [*self.periods(pairing).values()]
        held = Minutes(duty_spans(others))
        if any(held.between(*span) for span in duty_spans(new)):
            raise Refused(11, "Overlap")
        broken = judge(others, new)
        if broken:
            raise Refused(12, "Limits", limits=[{"crew": crew, "section": it} for it in broken])
        return []

    def release(self, command, seat):
        pairing = command["pairing"]
        self.look_for_pairing(pairing)
        if self.seats(pairing).get(seat) != command["crew"]:
            raise Refused(8, "NotAssigned")
        if self.one("SELECT 1 FROM period WHERE pairing = ? AND act_report IS NOT NULL", pairing):
            raise Refused(10, "Flown")
        return []

    def actual(self, command, _):
        pairing, number = command["pairing"], command["period"]
        self.look_for_pairing(pairing)
        seats = self.seats(pairing)
        if len(seats) < len(SEATS):
            raise Refused(8, "NotAssigned")
        periods = self.periods(pairing)
        if number not in periods:
            raise Refused(13, "NoSuchDuty")
        flown = tuple((minute_of(it["out"]), minute_of(it["in"])) for it in command["segments"])
        if len(flown) != len(periods[number].segments):
            raise Refused(19, "SegmentCount", period=number)
        new = Duty(periods.pop(number).planned, minute_of(command["report"]), minute_of(command["release"]), flown)
        exceeded = [(crew, it) for crew in seats.values() for it in judge([*self.duties(crew, pairing), *periods.values()], [new])]
        return [{"crew": crew, "section": it} for crew, it in exceeded]


def main(file):
    lines = sys.stdin.read().splitlines()
    started = time.perf_counter()
    book = Book(file)
    if not lines:
        return reported(started, 1)
    started = time.perf_counter()
    answers = [book.answer(line) for line in lines]
    reported(started, len(lines))
    print("\n".join(answers))


if __name__ == "__main__":
    main(*sys.argv[1:])
