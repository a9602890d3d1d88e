#!/usr/bin/env python3
"""Holds what the program says of limits to the regulation's tables, and to a slow count of its rules.

    tests/judgement.py

Tables A and B are asked of `duty`, at the first and the last minute of each row, with one to eight segments, and on both sides of
what they give. Then members fly, train, fly for another certificate holder and are assigned pairings at times without a pattern, and each
answer of `do --lines` is compared with a count, minute by minute, of docs/RULES.md ("The eight limits"): duties overlap, touch, begin at
minute 0 and run for days, what was flown for another holder is recorded late and anew, and some members have no pairing at first. The
members belong to three bases, and some books are of a week in which daylight saving time begins at one of these. In between, what `limits`
prints of a member, with a pairing or without one, is compared with such a count of what is nearest to each limit (docs/FORMATS.md,
"Limits"). In books of three years a minute of a pairing about a year before new duties, or after them, decides of the 1,000 hours: of a
count that left out such a pairing, in each of several ways, it is shown how often it would answer otherwise. The times are the same in each
run. What differs is printed on standard error. The last line is 'N passed, M failed', and the exit status 1 where M isn't 0.
"""

import shutil
import sys
import tempfile
from concurrent.futures import ProcessPoolExecutor
from dataclasses import dataclass, field, replace
from datetime import datetime, timedelta
from itertools import accumulate, chain, compress, repeat, zip_longest
from operator import sub

from office import SECTIONS, Book, Ran, build, instant, rosterbook

DAY = 1_440
FIRST = datetime(2000, 1, 1)  # minute 0

# ---- The tables, as 14 CFR Part 117 prints them: the first minute of a row, the first of the next, and hours.

TABLE_A = [("00:00", "05:00", 8), ("05:00", "20:00", 9), ("20:00", "24:00", 8)]
TABLE_B = [
    ("00:00", "04:00", [9, 9, 9, 9, 9, 9, 9]),
    ("04:00", "05:00", [10, 10, 10, 10, 9, 9, 9]),
    ("05:00", "06:00", [12, 12, 12, 12, 11.5, 11, 10.5]),
    ("06:00", "07:00", [13, 13, 12, 12, 11.5, 11, 10.5]),
    ("07:00", "12:00", [14, 14, 13, 13, 12.5, 12, 11.5]),
    ("12:00", "13:00", [13, 13, 13, 13, 12.5, 12, 11.5]),
    ("13:00", "17:00", [12, 12, 12, 12, 11.5, 11, 10.5]),
    ("17:00", "22:00", [12, 12, 11, 11, 10, 9, 9]),
    ("22:00", "23:00", [11, 11, 10, 10, 9, 9, 9]),
    ("23:00", "24:00", [10, 10, 10, 9, 9, 9, 9]),
]  # fmt: skip


def minute_of(clock):
    hours, minutes = clock.split(":")
    return 60 * int(hours) + int(minutes)


def row_of(table, minute):
    return next(row for first, end, row in table if minute_of(first) <= minute < minute_of(end))


def table_a(minute):
    """The minutes of flight that Table A gives to a report at a minute of the day."""
    return 60 * row_of(TABLE_A, minute)


def table_b(minute, segments):
    """The minutes of flight duty that Table B gives to a report at a minute of the day, and this many segments."""
    return int(60 * row_of(TABLE_B, minute)[min(segments, 7) - 1])


def boundaries(table):
    """The first and the last minute of each row."""
    return [minute for first, end, _ in table for minute in (minute_of(first), minute_of(end) - 1)]


def clock(minutes):
    return f"{minutes // 60}:{minutes % 60:02}"


def line_of(start, segments):
    """What `duty` writes of a period with these segments that reports at a minute of the day."""
    flight = sum(block_in - block_out for block_out, block_in in segments)
    period = segments[-1][1] - start
    given_a, given_b = table_a(start), table_b(start, len(segments))
    exceeded = ["117.11(a)(1)"] * (flight > given_a) + ["117.13(a)"] * (period > given_b)
    line = f"report {clock(start).zfill(5)} segments {len(segments)} fdp {clock(period)} of {clock(given_b)}"
    outcome = f"exceeds {' '.join(exceeded)}" if exceeded else "within"
    return Ran(1 if exceeded else 0, f"{line} flight {clock(flight)} of {clock(given_a)} {outcome}\n", "")


def periods_at_limits():
    """Periods that take all that a table gives them, and a minute more: their reports and segments."""
    for start in boundaries(TABLE_B):
        for count in (1, 2, 3, 4, 5, 6, 7, 8, 12):
            for more in (0, 1):
                end = start + table_b(start, count) + more
                outs = [start + 20 * place for place in range(count - 1)] + [end - 20]
                yield start, [(block_out, block_out + 20) for block_out in outs]
    for start in boundaries(TABLE_A):
        for more in (0, 1):
            yield start, [(start, start + table_a(start) + more)]


def try_tables(desk):
    for start, segments in periods_at_limits():
        times = [instant(start), *(instant(time) for segment in segments for time in segment)]
        desk.expect(f"a period with {times}", rosterbook("duty", "UTC0", *times), line_of(start, segments))


# ---- The bases, and what the clock of each shows.


def sunday(year, month, week, hour):
    """The instant at an hour of UTC on the first Sunday of a month, the second and so on; the fifth stands for the last one."""
    first = datetime(year, month, 1, hour)
    days = [first + timedelta(days=day) for day in range(31)]
    return [day for day in days if day.weekday() == 6 and day.month == month][week - 1 if week < 5 else -1]


@dataclass(frozen=True)
class Zone:
    """A zone: its rule, and by how many hours its clock is ahead of UTC in winter. Where it has summer time, an hour more, that begins
    and ends on a Sunday of a month at an hour of UTC."""

    rule: str
    hours: int
    summer: tuple = ()

    def clock(self, minute):
        """The minute of the day that its clock shows at an instant."""
        moment = FIRST + timedelta(minutes=minute)
        is_summer = self.summer and sunday(moment.year, *self.summer[0]) <= moment < sunday(moment.year, *self.summer[1])
        return (minute + 60 * (self.hours + bool(is_summer))) % DAY


ZONES = {
    "HOME": Zone("EST5EDT,M3.2.0,M11.1.0", -5, ((3, 2, 7), (11, 1, 6))),
    "PHX": Zone("MST7", -7),
    "LON": Zone("GMT0BST,M3.5.0/1,M10.5.0", 0, ((3, 5, 1), (10, 5, 1))),
}
CAPTAINS, OFFICERS = ("C1", "C2", "C3"), ("F1", "F2", "F3")
BASES = {"C1": "HOME", "C2": "PHX", "C3": "LON", "F1": "LON", "F2": "HOME", "F3": "PHX"}

# ---- Duties in force, and the slow count. Times are in minutes after the first minute of a book's horizon.


@dataclass(frozen=True)
class Period:
    """A flight duty period in force: the minute of the day of its planned report, by the clock of each base, and its times. One that
    is flown for another certificate holder has no such minute."""

    starts: dict | None = field(hash=False)
    report: int
    segments: tuple
    release: int

    @property
    def last_in(self):
        return self.segments[-1][1]


@dataclass(frozen=True)
class Training:
    """A ground duty."""

    begin: int
    end: int


def flight_spans(duty):
    return duty.segments if isinstance(duty, Period) else ()


def period_spans(duty):
    return ((duty.report, duty.last_in),) if isinstance(duty, Period) else ()


def duty_spans(duty):
    return ((duty.report, duty.release),) if isinstance(duty, Period) else ((duty.begin, duty.end),)


def minutes(duties, spans, end):
    """For each minute before the end 1 where it is in a span of one of the duties, else 0."""
    found = bytearray(end)
    for duty in duties:
        for first, last in spans(duty):
            found[first:last] = b"\1" * (last - first)
    return found


def days(found):
    """The minutes of each day."""
    return [found[first : first + DAY] for first in range(0, len(found), DAY)]


def meeting(new, width):
    """For each window of this width 1 where it has a new minute, else 0: from the one that ends where these minutes begin to the one that
    begins where they end."""
    found = bytearray(len(new) + width + 1)
    first = new.find(1)
    while first >= 0:
        last = new.find(0, first)
        last = len(new) if last < 0 else last
        found[first + 1 : last + width] = b"\1" * (last + width - first - 1)
        first = new.find(1, last)
    return found


def reach(new, width):
    """Where the first of the windows of this width that end or begin beside a new minute begins, and where the last one ends; some is new."""
    return new.find(1) - width, new.rfind(1) + 1 + width


def fullest(held, new, width):
    """The most that a window of this width, of minutes or of days, holds of those that meet a new minute, and where the first one that
    holds as much begins. Of each minute or day it gets how many minutes it holds, and with 1 or 0 whether it has a new one; some has."""
    first, end = reach(new, width)
    reached = chain(repeat(0, -first), held[max(first, 0) : end], repeat(0, end - len(held)))
    before = list(accumulate(reached, initial=0))
    sums, meets = list(map(sub, before[width:], before)), meeting(new[first + width : end - width], width)
    most, place = max(compress(sums, meets)), -1
    while place < 0 or not meets[place]:
        place = sums.index(most, place + 1)
    return most, first + place


def is_over(held, new, width, most):
    """Whether some window of this width meets a new minute and holds more than `most`."""
    if 1 not in new:
        return False
    first, end = reach(new, width)
    return sum(held[max(first, 0) : end]) > most and fullest(held, new, width)[0] > most


def before(found, report, width):
    """The minutes before a report, of which there may be some before minute 0."""
    return found[max(report - width, 0) : report].rjust(width, b"\0")


def lacks_rest(held, new, new_duties, duties, width, lacks):
    """Whether the minutes before the report of a period lack the rest: of one that is new, or that has new minutes before it."""
    return any(
        lacks(before(held, duty.report, width))
        for duty in duties
        if isinstance(duty, Period) and (duty in new_duties or 1 in before(new, duty.report, width))
    )


def breaks_tables(period, base):
    """Whether a period exceeds Table A, and whether it exceeds Table B, by the clock of a base. What is flown for another certificate
    holder enters neither."""
    if period.starts is None:
        return False, False
    start = period.starts[base]
    flight = sum(last - first for first, last in period.segments)
    return flight > table_a(start), period.last_in - period.report > table_b(start, len(period.segments))


def broken(new_duties, others, base):
    """The sections that new duties of a member of this base break beside the others, in order."""
    duties = [*others, *new_duties]
    end = max(last for duty in duties for _, last in duty_spans(duty))
    flight, period, duty = (minutes(duties, spans, end) for spans in (flight_spans, period_spans, duty_spans))
    new_flight, new_period, new_duty = (minutes(new_duties, spans, end) for spans in (flight_spans, period_spans, duty_spans))
    flown = [breaks_tables(it, base) for it in new_duties if isinstance(it, Period)]
    found = (
        any(is_over_a for is_over_a, _ in flown),
        any(is_over_b for _, is_over_b in flown),
        is_over(flight, new_flight, 672 * 60, 100 * 60),
        is_over([day.count(1) for day in days(flight)], bytes(1 in day for day in days(new_flight)), 365, 1_000 * 60),
        is_over(period, new_period, 168 * 60, 60 * 60),
        is_over(period, new_period, 672 * 60, 190 * 60),
        lacks_rest(duty, new_duty, new_duties, duties, 168 * 60, lambda held: bytes(30 * 60) not in held),
        lacks_rest(duty, new_duty, new_duties, duties, 10 * 60, lambda held: 1 in held),
    )
    return [section for section, is_broken in zip(SECTIONS, found) if is_broken]


def overlap(new_duties, others):
    """Whether a minute is a duty minute of both."""
    end = max(last for duty in [*new_duties, *others] for _, last in duty_spans(duty))
    one, other = (int.from_bytes(minutes(duties, duty_spans, end), "big") for duties in (new_duties, others))
    return one & other != 0


# ---- What is nearest to each limit, of a history: a list of duties with their names, in order.


@dataclass(frozen=True)
class Nearest:
    """What is nearest to a limit: how much of how much there is, where, if it is anywhere, and whether that exceeds the limit; and whether
    it is the first of several that are as near."""

    amount: str
    where: str = ""
    is_over: bool = False
    is_of_several: bool = False

    @property
    def line(self):
        return f"{self.amount}{self.where} {'exceeds' if self.is_over else 'within'}"


def length_of(minutes, limit):
    return f"{clock(minutes)} of {clock(limit)}"


def first_of_least(rows, otherwise):
    """The first period with the least left to a limit. A row has what is left, how much of how much there is, and the period's name."""
    if not rows:
        return Nearest(otherwise)
    left, amount, name = min(rows, key=lambda row: row[0])
    return Nearest(amount, f" {name}", left < 0, [row[0] for row in rows].count(left) > 1)


def of_table(periods, measure):
    """What is nearest to a table, of periods with their names. Of a period it is measured what the table counts and what it gives."""
    measured = [(*measure(period), name) for name, period in periods if period.starts is not None]
    return first_of_least([(given - counted, length_of(counted, given), name) for counted, given, name in measured], "-")


def of_rests(periods, rest, least):
    """The period with the least rest, of those with their names and the minutes before the report, where so much is wanted."""
    measured = [(rest(held), name) for name, held in periods]
    return first_of_least([(found - least, length_of(found, least), name) for found, name in measured], f"- of {clock(least)}")


def of_windows(held, new, width, most, instant_of):
    """The window of this width that holds the most, of those that meet a new minute, where `most` is allowed. Of the minute or the day with
    which it begins it gets the instant."""
    if 1 not in new:
        return Nearest(length_of(0, most))
    found, start = fullest(held, new, width)
    return Nearest(length_of(found, most), f" from {instant_of(start)}", found > most)


def longest_rest(held):
    """How many of these minutes in a row are without duty, at most."""
    return max(len(run) for run in held.split(b"\1"))


def rest_at_the_end(held):
    """How many of these minutes are without duty, back from the last one."""
    return len(held) - len(held.rstrip(b"\0"))


def nearest(new, others, base, first):
    """What is nearest to each limit, in order, of what new duties of a member of this base touch, beside the others: both with their names.
    Minutes are counted from this one after 2000-01-01T00:00Z on."""
    new_duties = [duty for _, duty in new]
    duties = [*(duty for _, duty in others), *new_duties]
    end = max((last for duty in duties for _, last in duty_spans(duty)), default=0)
    flight, period, duty = (minutes(duties, spans, end) for spans in (flight_spans, period_spans, duty_spans))
    new_flight, new_period, new_duty = (minutes(new_duties, spans, end) for spans in (flight_spans, period_spans, duty_spans))
    old_periods, new_periods = ([(name, it) for name, it in some if isinstance(it, Period)] for some in (others, new))

    def before_reports(width):
        """The 168 hours before the report of each period that is new, or that has new duty minutes in the last `width` of them."""
        touched = [(name, it) for name, it in old_periods if 1 in before(new_duty, it.report, width)]
        return [(name, before(duty, it.report, 168 * 60)) for name, it in touched + new_periods]

    at_minute = lambda minute: instant(first + minute) if first + minute >= 0 else "before 2000-01-01T00:00Z"
    at_day = lambda day: at_minute(day * DAY)
    flown_days, new_days = [day.count(1) for day in days(flight)], bytes(1 in day for day in days(new_flight))
    return (
        of_table(new_periods, lambda it: (sum(last - out for out, last in it.segments), table_a(it.starts[base]))),
        of_table(new_periods, lambda it: (it.last_in - it.report, table_b(it.starts[base], len(it.segments)))),
        of_windows(flight, new_flight, 672 * 60, 100 * 60, at_minute),
        of_windows(flown_days, new_days, 365, 1_000 * 60, at_day),
        of_windows(period, new_period, 168 * 60, 60 * 60, at_minute),
        of_windows(period, new_period, 672 * 60, 190 * 60, at_minute),
        of_rests(before_reports(168 * 60), longest_rest, 30 * 60),
        of_rests(before_reports(10 * 60), rest_at_the_end, 10 * 60),
    )


# ---- Books of members who fly, train and are assigned pairings at times without a pattern.


@dataclass(frozen=True)
class Scale:
    """How many books there are, how many commands each is asked, and how large they are: times are multiples of `grid` minutes after
    the first minute of a day, duties begin in the first `horizon` of these units, and nothing in them lasts `longest` units."""

    books: int
    steps: int
    grid: int
    horizon: int
    longest: int
    first: int = 0

    @property
    def end(self):
        """All duties end before this minute, which begins a day."""
        return ((self.horizon + 6 * self.longest + 6) * self.grid // DAY + 1) * DAY


# Summer time begins at HOME on 9 March 2025, at 07:00 of UTC.
MARCH = (datetime(2025, 3, 5) - FIRST).days * DAY
SCALES = (
    Scale(60, 30, 60, 200, 12), Scale(60, 30, 1, 14_000, 900, MARCH), Scale(30, 30, 120, 250, 30), Scale(20, 20, 720, 1_000, 40),
)  # fmt: skip


@dataclass
class Draws:
    """A sequence of numbers without a pattern, the same in each run."""

    state: int = 117

    def below(self, limit):
        """The next number, from 0 up to, and without, the limit."""
        self.state = (1_664_525 * self.state + 1_013_904_223) % 2**32
        return (self.state >> 8) % max(limit, 1)

    def one_of(self, choices):
        return choices[self.below(len(choices))]


@dataclass
class Model:
    """What a book holds: the periods of each pairing, in force, its captain and first officer, each ground duty of a member, and each
    outside period with its member."""

    pairings: dict = field(default_factory=dict)
    seats: dict = field(default_factory=dict)
    trainings: list = field(default_factory=list)
    outsides: dict = field(default_factory=dict)

    def others(self, member, pairing=None, place=None, outside=None):
        """The member's duties, without a period of a pairing, or without all of them, or without an outside period."""
        periods = [
            period
            for name, its in self.pairings.items()
            if member in self.seats.get(name, ())
            for number, period in enumerate(its)
            if name != pairing or place not in (None, number)
        ]
        periods += [period for name, (who, period) in self.outsides.items() if who == member and name != outside]
        return periods + [training for who, training in self.trainings if who == member]

    def named(self, pairing):
        """The periods of a pairing, with their names."""
        return [(f"{pairing}/{number}", period) for number, period in enumerate(self.pairings[pairing], 1)]

    def held(self, member):
        """The pairings that a member holds."""
        return [name for name, crew in self.seats.items() if member in crew]

    def history(self, member, pairing=None):
        """The member's duties with their names, in the order of a history, without the periods of a pairing."""
        periods = [period for name in sorted(self.held(member)) if name != pairing for period in self.named(name)]
        grounds = [("a ground duty", training) for who, training in self.trainings if who == member]
        outsides = [(f"outside {name}", period) for name, (who, period) in sorted(self.outsides.items()) if who == member]
        return periods + grounds + outsides

    def nearest(self, member, pairing, first):
        """What is nearest to each limit of a member, without a pairing or as if the member held it."""
        new, others = (self.history(member), []) if pairing is None else (self.named(pairing), self.history(member, pairing))
        return nearest(new, others, BASES[member], first)

    def copy(self):
        pairings, seats = ({name: list(its) for name, its in of.items()} for of in (self.pairings, self.seats))
        return Model(pairings, seats, list(self.trainings), dict(self.outsides))

    def without(self, pairings):
        """A model of the same book without these pairings."""
        kept = {name: list(its) for name, its in self.pairings.items() if name not in pairings}
        return replace(self.copy(), pairings=kept)

    def without_outsides(self):
        """A model of the same book without its outside periods."""
        return replace(self.copy(), outsides={})

    def refusal(self, member, new_duties):
        """Why the member can't have these duties too, in words, or None."""
        return refusal_of([(member, new_duties, self.others(member))])

    def swap(self, pairing, member, other_pairing, other_member):
        seats = ((member, pairing, other_pairing), (other_member, other_pairing, pairing))
        refusal = refusal_of([(who, self.pairings[gained], self.others(who, given)) for who, given, gained in seats])
        if refusal is None:
            for who, _, gained in seats:
                self.seats[gained][who in OFFICERS] = who
        return refusal or "accepted"

    def assign(self, pairing, member):
        refusal = self.refusal(member, self.pairings[pairing])
        if refusal is None:
            self.seats[pairing][member in OFFICERS] = member
        return refusal or "accepted"

    def train(self, member, training):
        refusal = self.refusal(member, [training])
        if refusal is None:
            self.trainings.append((member, training))
        return refusal or "accepted"

    def record(self, outside, member, period):
        if self.outsides.get(outside, (member,))[0] != member:
            return "22 OutsideTaken"
        sections = broken([period], self.others(member, outside=outside), BASES[member])
        self.outsides[outside] = member, period
        return " ".join(["accepted", *(f"{member} {section}" for section in sections)])

    def fly(self, pairing, place, period):
        self.pairings[pairing][place] = period
        words = ["accepted"]
        for member in self.seats[pairing]:
            words += [f"{member} {section}" for section in broken([period], self.others(member, pairing, place), BASES[member])]
        return " ".join(words)


def refusal_of(judged):
    """Why members can't have new duties beside their others, in words, or None."""
    if any(overlap(new_duties, others) for _, new_duties, others in judged):
        return "11 Overlap"
    found = [f"{member} {section}" for member, new_duties, others in judged for section in broken(new_duties, others, BASES[member])]
    return " ".join(["12 Limits", *found]) if found else None


def drawn_period(draws, scale, plan=None):
    """A period of one to three segments, one after the other. It is planned at these times, unless it is a plan that is flown."""
    report = time = draws.below(scale.horizon)
    segments = []
    for _ in plan.segments if plan else range(draws.below(3) + 1):
        block_out = time + draws.below(scale.longest // 3)
        time = block_out + draws.below(scale.longest - 1) + 1
        segments.append((block_out * scale.grid, time * scale.grid))
    report, release = report * scale.grid, (time + draws.below(3)) * scale.grid
    return Period(plan.starts if plan else clocks(scale.first + report), report, tuple(segments), release)


def clocks(minute):
    """The minute of the day that the clock of each base shows at an instant."""
    return {base: zone.clock(minute) for base, zone in ZONES.items()}


def short_period(first, report, segments):
    """A period of segments of a minute each."""
    times = tuple((report + place, report + place + 1) for place in range(segments))
    return Period(clocks(first + report), report, times, report + segments)


def two_short_periods(draws, scale):
    """A short period, and another one a day later."""
    report = draws.below(scale.horizon) * scale.grid
    return [short_period(scale.first, time, draws.below(3) + 1) for time in (report, report + DAY)]


def written(period, at):
    """The times of a period, as an actual has them."""
    segments = [{"out": at(block_out), "in": at(block_in)} for block_out, block_in in period.segments]
    return {"report": at(period.report), "release": at(period.release), "segments": segments}


def schedule(pairings, at):
    """Pairings as a schedule in CSV."""
    records = ["pairing,period,report,release,flight,from,out,to,in"]
    for name, periods in pairings.items():
        for number, period in enumerate(periods, 1):
            for block_out, block_in in period.segments:
                times = f"{at(period.report)},{at(period.release)},RB1,BOS,{at(block_out)},BOS,{at(block_in)}"
                records.append(f"{name},{number},{times}")
    return "".join(f"{record}\n" for record in records)


CLOCK = "a flown period exceeds other tables by HOME's clock"
OUTSIDE = "another answer than without outside periods"
OWN = "an outside period breaks a section"
ANEW = "an outside period takes the place of an earlier one, and other sections are reported"
LIMITS = tuple(f"the limits: {section} {word}" for section in SECTIONS for word in ("within", "exceeds"))
ALL = "the limits: of all duties of a member"
HELD = "the limits: with a pairing that the member holds"
NOT_HELD = "the limits: with a pairing that the member doesn't hold"
REFUSED = "the limits: with a pairing that was refused"
TOUCHED = "the limits: another period than the pairing's has the least rest"
SEVERAL = "the limits: several periods are as near"
EARLY = "the limits: a window begins before the year 2000"
NOTHING = "the limits: there is nothing to name"
COUNTED = (*SECTIONS, CLOCK, OUTSIDE, OWN, ANEW, *LIMITS, ALL, HELD, NOT_HELD, REFUSED, TOUCHED, SEVERAL, EARLY, NOTHING)


@dataclass
class Walk:
    """A book, what it has to hold, how often each section was broken and the clock of the own base or an outside period decided that, the
    first minute of its horizon, and the commands that are still to be asked, each with what it has to be answered."""

    book: Book
    model: Model
    tally: dict
    first: int
    waiting: list = field(default_factory=list)

    def copy(self):
        return Walk(self.book.copy(), self.model.copy(), self.tally, self.first)

    def at(self, minute):
        """The instant of a minute after the first one."""
        return instant(self.first + minute)

    def add(self, pairings):
        """Adds pairings, which nobody holds."""
        self.book.import_schedule(self.book.take_number(), schedule(pairings, self.at))
        self.model.pairings |= pairings
        self.model.seats |= {name: [None, None] for name in pairings}

    def command(self, command, wanted):
        """Lets a command wait, to be asked with those before it."""
        for section in SECTIONS:
            self.tally[section] += section in wanted
        self.waiting.append((command, wanted))

    def ask(self):
        """What the first of the commands that wait is answered otherwise than it should be, or None. They are asked in one run."""
        commands, answers = [command for command, _ in self.waiting], [wanted for _, wanted in self.waiting]
        self.waiting.clear()
        told = self.book.settle_lines(commands) if commands else []
        differences = (it for it in zip_longest(commands, answers, told) if it[1] != it[2])
        return next((f"{command}\n    wanted: {wanted}\n    told:   {got}" for command, wanted, got in differences), None)

    def count(self, what, wanted, otherwise):
        """Counts that something decided an answer: there would have been another one otherwise."""
        self.tally[what] += wanted != "accepted" and wanted != otherwise()

    def assign(self, pairing, member):
        new = self.model.pairings[pairing]
        wanted = self.model.assign(pairing, member)
        self.count(OUTSIDE, wanted, lambda: self.model.without_outsides().refusal(member, new) or "accepted")
        self.command({"do": "assign", "pairing": pairing, "crew": member}, wanted)
        if not wanted.startswith("12 "):
            return None
        self.tally[REFUSED] += 1
        return self.ask() or self.limits(member, pairing, wanted)

    def train(self, member, training):
        times = {"begin": self.at(training.begin), "end": self.at(training.end)}
        ground = f"G{len(self.model.trainings)}"
        wanted = self.model.train(member, training)
        self.count(OUTSIDE, wanted, lambda: self.model.without_outsides().refusal(member, [training]) or "accepted")
        self.command({"do": "add-ground", "ground": ground, "crew": member, "task": "Simulator", **times}, wanted)

    def record(self, outside, member, period):
        before = self.model.copy()
        wanted = self.model.record(outside, member, period)
        self.tally[OWN] += "accepted " in wanted
        if outside in before.outsides and wanted.startswith("accepted"):
            before.outsides["its earlier times"] = before.outsides[outside]
            self.count(ANEW, wanted, lambda: before.record(outside, member, period))
        self.command({"do": "record-outside", "outside": outside, "crew": member, **written(period, self.at)}, wanted)

    def fly(self, pairing, place, period):
        wanted = self.model.fly(pairing, place, period)
        self.count(OUTSIDE, wanted, lambda: self.model.without_outsides().fly(pairing, place, period))
        at_home = breaks_tables(period, "HOME")
        self.tally[CLOCK] += sum(breaks_tables(period, BASES[member]) != at_home for member in self.model.seats[pairing])
        self.command({"do": "actual", "pairing": pairing, "period": place + 1, **written(period, self.at)}, wanted)

    def limits(self, member, pairing, refusal=None):
        """What `limits` prints otherwise than it should, or None. Where the pairing was refused to the member, what exceeds a limit has to be
        what the refusal says."""
        found = dict(zip(SECTIONS, self.model.nearest(member, pairing, self.first)))
        for section, it in found.items():
            self.tally[f"the limits: {section} {'exceeds' if it.is_over else 'within'}"] += 1
            self.tally[TOUCHED] += pairing is not None and "117.25" in section and not it.where.startswith(f" {pairing}/")
            self.tally[SEVERAL] += it.is_of_several
            self.tally[EARLY] += "before" in it.where
            self.tally[NOTHING] += not it.where
        exceeding = " ".join(["12 Limits", *(f"{member} {section}" for section, it in found.items() if it.is_over)])
        if refusal not in (None, exceeding):
            return f"limits {member} {pairing}\n    refused: {refusal}\n    exceeds: {exceeding}"
        seat_and_name = "first officer Bo Lind" if member in OFFICERS else "captain Ada Ray"
        words, end = (["--with", pairing], f" with {pairing}") if pairing else ([], "")
        lines = [f"LIMITS {member} {seat_and_name}{end}", *(f"{section} {it.line}" for section, it in found.items())]
        wanted = Ran(0, "".join(f"{line}\n" for line in lines), "")
        got = rosterbook("limits", self.book.file, member, *words)
        return None if got == wanted else f"limits {member} {pairing}\n    wanted: {wanted}\n    told:   {got}"

    def look(self, draws):
        """What `limits` prints otherwise than it should of some member, or None: without a pairing, with one that the member holds, or with
        another one."""
        member = draws.one_of(CAPTAINS + OFFICERS)
        held = self.model.held(member)
        others = [name for name in self.model.pairings if name not in held]
        what, pairings = draws.one_of([(ALL, [None]), (HELD, held), (NOT_HELD, others)])
        if not pairings:
            return None
        self.tally[what] += 1
        return self.ask() or self.limits(member, draws.one_of(pairings))

    def step(self, draws, scale):
        """One command: most often a period is flown, for another certificate holder too, else a ground duty added or a pairing assigned.
        Most outside periods have an id that is one member's alone, and many take the place of an earlier one. What was wrong is told where
        a pairing is refused, and that has been compared with the limits."""
        kind = draws.below(10)
        member = draws.one_of(CAPTAINS + OFFICERS)
        free = [name for name, crew in self.model.seats.items() if crew[member in OFFICERS] is None]
        if kind < 2:
            begin = draws.below(scale.horizon)
            length = draws.below(scale.longest - 1) + 1
            return self.train(member, Training(begin * scale.grid, (begin + length) * scale.grid))
        if kind < 5 and free:
            return self.assign(draws.one_of(free), member)
        if kind < 7:
            outside = f"X{draws.below(3)}" + (f"-{member}" if draws.below(4) else "")
            return self.record(outside, member, replace(drawn_period(draws, scale), starts=None))
        crewed = [name for name, crew in self.model.seats.items() if None not in crew]
        pairing = draws.one_of(crewed)
        place = draws.below(len(self.model.pairings[pairing]))
        return self.fly(pairing, place, drawn_period(draws, scale, self.model.pairings[pairing][place]))


def hire_all(walk):
    """Adds the bases and their members to an empty book."""
    for base, zone in ZONES.items():
        if base != "HOME":
            walk.book.settle(f"base {base}: {zone.rule}")
    for member in CAPTAINS:
        walk.book.settle(f"hire {member} captain {BASES[member]}: Ada Ray")
    for member in OFFICERS:
        walk.book.settle(f"hire {member} first-officer {BASES[member]}: Bo Lind")


def crewed_book(room, draws, scale, tally):
    """A book of eight pairings after the horizon, each with a crew, whose periods are flown before it; and what was wrong. The last
    captain and the last first officer hold none."""
    walk = Walk(Book.made(room, ZONES["HOME"].rule), Model(), tally, scale.first)
    hire_all(walk)
    ends = [scale.end + 3 * DAY * place for place in range(8)]
    far = {f"FAR{place}": [short_period(scale.first, end + draws.below(DAY), draws.below(3) + 1)] for place, end in enumerate(ends)}
    walk.add(far)
    crews = [(pairing, member) for place, pairing in enumerate(far) for member in (CAPTAINS[place // 6], OFFICERS[place % 2])]
    found = [walk.assign(pairing, member) for pairing, member in crews]
    return walk, next((it for it in (*found, walk.ask()) if it), None)


def first_difference(walk, draws, looks, scale):
    """What the first answer that differs from the count is, or None. In between limits are looked at, by draws of their own."""
    near = {f"NEAR{place}": [drawn_period(draws, scale)] for place in range(4)}
    walk.add(near | {f"LATER{place}": two_short_periods(draws, scale) for place in range(4)})
    for _ in range(scale.steps):
        difference = walk.step(draws, scale) or looks.below(3) == 0 and walk.look(looks)
        if difference:
            return difference
    return walk.ask()


def walked(start, number, scale):
    """The first difference in a copy of a book, by draws of its own, and how often each section was broken."""
    walk = start.copy()
    walk.tally = dict.fromkeys(COUNTED, 0)
    difference = first_difference(walk, Draws(117 + number), Draws(70_000 + number), scale)
    shutil.rmtree(walk.book.folder)
    return difference, walk.tally


def try_judgement(desk):
    draws = Draws()
    tally = dict.fromkeys(COUNTED, 0)
    with ProcessPoolExecutor() as pool:
        for scale in SCALES:
            start, difference = crewed_book(desk.room, draws, scale, tally)
            desk.expect(f"crews of a book by {scale.grid} minutes", difference, None)
            numbers = range(scale.books)
            for number, (difference, counted) in enumerate(pool.map(walked, repeat(start), numbers, repeat(scale))):
                desk.expect(f"book {number} by {scale.grid} minutes", difference, None)
                for what, count in counted.items():
                    tally[what] += count
    for what, count in tally.items():
        desk.expect(f"{what}: {count} times, which is", "enough" if count >= 10 else "not enough", "enough")


# ---- Books of three years, in which a minute of a pairing about a year away decides.

YEAR = 365 * DAY  # the widest window
YEARS = datetime(2024, 1, 1)  # with which these books begin: in a leap year
MIDDLE = 540 * DAY  # about here new duties are put
SIDES = {"C1": -1, "C2": 1, "C3": -1, "F1": 1, "F2": 1, "F3": -1}  # the far duties of a member are before the new ones, or after them
BULK, ROOM = 59_000, 1_000  # minutes that each member flies for another holder, and what is left to 1,000 hours
BOOKS, TRIALS = 30, 10


def times_of(periods):
    return [(period.report, period.release) for period in periods]


def gap(one, other):
    """The minutes between two spans."""
    return max(one[0] - other[1], other[0] - one[1], 0)


def are_near(some, others, reach=YEAR):
    return any(gap(one, other) < reach for one in some for other in others)


@dataclass(frozen=True)
class Trial:
    """A command of the model that is to be asked, and the duties that it makes new for a member, whose others are those without a pairing, or
    without a period of one."""

    member: str
    new: list
    spans: list  # from report to release, of the periods of each pairing that becomes new for somebody, or of the duty that is recorded
    do: str
    values: tuple
    without: tuple = ()
    planned: list | None = None  # the spans of the plan of what is flown

    @property
    def all(self):
        return list(chain(*self.spans))

    def held(self, model):
        """The pairings that the judged members hold, without those that are named."""
        judged = {self.member, *self.values[1::2], *model.seats.get(self.values[0], ())} & SIDES.keys()
        return [name for name, crew in model.seats.items() if judged.intersection(crew) and name not in self.values]

    def others(self, model):
        """The member's other duties, without those that fill the 1,000 hours."""
        _, filling = model.outsides.get(filling_of(self.member), (None, None))
        return [it for it in model.others(self.member, *self.without) if it != filling]


# Whether a pairing is read, which a member holds at these times, and which was planned at those. The first reading leaves out only what no
# window reaches, each of the others also what one may reach.
RIGHT = "365 days away"
READINGS = {
    RIGHT: lambda trial, held, planned: are_near(trial.all, held),
    "two minutes nearer than that": lambda trial, held, planned: are_near(trial.all, held, YEAR - 2),
    "364 days away": lambda trial, held, planned: are_near(trial.all, held, YEAR - DAY),
    "planned far away": lambda trial, held, planned: are_near(trial.all, planned),
    "far away in its first period": lambda trial, held, planned: are_near(trial.all, held[:1]),
    "far away in its last period": lambda trial, held, planned: are_near(trial.all, held[-1:]),
    "far from the first new period": lambda trial, held, planned: are_near([its[0] for its in trial.spans], held),
    "far from the last new period": lambda trial, held, planned: are_near([its[-1] for its in trial.spans], held),
    "far from the plan of what is flown": lambda trial, held, planned: are_near(trial.planned or trial.all, held),
    "far from the first pairing of a swap": lambda trial, held, planned: are_near(trial.spans[0], held),
    "far from the second pairing of a swap": lambda trial, held, planned: are_near(trial.spans[-1], held),
    "before the new duties": lambda trial, held, planned: any(it[1] > trial.all[0][0] for it in held),
    "after the new duties": lambda trial, held, planned: any(it[0] < trial.all[-1][1] for it in held),
}


def year_minutes(new, others):
    """The most flight minutes of 365 days that meet those of new duties."""
    duties = [*others, *new]
    end = max(last for duty in duties for _, last in duty_spans(duty))
    flights, of_new = (minutes(its, flight_spans, end) for its in (duties, new))
    return fullest([day.count(1) for day in days(flights)], bytes(1 in day for day in days(of_new)), 365)[0]


def filling_of(member):
    return f"FILL-{member}"


@dataclass
class Years(Walk):
    """Such a book, the plans of its pairings, and the members whose 1,000 hours have been filled."""

    plans: dict = field(default_factory=dict)
    filled: frozenset = frozenset()

    def copy(self):
        return Years(self.book.copy(), self.model.copy(), self.tally, self.first, [], dict(self.plans), self.filled)

    def plan(self, name, periods):
        """Adds a pairing, which nobody holds."""
        flights = [{**written(it, self.at), "segments": [self.flight(*times) for times in it.segments]} for it in periods]
        self.command({"do": "add-pairing", "pairing": name, "periods": flights}, "accepted")
        self.plans[name], self.model.pairings[name] = list(periods), list(periods)
        self.model.seats[name] = [None, None]

    def flight(self, block_out, block_in):
        return {"flight": "RB1", "from": "BOS", "out": self.at(block_out), "to": "BOS", "in": self.at(block_in)}

    def put(self, name, periods, *members):
        """Adds a pairing, and assigns it."""
        self.plan(name, periods)
        for member in members:
            self.order("assign", name, member)

    def order(self, do, *values):
        """One command, as the model answers it."""
        wanted = getattr(self.model, do)(*values)
        self.command(self.text_of(do, *values), wanted)
        return wanted

    def text_of(self, do, *values):
        """The command of a request."""
        match do, *values:
            case "assign", pairing, member:
                return {"do": "assign", "pairing": pairing, "crew": member}
            case "swap", pairing, member, other_pairing, other_member:
                return {"do": "swap", "pairing": pairing, "crew": member, "other_pairing": other_pairing, "other_crew": other_member}
            case "fly", pairing, place, period:
                return {"do": "actual", "pairing": pairing, "period": place + 1, **written(period, self.at)}
            case "record", outside, member, period:
                return {"do": "record-outside", "outside": outside, "crew": member, **written(period, self.at)}

    def fill(self, member, length=1):
        """Has a member fly so many minutes for another holder, in place of those before, where each window of a year has them that has
        the middle and the far duties of the member."""
        self.filled = self.filled - {member} if length == 1 else self.filled | {member}
        begin = MIDDLE + SIDES[member] * 120 * DAY
        self.order("record", filling_of(member), member, Period(None, begin, ((begin, begin + length),), begin + length))

    def decide(self, trial, more):
        """Asks the command of a trial, after the member's hours have been filled up to 1,000 with it, and so many minutes more; and counts
        which readings would answer otherwise."""
        length = 60_000 - year_minutes(trial.new, trial.others(self.model)) + more
        if not 0 < length <= ROOM:
            return
        self.fill(trial.member, length)
        before = self.model.copy()
        wanted = self.order(trial.do, *trial.values)
        told = {frozenset(): wanted}
        for what, is_read in READINGS.items():
            read = lambda name: is_read(trial, times_of(before.pairings[name]), times_of(self.plans[name]))
            left_out = frozenset(name for name in trial.held(before) if not read(name))
            if left_out not in told:
                told[left_out] = getattr(before.without(left_out), trial.do)(*trial.values)
            self.tally[what] += told[left_out] != wanted


def drawn_shape(draws):
    """The times of a period after its report: often a flight of a minute and nothing else, else one or two flights."""
    if draws.below(3) == 0:
        return [(0, 1)], 1
    is_bare = draws.below(2)  # it reports as it blocks out, and ends as it blocks in
    time, segments = 0 if is_bare else draws.below(60), []
    for _ in range(draws.below(2) + 1):
        length = draws.below(15) + 1
        segments.append((time, time + length))
        time += length + draws.below(40)
    return segments, segments[-1][1] + (0 if is_bare else draws.below(60))


def placed(walk, shape, begin):
    segments, length = shape
    times = tuple((begin + block_out, begin + block_in) for block_out, block_in in segments)
    return Period(clocks(walk.first + begin), begin, times, begin + length)


def at_the_edge(walk, draws, side, day):
    """A period of this day, and one that is about a year before or after it: most often so that the first or the last day of a window just
    has a minute of it, or just none; else 365 days away, or a minute more or less."""
    shape, far = drawn_shape(draws), drawn_shape(draws)
    spare = draws.one_of([0, 0, 0, draws.below(DAY - shape[1])])
    new = placed(walk, shape, day + (DAY - shape[1] - spare if side < 0 else spare))
    if draws.below(5) == 0:
        nearer = draws.below(3) - 1
        return new, placed(walk, far, new.report - YEAR + nearer - far[1] if side < 0 else new.release + YEAR - nearer)
    inside = draws.one_of([0, 1, 1, 1, 1, 2, draws.below(30), draws.below(DAY)])
    begin = day - 364 * DAY + inside - far[0][-1][1] if side < 0 else day + YEAR - inside - far[0][0][0]
    return new, placed(walk, far, begin)


def moved(walk, period, minutes):
    """A plan of the same length, this much later."""
    segments = [(block_out - period.report, block_in - period.report) for block_out, block_in in period.segments]
    return placed(walk, (segments, period.release - period.report), period.report + minutes)


def flown(plan, period):
    """A plan that is flown at the times of another period."""
    return replace(period, starts=plan.starts)


def in_order(*periods):
    return sorted(periods, key=lambda it: it.report)


def hold_far(walk, draws, name, far, side, crew):
    """Has a member hold a pairing at the times of the far period: as it was planned, or with another period, farther away. Or a crew flew it
    then, and it was planned farther away, or the other way round."""
    farther = moved(walk, far, side * (20 + draws.below(140)) * DAY)
    kind = draws.below(8)
    if kind < 2:
        walk.put(name, [far], crew[0])
    elif kind < 5:
        walk.put(name, in_order(far, farther), crew[0])
    else:
        plan, times = (farther, far) if kind < 7 else (far, farther)
        walk.put(name, [plan], *crew)
        if None not in walk.model.seats[name]:
            walk.order("fly", name, 0, flown(plan, times))


def others_of(member):
    """The other members with the same side: those of the same seat, if there is one, else None; and those of the other seat."""
    others = [it for it in SIDES if SIDES[it] == SIDES[member] and it != member]
    fellows = [it for it in others if (it in OFFICERS) == (member in OFFICERS)]
    return fellows or [None], [it for it in others if it not in fellows]


def prepared(walk, draws, turn):
    """A trial about a year after far duties of a member, or before them, which are put into the book; or None."""
    member = draws.one_of(CAPTAINS + OFFICERS)
    side = SIDES[member]
    fellow, mate = (draws.one_of(its) for its in others_of(member))
    for it in sorted(walk.filled.intersection((member, fellow, mate))):
        walk.fill(it)
    # What was new before is between these new duties and far ones, so no other window has more.
    new, far = at_the_edge(walk, draws, side, MIDDLE - side * 3 * turn * DAY)
    hold_far(walk, draws, f"FAR{turn}", far, side, (member, mate))
    # A second period, or another time, from which the far duties are too far.
    elsewhere = moved(walk, new, -side * (200 + draws.below(60)) * DAY)
    name, old_name, seats = f"NEW{turn}", f"OLD{turn}", walk.model.seats
    kind = draws.below(6)
    if kind < 2:
        periods = in_order(new, elsewhere) if draws.below(2) else [new]
        walk.plan(name, periods)
        return Trial(member, periods, [times_of(periods)], "assign", (name, member))
    if kind == 2:
        period = replace(new, starts=None)
        return Trial(member, [period], [times_of([new])], "record", (f"X{turn}", member, period))
    if kind < 5 and fellow:
        walk.put(name, [new], fellow)
        walk.put(old_name, [elsewhere], member)
        swapped = [(old_name, member, [elsewhere]), (name, fellow, [new])][:: draws.one_of([1, -1])]
        values = [value for pairing, who, _ in swapped for value in (pairing, who)]
        trial = Trial(member, [new], [times_of(its) for _, _, its in swapped], "swap", tuple(values), (old_name,))
        return trial if any(seats[name]) and any(seats[old_name]) else None
    plan = elsewhere if draws.below(3) else moved(walk, new, draws.below(40) - 20)
    walk.put(name, [plan], member, mate)
    period = flown(plan, new)
    trial = Trial(member, [period], [times_of([period])], "fly", (name, 0, period), (name, 0), times_of([plan]))
    return trial if None not in seats[name] else None


def book_of_years(room):
    """A book of three years, whose members have flown for another holder nearly as much as they may in one; and what was wrong."""
    walk = Years(Book.made(room, ZONES["HOME"].rule), Model(), dict.fromkeys(COUNTED, 0), (YEARS - FIRST).days * DAY)
    hire_all(walk)
    for member, side in SIDES.items():
        begin = MIDDLE + (-200 if side < 0 else 160) * DAY
        walk.order("record", f"BULK-{member}", member, Period(None, begin, ((begin, begin + BULK),), begin + BULK))
    return walk, walk.ask()


def walked_years(start, number):
    """The first difference in a copy of a book of years, by draws of its own, and how often each reading answered otherwise."""
    walk, draws = start.copy(), Draws(7_000 + number)
    walk.tally = dict.fromkeys([*SECTIONS, *READINGS], 0)
    for turn in range(TRIALS):
        trial, more = prepared(walk, draws, turn), int(draws.below(5) > 0)
        if trial:
            walk.decide(trial, more)
    difference = walk.ask()
    shutil.rmtree(walk.book.folder)
    return difference, walk.tally


def try_years(desk):
    start, difference = book_of_years(desk.room)
    desk.expect("a book of three years", difference, None)
    tally = dict.fromkeys(READINGS, 0)
    with ProcessPoolExecutor() as pool:
        for number, (difference, counted) in enumerate(pool.map(walked_years, repeat(start), range(BOOKS))):
            desk.expect(f"book {number} of three years", difference, None)
            for what in READINGS:
                tally[what] += counted[what]
    desk.expect(f"other answers if each pairing is left out that is {RIGHT}", tally.pop(RIGHT), 0)
    for what, count in tally.items():
        answers = f"{count} other answers if each pairing is left out that is {what}, which are"
        desk.expect(answers, "enough" if count >= 10 else "not enough", "enough")


@dataclass
class Desk:
    """A folder for books, and how many answers were right."""

    room: str
    passed: int = 0
    failed: int = 0

    def expect(self, name, got, wanted):
        self.passed += got == wanted
        self.failed += got != wanted
        if got != wanted:
            print(f"tests/judgement.py: {name}\nwanted: {wanted}\ngot: {got}", file=sys.stderr)


def main():
    if not build():
        return 3
    with tempfile.TemporaryDirectory(prefix="judgement-") as room:
        desk = Desk(room)
        for tried in (try_tables, try_judgement, try_years):
            tried(desk)
    print(f"{desk.passed} passed, {desk.failed} failed")
    return 1 if desk.failed else 0


if __name__ == "__main__":
    sys.exit(main())
