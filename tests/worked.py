#!/usr/bin/env python3
"""Counts the worked examples of docs/STATEMENT.md and docs/CONTRACTS.md anew.

    tests/worked.py [--no-program]

An example is a paragraph that begins with *Example*. Its numbers, clock times and dates are read off the page, in their order, and each is
compared with what a slow count gives: minute by minute, as tests/judgement.py counts. Where the example is one of a book, the program is
asked too, with the same times; --no-program leaves that out. The list CHECKS has each example, also those that have nothing to count. What
differs is printed on standard error. The last line is 'N passed, M failed', and the exit status 1 where M isn't 0.
"""

import re
import sys
import tempfile
from dataclasses import dataclass
from datetime import date, datetime, timedelta

from judgement import (
    FIRST,
    ZONES,
    Period,
    Training,
    before,
    broken,
    duty_spans,
    flight_spans,
    fullest,
    longest_rest,
    minutes,
    period_spans,
    rest_at_the_end,
    table_a,
    table_b,
)
from office import TOP, Book, build, schedule

PAGES = ("docs/STATEMENT.md", "docs/CONTRACTS.md")
ORIGIN = datetime(2024, 1, 1)  # the first minute of the count of a member's duties, a year and more before the examples
BASE = "HOME"
ZONE = ZONES[BASE]
A, B = "117.11(a)(1)", "117.13(a)"
FLIGHT_672, FLIGHT_365, PERIODS_168, PERIODS_672 = "117.23(b)(1)", "117.23(b)(2)", "117.23(c)(1)", "117.23(c)(2)"
REST_30, REST_10 = "117.25(b)", "117.25(e)"

# ---- The examples, and what they say in numbers.

WORDS = ("three", "four", "five", "six", "seven", "eight", "nine", "ten", "eleven", "twelve")
NO_TOKEN = re.compile(r"117\.\d+(?:\(\w+\))*|14 CFR [\d.]+|EST5\S*|`[^`]*`|\b[A-Z]+\d+\w*(?:/\d+)?|\(\d+\)")
TOKEN = re.compile(
    r"(?P<instant>\d{4}-\d\d-\d\dT\d\d:\d\d)Z|(?P<date>\d{4}-\d\d-\d\d)|(?P<clock>\d\d:\d\d)Z?"
    r"|(?P<day>\d+)(?:st|nd|rd|th)\b|(?P<number>\d{1,3}(?:,\d{3})+|\d+)|\b(?P<word>" + "|".join(WORDS) + r")\b"
)


def value(found):
    """What a token stands for: minutes since 2000, a date, a minute of the day, the day of a month, or a number."""
    match found.lastgroup, found[found.lastgroup]:
        case "instant", text:
            return (datetime.strptime(text, "%Y-%m-%dT%H:%M") - FIRST) // timedelta(minutes=1)
        case "date", text:
            return date.fromisoformat(text)
        case "clock", text:
            return 60 * int(text[:2]) + int(text[3:])
        case "word", text:
            return 3 + WORDS.index(text)
        case _, text:
            return int(text.replace(",", ""))


def tokens(text):
    return [value(found) for found in TOKEN.finditer(NO_TOKEN.sub(" ", text))]


def examples():
    """The paragraphs of both pages that begin with Example, each without its first word and in one line."""
    for page in PAGES:
        blocks = re.split(r"\n\n+", (TOP / page).read_text())
        for block in blocks:
            if block.startswith("Example"):
                yield re.sub(r"^Example[.,] ", "", re.sub(r"\s+", " ", block))


# ---- Members' duties, in minutes after ORIGIN.


def at(day, minute=0):
    """A minute of a day of June 2025, or of a date. The minute may be one of the next day."""
    day = date(2025, 6, 1) + timedelta(days=day - 1) if isinstance(day, int) else day
    return (day - ORIGIN.date()).days * 1_440 + minute


def since_2000(minute):
    return minute + (ORIGIN - FIRST) // timedelta(minutes=1)


def period(report, segments, release, planned=None):
    start = ZONE.clock(since_2000(report if planned is None else planned))
    return Period({BASE: start}, report, tuple(segments), release)


def flown(out, block_in):
    """A period that is one flight, from its report to its release."""
    return period(out, [(out, block_in)], block_in)


def long_period(report, last_in):
    """A period with two flights of an hour, one at its begin and one at its end."""
    return period(report, [(report, report + 60), (last_in - 60, last_in)], last_in)


def next_to(report, last_in):
    """A short period: one flight that is as long as it."""
    return flown(report, last_in)


def line(duty):
    """A period as a line of tests/office.py has it, without its pairing: the day of the year of its report, and clock times."""
    day = duty.report // 1_440
    number = day - at(date(2025, 1, 1)) // 1_440 + 1

    def clock(minute):
        days, rest = divmod(minute - 1_440 * day, 1_440)
        return f"+{days} " * bool(days) + f"{rest // 60:02}:{rest % 60:02}"

    flights = ", ".join(f"{clock(out)}-{clock(block_in)}" for out, block_in in duty.segments)
    return f"day-{number}: {clock(duty.report)} | {flights} | {clock(duty.release)}"


# ---- The desk, and the program.


@dataclass
class Desk:
    """Compares what the page says with what is counted, and with what the program says, if there is one."""

    room: str | None
    passed: int = 0
    failed: int = 0
    text: str = ""  # of the example

    def expect(self, what, said, counted):
        self.passed += said == counted
        self.failed += said != counted
        if said != counted:
            print(f"tests/worked.py: {self.text[:60]}: {what}\nthe page: {said}\ncounted: {counted}", file=sys.stderr)

    def book(self, *lines):
        """A book with a captain C1, in which these lines are accepted."""
        book = Book.made(self.room)
        for it in ("hire C1 captain: Ada Ray", *lines):
            self.expect(f"the program's answer to {it}", "accepted", book.settle(it))
        return book

    def expect_judged(self, what, others, new, sections):
        """That a new duty of C1 beside others breaks just these sections: by the count, and as the program assigns it."""
        self.expect(what, sections, broken([new], others, BASE))
        if self.room is None:
            return
        book = self.book()
        flights = [duty for duty in others if isinstance(duty, Period)]
        plans = [f"plan P{number} {line(duty)}" for number, duty in enumerate(flights, 1)]
        if plans:
            self.expect("the program's answer to the plans", "accepted", book.settle_all(plans))
        trainings = [duty for duty in others if isinstance(duty, Training)]
        for number, duty in enumerate(trainings, 1):
            self.expect("the program's answer to a ground duty", "accepted", book.settle(ground(f"G{number}", duty)))
        for number in range(1, len(flights) + 1):
            self.expect("the program's answer to an assignment", "accepted", book.settle(f"assign P{number} C1"))
        self.expect("the program's answer to the plan", "accepted", book.settle(f"plan N1 {line(new)}"))
        wanted = "12 Limits" + "".join(f" C1 {section}" for section in sections) if sections else "accepted"
        self.expect(f"{what}, by the program", wanted, book.settle("assign N1 C1"))


def ground(name, duty):
    """A ground duty as a line has it, on a day of June."""
    day, begin = divmod(duty.begin - at(1), 1_440)
    end = begin + duty.end - duty.begin
    return f"train {name} {day + 1}: {begin // 60:02}:{begin % 60:02}-{end // 60:02}:{end % 60:02}"


# ---- The examples, one by one. Each check gets the desk, and the numbers, times and dates that stand on the page.


def life_of_two_sessions(desk, said):
    """The table of sessions below the example: what they acknowledge and leave in doubt, and what is done in the end."""
    page = (TOP / PAGES[0]).read_text()
    rows = re.findall(r"^\| (\d) \| `ask`: (\d), (.*?) \| (.*?) \| (\d?) ?\| (\d?) ?\|$", page, re.M)
    done = [[]]
    for session in sorted({row[0] for row in rows}):
        asked = [(number, result == "accepted") for its, number, _, result, *_ in rows if its == session]
        sure = [number for number, is_answered in asked if is_answered]
        doubted = [number for number, is_answered in asked if not is_answered]
        desk.expect("acknowledged", [row[4] for row in rows if row[0] == session and row[4]], sure)
        desk.expect("in doubt", [row[5] for row in rows if row[0] == session and row[5]], doubted)
        done = [before + its for before in done for its in ([sure, sure + doubted[:1]] if doubted else [sure])]
        lists = " or ".join(", ".join(its) for its in done)
        if session == "1":
            states = (f"{', '.join(its[:-1])} and {its[-1]}" for its in done)
            lists = "the state after commands " + ", or the one after ".join(states)
        desk.expect("the page has what is done", lists in re.sub(r"\s+", " ", page), True)
    desk.expect("the same commands", len({tuple(dict.fromkeys(its)) for its in done}), 1)
    desk.expect("the number that is asked again", said, [int(rows[-1][1])])


def minutes_and_spans(desk, said):
    midnight, days, zero, minute, clock, noon, begin, end, count, first, last, after = said
    desk.expect("the days after minute 0", zero + days * 1_440, midnight)
    desk.expect("the first minute of the day", minute, midnight)
    desk.expect("11:00Z", noon, midnight + clock)
    held = [midnight + it for it in range(begin, end)]
    desk.expect("the span's minutes", [count, first, last], [len(held), held[0], held[-1]])
    desk.expect("the minute after it", after, held[-1] + 1)


def union_of_spans(desk, said):
    begin, end, second, second_end, count, width, start, doubled, few, meets, first, misses = said
    spans = [range(begin, end), range(second, second_end)]
    held = {minute for span in spans for minute in span}
    desk.expect("each minute once", count, len(held & {*range(start, start + width)}))
    desk.expect("each span by itself", doubled, sum(map(len, spans)))
    desk.expect("the first minute that is met", first, min(held & {*range(meets, meets + few)}))
    desk.expect("no minute is met", held & {*range(misses, misses + few)}, set())


def kinds_of_time(desk, said):
    report, out, block_in, release, flight, fdp, out_again, in_again, duty, begin, end = said
    it = [period(at(10, report), [(at(10, out), at(10, block_in))], at(10, release))]
    counts = [sum(minutes(it, spans, at(12))) for spans in (flight_spans, period_spans, duty_spans)]
    desk.expect("flight, flight duty and duty minutes", [flight, fdp, duty], counts)
    desk.expect("the spans", [out_again, in_again, begin, end], [report, block_in, report, release])


def rule_of_zone(desk, said):
    winter, summer, begins, ends = said
    behind = lambda minute: (minute - ZONE.clock(minute)) % 1_440 * 60
    desk.expect("seconds before and after", [winter, summer, summer, winter], [behind(it) for it in (begins - 1, begins, ends - 1, ends)])


def acclimated_time(desk, said):
    noon, seven, local, minute, hours, left, of_day, day, ends, *clocks = said
    desk.expect("the local minute", [local, seven, left], [ZONE.clock(noon)] * 3)
    desk.expect("less four hours", (minute - hours) % of_day, local)
    desk.expect("the instant", minute, noon)
    midnight = since_2000(at(day))
    desk.expect("summer time ends", [ZONE.clock(midnight + ends - 1), ZONE.clock(midnight + ends)], [clocks[1], clocks[4]])
    for utc, shown, minute in (clocks[0:3], clocks[3:6], clocks[6:9]):
        desk.expect("the clock", [shown, minute], [ZONE.clock(midnight + utc)] * 2)


def tables(desk, said):
    early, early_minute, early_a, five, five_minute, five_a, *rest = said
    start, start_minute, given, noon, given_at_noon, *rest = rest
    segments, seven, seven_minute, last = rest
    desk.expect("Table A", [early_a, five_a], [table_a(early), table_a(five)])
    desk.expect("minutes of the day", [early_minute, five_minute, start_minute, seven_minute], [early, five, start, seven])
    desk.expect("Table B", [given, given_at_noon, last], [table_b(start, 2), table_b(noon, 2), table_b(seven, segments)])


def over_table_a(desk, said):
    local, report, out, block_in, length, later, longer = said
    desk.expect("the local time", local, ZONE.clock(since_2000(at(10, report))))
    desk.expect("the lengths", [length, longer], [block_in - out, later - out])
    desk.expect("as the table gives", length, table_a(local))
    for end, sections in ((block_in, []), (later, [A])):
        it = period(at(10, report), [(at(10, out), at(10, end))], at(10, end))
        desk.expect_judged("117.11(a)(1)", [], it, sections)


def over_table_b(desk, said):
    local, report, block_in, length, later, longer = said
    desk.expect("the local time", local, ZONE.clock(since_2000(at(10, report))))
    desk.expect("the lengths", [length, longer], [1_440 + block_in - report, 1_440 + later - report])
    desk.expect("as the table gives", length, table_b(local, 2))
    for end, sections in ((block_in, []), (later, [B])):
        desk.expect_judged("117.13(a)", [], long_period(at(10, report), at(11, end)), sections)


def flight_672_hours(desk, said):
    begin, end, count, first, last, each, out, block_in, day, *rest = said
    hours, window, window_day, part, times, each_too, new, total, hours_again, *rest = rest
    sooner, ends, hours_more, end_more, more = rest
    days = [first + (last - first) * it // (count - 1) for it in range(count)]
    others = [flown(at(day, begin), at(day, end)) for day in days]
    desk.expect("the flights", [count, each, each_too, times], [len(set(days)), end - begin, end - begin, count - 1])
    desk.expect("the window's begin", at(window_day, window), at(day, block_in) - 60 * hours)
    desk.expect("the sum", [part + times * each + new, new], [total, block_in - out])
    held = minutes(others, flight_spans, at(day + 2))
    desk.expect("the first part", part, sum(held[at(window_day, window) : at(window_day + 1)]))
    new_duties = [flown(at(day, out), at(day, block_in)), flown(at(day, sooner), at(day, ends))]
    for it, most, sections in zip(new_duties, (total, more), ([], [FLIGHT_672])):
        all_held = minutes([*others, it], flight_spans, at(day + 2))
        desk.expect("the fullest 672 hours", most, fullest(all_held, minutes([it], flight_spans, at(day + 2)), 60 * hours)[0])
        desk.expect_judged("117.23(b)(1)", others, it, sections)
    desk.expect("a minute earlier", [hours_again, hours_more, end_more], [hours, hours, ends])


def flight_365_days(desk, said):
    each, year, first, last, count, each_too, total, *rest = said
    out, last_day, block_in, here, year_too, there, next_year, *rest = rest
    days, year_again, allowed, sooner, more = rest
    start = date(year, 1, first)
    flights = [start + timedelta(days=it) for it in range(0, (date(year, 12, last) - start).days + 1, 3)]
    others = [flown(at(day, 720), at(day, 720 + each)) for day in flights]
    desk.expect("the flights", [count, each_too, count * each], [len(flights), each, total])
    end_of_year = at(date(next_year, 1, 1))
    evening = date(year, 12, last_day)
    for begin, most, sections in ((out, allowed, []), (sooner, more, [FLIGHT_365])):
        it = flown(at(evening, begin), at(evening, 1_440 + block_in))
        held = minutes([*others, it], flight_spans, end_of_year + 1_440)
        in_year = held[end_of_year - 1_440 * days : end_of_year]
        desk.expect("the 365 days", most, sum(in_year))
        desk.expect_judged("117.23(b)(2)", others, it, sections)
    it = minutes([flown(at(evening, out), at(evening, 1_440 + block_in))], flight_spans, end_of_year + 1_440)
    desk.expect("the parts", [here, there], [sum(it[:end_of_year]), sum(it[end_of_year:])])
    desk.expect("the years", [year_too, next_year, year_again], [year, year + 1, year])


def periods_168_hours(desk, said):
    begin, end, *days = said[:7]
    times, each, total, hours, new_day, out, block_in, more = said[7:]
    others = [long_period(at(day, begin), at(day, end)) for day in days]
    desk.expect("the sum", [times, each, total], [len(days), end - begin, len(days) * each])
    desk.expect("all within 168 hours", at(days[-1], end) - at(days[0], begin) <= 60 * hours, True)
    new = next_to(at(new_day, out), at(new_day, block_in))
    held = minutes([*others, new], period_spans, at(30))
    desk.expect("with the new one", more, fullest(held, minutes([new], period_spans, at(30)), 60 * hours)[0])
    desk.expect_judged("117.23(c)(1)", others, new, [PERIODS_168])


def periods_672_hours(desk, said):
    begin, end, weeks, first, last, year, times, each, total, day, out, block_in, allowed, hours, later, more = said
    days = [it for it in range(first, last + 1) if date(year, 6, it).weekday() < 5]
    others = [long_period(at(it, begin), at(it, end)) for it in days]
    desk.expect("the sum", [times, each, total, weeks], [len(days), end - begin, len(days) * each, len(days) // 5])
    for last_in, most, sections in ((block_in, allowed, []), (later, more, [PERIODS_672])):
        new = long_period(at(day, out), at(day, last_in))
        held = minutes([*others, new], period_spans, at(31))
        desk.expect("the 672 hours", most, fullest(held, minutes([new], period_spans, at(31)), 60 * hours)[0])
        desk.expect_judged("117.23(c)(2)", others, new, sections)


def thirty_hours(desk, said):
    begin, end, first, last, report, day, hours, window, window_day, *rest = said
    new_day, out, release, hours_again, between, after, to_report, noon, day_again, day_too, *rest = rest
    hours_of_new, midnight, new_window, free, free_day, sooner, enough = rest
    trainings = [Training(at(it, begin), at(it, end)) for it in range(first, last + 1)]
    later = period(at(day, report), [(at(day, report + 60), at(day, report + 120))], at(day, report + 180))
    desk.expect("the 168 hours", [at(window_day, window), hours_again], [at(day, report) - 60 * hours, hours])
    desk.expect("the later report", [day_again, day_too, noon], [day, day, report])
    rests = [24 * 60 - (end - begin), at(new_day, out) - at(last, end), at(day, report) - at(new_day, release)]
    desk.expect("the rests", [60 * it for it in (between, after, to_report)], rests)
    desk.expect("those of the new period", at(new_window, midnight), at(new_day, out) - 60 * hours_of_new)
    held = minutes([*trainings, later], duty_spans, at(30))
    free_from, free_to = at(new_window, midnight), at(free_day, free)
    desk.expect("which are free", held.find(1, free_from), free_to)
    desk.expect("thirty hours", 60 * enough, at(day, report) - at(new_day, sooner))
    for end_of_duty, sections in ((release, [REST_30]), (sooner, [])):
        new = period(at(new_day, out), [(at(new_day, out + 60), at(new_day, out + 120))], at(new_day, end_of_duty))
        desk.expect_judged("117.25(b)", [*trainings, later], new, sections)


def ten_hours(desk, said):
    release, report, width, first, last, sooner, minute = said
    earlier = period(at(10, 660), [(at(10, 720), at(10, 1_170))], at(10, release))
    held = minutes([earlier], duty_spans, at(12))
    desk.expect("the free minutes", [at(10, first), at(11, last) + 1], [at(11, report) - width, at(11, report)])
    desk.expect("which are free", sum(before(held, at(11, report), width)), 0)
    desk.expect("the minute that isn't", [at(10, minute), 1], [at(11, sooner) - width, before(held, at(11, sooner), width)[0]])
    for begin, sections in ((report, []), (sooner, [REST_10])):
        new = period(at(11, begin), [(at(11, begin + 60), at(11, begin + 120))], at(11, begin + 180))
        desk.expect_judged("117.25(e)", [earlier], new, sections)


def in_force(desk, said):
    day, report, out, block_in, release, start, seven = said
    noon = since_2000(at(day))
    desk.expect("the report", report, noon + 11 * 60)
    desk.expect("the segment", [out, block_in], [noon + 23 * 60, noon + 31 * 60])
    desk.expect("the release", release, noon + 31 * 60 + 30)
    desk.expect("the start", [start, seven], [ZONE.clock(report)] * 2)


def name_of_exceedance(desk, said):
    number, number_again, part, *rest = said
    desk.expect("the name", [number_again, part, *rest], [number, 0, *(byte + 1 for byte in b"C1"), 0, 2])


def seat_taken(desk, said):
    refusal, first = said
    limits = 12
    desk.expect("which comes first", [refusal, first], [min(refusal, limits)] * 2)
    if desk.room:
        book = desk.book("hire C2 captain: Lee Roy", "plan P1 10: 11:00 | 12:00-19:30 | 20:00", "train G1 10: 05:00-06:00")
        desk.expect("the limit alone", f"{limits} Limits C1 {REST_10}", book.settle("assign P1 C1"))
        desk.expect("the seat is taken", "accepted", book.settle("assign P1 C2"))
        desk.expect("the program", f"{refusal} SeatTaken", book.settle("assign P1 C1"))


def requests(desk, said):
    assigned, released, again, other, refusal = said
    desk.expect("the numbers", [again, other], [assigned, assigned])
    if desk.room:
        book = desk.book("plan P1 10: 11:00 | 12:00-19:30 | 20:00", "hire C2 captain: Lee Roy")
        asked = ((assigned, "assign P1 C1"), (released, "release P1 C1"), (again, "assign P1 C1"))
        answers = [book.ask(number, it) for number, it in asked]
        desk.expect("the program", ["accepted", "accepted", "repeated"], answers)
        desk.expect("the seat", ["P1 - -"], book.seats())
        desk.expect("another command", f"{refusal} NumberUsed", book.ask(other, "assign P1 C2"))


def accepted_or_limits(desk, said):
    release, sooner, refusal, report, count = said
    earlier = period(at(10, 660), [(at(10, 720), at(10, 1_170))], at(10, release))
    desk.expect("the number of limits, and of their refusal", [count, refusal], [8, 12])
    for begin, sections in ((sooner, [REST_10]), (report, [])):
        new = period(at(11, begin), [(at(11, begin + 60), at(11, begin + 120))], at(11, begin + 180))
        desk.expect_judged("the assignment", [earlier], new, sections)


def honest(desk, said):
    late, release, report, width, report_again, number = said
    planned = (720, 1_200)
    flight = [(at(10, it + 60 * late)) for it in planned]
    first = period(at(10, 660), [tuple(flight)], at(11, release), planned=at(10, 660))
    second = period(at(11, report), [(at(11, report + 60), at(11, report + 150))], at(11, report + 210))
    held = minutes([first], duty_spans, at(13))
    desk.expect("the minutes before the second report", [report_again, width], [report, sum(before(held, at(11, report), width))])
    desk.expect("the first alone", broken([first], [], BASE), [B])
    desk.expect("both", broken([first], [second], BASE), [B, REST_10])
    if desk.room:
        plans = ["hire F1 first-officer: Zoë Roy", "plan P13A 10: 11:00 | 12:00-20:00 | 20:30", f"plan P13B {line(second)}"]
        book = desk.book(*plans, "assign P13A C1", "assign P13A F1", "assign P13B C1")
        actual = f"fly P13A 1 {line(first)}"
        desk.expect("the program", f"accepted C1 {B} C1 {REST_10} F1 {B}", book.ask(number, actual))
        records = [f"{number} 0 {who} {section} P13A 1" for who, section in (("C1", B), ("C1", REST_10), ("F1", B))]
        desk.expect("what it records", records, book.exceedances())
        july = "day-195: 11:00 | 12:00-20:00 | 20:30"
        for it in (f"plan P14 {july}", "assign P14 C1", "assign P14 F1"):
            desk.expect(it, "accepted", book.settle(it))
        desk.expect("once more", f"accepted C1 {B} F1 {B}", book.settle("fly P14 1 day-195: 11:00 | 23:00-+1 07:00 | +1 07:30"))


def list_of_commands(desk, said):
    number, *_, refusal, of_first, first, of_third, third = said
    desk.expect("the parts", said[:6], [number, 1, number, 2, number, 3])
    pairings, keys, replies = {"P20"}, {}, []
    for _ in range(2):
        for part, name in enumerate(("P10", "P20", "P30"), 1):
            is_new = part not in keys and name not in pairings
            pairings |= {name}
            keys |= {part: name} if is_new else {}
            replies.append("accepted" if keys.get(part) == name else refusal)
    desk.expect("the replies", replies, ["accepted", 5, "accepted"] * 2)
    desk.expect("the keys", [(of_first, first), (of_third, third)], [(number, part) for part in keys])
    if desk.room:
        book = desk.book("plan P20 10: 11:00 | 12:00-14:00 | 15:00")
        lines = [f"plan {name} 11: 11:00 | 12:00-14:00 | 15:00" for name in ("P10", "P20", "P30")]
        for _ in range(2):
            ran = book.import_schedule(number, schedule(lines))
            desk.expect("the program", f"1 accepted\n2 refused {refusal} PairingExists\n3 accepted\n", ran.out)
        desk.expect("the keys that it holds", [(number, first), (number, third)], [row[:2] for row in book.requests() if row[0] == number])


def rows_of_tables(desk, said):
    seat, number, number_again, none = said
    desk.expect("the number of a period", number_again, number)
    if desk.room:
        book = desk.book("hire F1 first-officer: Zoë Roy", "plan P1 10: 11:00 | 12:00-14:00 | 15:00; 12: 11:00 | 12:00-20:00 | 20:30")
        for it in ("assign P1 C1", "assign P1 F1"):
            desk.expect(it, "accepted", book.settle(it))
        desk.expect("the captain's seat", [("P1", seat, "C1")], book.rows("SELECT * FROM seat WHERE crew = 'C1'"))
        late = f"fly P1 {number} 12: 11:00 | 23:00-+1 07:00 | +1 07:30"
        desk.expect(late, f"accepted C1 {B} F1 {B}", book.settle(late))
        soon = "outside X1 C1 13: 12:00 | 13:00-14:00 | 15:00"
        desk.expect(soon, f"accepted C1 {REST_10}", book.settle(soon))
        named = book.rows("SELECT DISTINCT pairing, period FROM exceedance ORDER BY pairing")
        desk.expect("the last two columns", [("P1", number), ("X1", none)], named)


def kept_texts(desk, said):
    (minute,) = said
    desk.expect("the minute", minute, value(TOKEN.search("2025-06-10T11:00Z")))
    if desk.room:
        book = desk.book("plan P1 10: 11:00 | 12:00-19:30 | 20:00", "assign P1 C1")
        *_, kept = book.requests()
        desk.expect("what is kept", re.findall(r"`(\{.*?\})`", desk.text), [*kept[2:]])
        desk.expect("the seat", [("P1", 0, "C1")], book.rows("SELECT * FROM seat"))


def ids(desk, said):
    (length,) = said
    texts = [*re.findall(r"`(.*?)`", desk.text), "A" * length]
    are_ids = [re.fullmatch(r"[A-Z0-9-]{1,12}", text) is not None for text in texts]
    desk.expect("which are ids", are_ids, [True, False, False])
    if desk.room:
        answers = [desk.book().settle(f"cancel {text}").split()[0] for text in texts]
        desk.expect("the program", ["4" if it else "18" for it in are_ids], answers)


def refused_unseen(desk, said):
    other, outside = (name for name in re.findall(r"`(.*?)`", desk.text) if name not in ("x1", "c1"))
    lines = ("swap P1 C1 P2 C1", "outside x1 c1 10: 11:00 | 12:00-13:00 | 14:00")
    desk.expect("the refusals", said, [18, 18])
    if desk.room:
        answers = [desk.book().settle(it) for it in lines]
        desk.expect("the program", [f"{said[0]} BadField {other}", f"{said[1]} BadField {outside}"], answers)


def refused_pairings(desk, said):
    *of_plans, begin, end, times, of_times, count, of_count = said
    desk.expect("a duty without a minute", begin, end)
    desk.expect("the refusals", [*of_plans, times, of_times, count, of_count], [16, 2, 19, 0, 16, 0, 19, 0])
    if desk.room:
        book = desk.book()
        two = "plan P1 10: 11:00 | 12:00-14:00 | 20:00; 10: 19:59 | 21:00-22:00 | 23:00"
        answers = [book.settle(it).split() for it in (two, "plan P1", "train G1 10: 12:00-12:00", "outside X1 C1 10: 11:00 |  | 12:00")]
        pairs = [*of_plans, times, of_times, count, of_count]
        desk.expect("the program", pairs, [int(word) for it in answers for word in (it[0], it[-1])])


def rest_before(desk, said):
    begin, end, day, report, rest, hours, clock, from_day, midnight, to_day, longest = said
    training = Training(at(day, begin), at(day, end))
    held = before(minutes([training], duty_spans, at(12)), at(day, report), 60 * hours)
    desk.expect("the rest just before", rest, rest_at_the_end(held))
    desk.expect("the longest", longest, longest_rest(held))
    desk.expect("where it is", [at(from_day, clock), at(to_day, midnight)], [at(day, report) - 60 * hours, training.begin])


def fullest_windows(desk, said):
    out, block_in, day, year, hours, most, clock, first_day, days, day_again, year_day, year_before = said
    held = minutes([flown(at(day, out), at(day, block_in))], flight_spans, at(40))
    desk.expect("the most, and where it is first", [most, at(first_day, clock)], list(fullest(held, held, 60 * hours)))
    first = date(year_before, 6, year_day)
    desk.expect("the first 365 days", first + timedelta(days=days - 1), date(year, 6, day_again))
    desk.expect("the day", day_again, day)


def least_left(desk, said):
    flight, given, other, other_given, left, longer = said
    desk.expect("what is left", left, given - flight)
    desk.expect("which is nearest", min(given - flight, other_given - other), left)
    desk.expect("a minute too much", longer, given + 1)
    desk.expect("what Table A gives", {given, other_given} <= {table_a(it) for it in range(1_440)}, True)


def exceeding(desk, said):
    flight, most, hours, more = said
    desk.expect("the limits", [most, hours, more, flight], [60 * 60, 168, most + 1, 541])


# An example by its first words, and what counts it; or nothing, where it has no number to count but those that other examples count.
CHECKS = {
    "C1 is added, then P10": life_of_two_sessions,
    "`IsOver width most all new` has": None,
    "2025-06-10T00:00Z is": minutes_and_spans,
    "Of the spans from minute": union_of_spans,
    "A period reports at": kinds_of_time,
    "By `EST5EDT,M3.2.0,M11.1.0` the clock": rule_of_zone,
    "In that zone 2025-06-10T11:00Z": acclimated_time,
    "A report at 04:59 (minute": tables,
    "in the zone above in June.": over_table_a,
    "in the same zone.": over_table_b,
    "A member flies 12:00-20:00": flight_672_hours,
    "A member flies 500 minutes": flight_365_days,
    "A member has a flight duty period from 12:00 to 24:00 on each": periods_168_hours,
    "A member has a flight duty period from 12:00 to 24:00 on Monday": periods_672_hours,
    "Ground duties 12:00-20:00": thirty_hours,
    "A period is released at": ten_hours,
    "A period of 2025-06-10, in": in_force,
    "The exceedance of C1": name_of_exceedance,
    "C1 is a captain, and C2": seat_taken,
    "Request 20 assigns C1": requests,
    "C1 holds a period that is released": accepted_or_limits,
    "C1's P13A/1 is flown": honest,
    "The book holds P20.": list_of_commands,
    "C1 holds the captain's seat": rows_of_tables,
    "Minute 13,381,140 is written": kept_texts,
    "`P-801` is an id.": ids,
    "Two periods, of which": refused_pairings,
    "A swap of C1 with C1": refused_unseen,
    "A book with a ground duty": None,
    "A database without": None,
    "A member is on the ground": rest_before,
    "A member flies from 12:00": fullest_windows,
    "Of two new periods": least_left,
    "With the period of 541": exceeding,
    "Of three connections one was silent": None,
    "Import 500 of P10": None,
    "The commit of a command": None,
    "A book is durably at the state in which": None,
    "Import 500 of three": None,
    "A book is made in an empty": None,
    "A book whose table `seat`": None,
}


def try_example(desk, text, found):
    starts = [start for start in CHECKS if text.startswith(start)]
    desk.text = text
    desk.expect("how many checks the example has", 1, len(starts))
    found |= set(starts)
    check = CHECKS[starts[0]] if starts else None
    if check:
        try:
            check(desk, tokens(text))
        except (TypeError, ValueError) as error:
            desk.expect(f"the numbers, which can't be counted: {error}", tokens(text), None)


def main():
    words = sys.argv[1:]
    if words not in ([], ["--no-program"]):
        sys.exit(__doc__)
    if not words and not build():
        return 3
    with tempfile.TemporaryDirectory(prefix="worked-") as room:
        desk = Desk(None if words else room)
        found = set()
        for text in examples():
            try_example(desk, text, found)
        for start in CHECKS.keys() - found:
            desk.expect(f"an example that begins with '{start}'", "not there", "there")
    print(f"{desk.passed} passed, {desk.failed} failed")
    return 1 if desk.failed else 0


if __name__ == "__main__":
    sys.exit(main())
