#!/usr/bin/env python3
"""Runs the examples that show duties elsewhere, examples/duty_calendar.py and examples/chart.py, over books of their own.

    tests/pictures.py [NAME..]

Calendars are compared with texts that were worked out. Of a chart its SVG is read: where each bar begins and ends, in days of the month,
what is written, and what is marked. Both are asked for a book's file, and for the address of its server. What differs is printed on
standard error. The last line is 'N passed, M failed', and the exit status 1 where M isn't 0.

The examples run by the Python that runs this script, or by the system's, where only that has the packages `icalendar` and `matplotlib`.
The cases of a package that neither has are passed over.
"""

import os
import shutil
import subprocess
import sys
import tempfile
import xml.etree.ElementTree as ElementTree
from dataclasses import dataclass
from pathlib import Path

from office import PROGRAM, TOP, ZONE, Book, Ran, build, order, told
from server import free_port, serving

EXAMPLES = TOP / "examples"
PYTHONS = (sys.executable, "/usr/bin/python3")
CALENDAR, CHART = "duty_calendar.py", "chart.py"
PACKAGES = {CALENDAR: ("icalendar", "python3-icalendar"), CHART: ("matplotlib", "python3-matplotlib")}
MINUTE = 1 / 1440  # of a day
SVG = "{http://www.w3.org/2000/svg}"

# C1 has flown P1 with F1, nine hours after X0, and holds P2 of two periods. C9, who belongs to another base, has flown P3 with F3, for
# fourteen hours. The task has what a calendar has to escape, and a character that ends a line for Python, though not in a report.
OFFICE = """
    hire C1 captain: Ada Ray
    hire F1 first-officer: Zoë Roy
    hire F2 first-officer: No Body
    hire F3 first-officer: Ann Oh
    base DEN: MST7MDT,M3.2.0,M11.1.0
    hire C9 captain DEN: Lee $Roy$
    plan P1 10: 11:00 | 12:00-14:00, 15:00-17:00 | 18:00
    plan P2 12: 11:00 | 12:00-14:00 | 15:00; 13: 22:00 | 23:00-+1 01:00, +1 02:00-+1 03:00 | +1 03:30
    plan P3 10: 16:00 | 16:30-20:30 | 21:00
    assign P3 F3
    assign P1 C1
    assign P1 F1
    assign P2 C1
    assign P3 C9
    {"do":"add-ground","ground":"G1","crew":"C1","begin":"2025-06-16T12:00Z","end":"2025-06-16T20:00Z","task":"a, \\"b\\"; c\\\\d\\u2028e"}
    outside X0 C1 9: 16:00 | 17:00-+1 01:00 | +1 02:00
    outside G1 C1 20: 13:00 | 14:00-17:00, 19:00-22:30 | 23:00
    fly P1 1 10: 11:00 | 12:00-14:00, 19:00-21:15 | 21:30
    fly P3 1 10: 16:00 | 16:30-+1 06:30 | +1 07:00
"""

CALENDAR_OF_C1 = """\
BEGIN:VCALENDAR
VERSION:2.0
PRODID:-//rosterbook//duty_calendar//EN
X-WR-CALNAME:C1 Ada Ray
BEGIN:VEVENT
SUMMARY:outside X0
DTSTART:20250609T160000Z
DTEND:20250610T020000Z
DTSTAMP:20250609T160000Z
UID:C1.outside.X0@rosterbook
SEQUENCE:0
DESCRIPTION:flown for another certificate holder: flight duty period 9:00\\, flight time 8:00
END:VEVENT
BEGIN:VEVENT
SUMMARY:P1/1 BOS-IAD-BOS
DTSTART:20250610T110000Z
DTEND:20250610T213000Z
DTSTAMP:20250610T110000Z
UID:C1.pairing.P1.1@rosterbook
SEQUENCE:1
DESCRIPTION:actual: flight duty period 10:15\\, flight time 4:15\\nRB1 BOS 2025-06-10 12:00Z IAD 2025-06-10 14:00Z\\n\
RB2 IAD 2025-06-10 19:00Z BOS 2025-06-10 21:15Z\\ncaptain C1\\nfirst officer F1
END:VEVENT
BEGIN:VEVENT
SUMMARY:P2/1 BOS-IAD
DTSTART:20250612T110000Z
DTEND:20250612T150000Z
DTSTAMP:20250612T110000Z
UID:C1.pairing.P2.1@rosterbook
SEQUENCE:0
DESCRIPTION:plan: flight duty period 3:00\\, flight time 2:00\\nRB1 BOS 2025-06-12 12:00Z IAD 2025-06-12 14:00Z\\n\
captain C1\\nfirst officer -
END:VEVENT
BEGIN:VEVENT
SUMMARY:P2/2 IAD-BOS-IAD
DTSTART:20250613T220000Z
DTEND:20250614T033000Z
DTSTAMP:20250613T220000Z
UID:C1.pairing.P2.2@rosterbook
SEQUENCE:0
DESCRIPTION:plan: flight duty period 5:00\\, flight time 3:00\\nRB2 IAD 2025-06-13 23:00Z BOS 2025-06-14 01:00Z\\n\
RB3 BOS 2025-06-14 02:00Z IAD 2025-06-14 03:00Z\\ncaptain C1\\nfirst officer -
END:VEVENT
BEGIN:VEVENT
SUMMARY:G1 a\\, "b"\\; c\\\\d\u2028e
DTSTART:20250616T120000Z
DTEND:20250616T200000Z
DTSTAMP:20250616T120000Z
UID:C1.ground.G1@rosterbook
SEQUENCE:0
DESCRIPTION:ground duty
END:VEVENT
BEGIN:VEVENT
SUMMARY:outside G1
DTSTART:20250620T130000Z
DTEND:20250620T230000Z
DTSTAMP:20250620T130000Z
UID:C1.outside.G1@rosterbook
SEQUENCE:0
DESCRIPTION:flown for another certificate holder: flight duty period 9:30\\, flight time 6:30
END:VEVENT
END:VCALENDAR
"""


# ---- The examples.


@dataclass(frozen=True)
class Examples:
    """The examples, and what they are tried on."""

    room: str  # a folder
    book: Book  # of OFFICE
    python: dict  # of each example that which has its package, or None

    @classmethod
    def found(cls, room):
        python = {script: next((it for it in PYTHONS if has(it, package)), None) for script, (package, _) in PACKAGES.items()}
        return cls(room, office_in(room, OFFICE), python)

    def folder(self):
        """A new folder."""
        return Path(tempfile.mkdtemp(dir=self.room))

    def run(self, script, *words, program=PROGRAM, folder=EXAMPLES, **environment):
        """Runs an example with these words, which has to find the program itself where none is given."""
        words = [self.python[script] or sys.executable, folder / script, *words, *(["--program", program] if program else [])]
        ran = subprocess.run(words, capture_output=True, env={**os.environ, **environment})
        return Ran(ran.returncode, ran.stdout.decode(), ran.stderr.decode())


def has(python, package):
    """Whether a Python is there and has a package."""
    try:
        return subprocess.run([python, "-c", f"import {package}"], capture_output=True).returncode == 0
    except OSError:
        return False


def lines_of(page):
    return [line for line in map(str.strip, page.splitlines()) if line]


def office_in(room, page):
    """A book for which each line was accepted."""
    book = Book.made(room)
    for line in lines_of(page):
        answer = told(book.do(book.take_number(), order(line)))
        if not answer.startswith("accepted"):
            raise RuntimeError(f"{line}: {answer}")
    return book


def unlike(what, got, wanted):
    return [] if got == wanted else [f"{what}: wanted {wanted!r}, and got {got!r}"]


def address_of(server):
    return f"http://127.0.0.1:{server.port}"


# ---- Calendars.


def unfolded(text):
    """The lines of a calendar, each of which ends with CR LF and is folded at 75 bytes."""
    lines = text.split("\r\n")
    long = [line for line in lines if len(line.encode()) > 75 or "\n" in line]
    if lines[-1] or long:
        return f"lines that are too long, or end in another way: {long}"
    return text.replace("\r\n ", "").replace("\r\n", "\n")


def a_calendar_of_a_file(examples):
    book, ran = examples.book, examples.run(CALENDAR, examples.book.file, "C1")
    bad = unlike("how it ended", (ran.status, ran.err), (0, "")) + unlike("the calendar", unfolded(ran.out), CALENDAR_OF_C1)
    bad += unlike("the same again", examples.run(CALENDAR, book.file, "C1"), ran)
    none = Ran(1, "", "duty_calendar.py: F2 has no duty, so there is no calendar\n")
    return bad + unlike("without a duty", examples.run(CALENDAR, book.file, "F2"), none)


def a_calendar_of_a_server(examples):
    """One connection for the roster, and one for each of the two pairings."""
    with serving(examples.book, 3) as server:
        ran = examples.run(CALENDAR, address_of(server), "C1", http_proxy="http://127.0.0.1:9", no_proxy="")
        bad = unlike("how the server ended", server.end(), server.served())
    return bad + unlike("how it ended", (ran.status, ran.err), (0, "")) + unlike("the calendar", unfolded(ran.out), CALENDAR_OF_C1)


# ---- Charts.


@dataclass(frozen=True)
class Chart:
    """What an SVG shows."""

    bars: dict  # the days since the begin of the month, of 24 hours, at which each begins and ends
    heights: dict  # where each is, from its top to its bottom
    looks: dict
    marks: set  # the bars with a mark
    texts: list

    @classmethod
    def read(cls, path, days):
        """The chart of a month that lasts this many days."""
        root = ElementTree.parse(path).getroot()
        groups = {it.get("id", ""): it for it in root.iter(f"{SVG}g")}
        (left, right), _ = extent(groups["month"])
        place = lambda x: (x - left) / (right - left) * days
        drawn = {name: it for name, it in groups.items() if name.count(".") >= 2 and not name.endswith(".exceeds")}
        return cls(
            bars={name: tuple(map(place, extent(it)[0])) for name, it in drawn.items()},
            heights={name: extent(it)[1] for name, it in drawn.items()},
            looks={name: it.find(f"{SVG}path").get("style") for name, it in drawn.items()},
            marks={name.removesuffix(".exceeds") for name in groups if name.endswith(".exceeds")},
            texts=[it.text for it in root.iter(f"{SVG}text")],
        )

    def differs(self, bars):
        """Which bars aren't those that are wanted, to the minute."""
        wrong = [
            f"{name} is at {self.bars[name]}, and not at {span}"
            for name, span in bars.items()
            if name in self.bars and max(abs(a - b) for a, b in zip(span, self.bars[name])) > MINUTE / 2
        ]
        return unlike("the bars", sorted(self.bars), sorted(bars)) + wrong


def extent(group):
    """How far the path in a group reaches, across and down."""
    words = group.find(f"{SVG}path").get("d").split()
    points = [(float(x), float(y)) for command, x, y in zip(words, words[1:], words[2:]) if command in "ML"]
    return tuple((min(numbers), max(numbers)) for numbers in zip(*points))


def charted(examples, source, *words, days=30):
    """The chart that is drawn, an empty one where none is, and what differs of how that ended."""
    output = examples.folder() / "chart.svg"
    ran = examples.run(CHART, source, *words, "--output", output)
    chart = Chart.read(output, days) if output.exists() else Chart({}, {}, {}, set(), [])
    return chart, unlike("how it ended", ran, Ran(0, "", ""))


def at(day, hours, minutes=0):
    """The place of a time of a day of the month."""
    return day - 1 + hours / 24 + minutes * MINUTE


# The duties of OFFICE by the clock of New York, four hours behind UTC.
BARS = {
    "C1.outside.X0": (at(9, 12), at(9, 22)),
    "C1.pairing.P1.1": (at(10, 7), at(10, 17, 30)),
    "C1.pairing.P2.1": (at(12, 7), at(12, 11)),
    "C1.pairing.P2.2": (at(13, 18), at(13, 23, 30)),
    "C1.ground.G1": (at(16, 8), at(16, 16)),
    "C1.outside.G1": (at(20, 9), at(20, 19)),
    "F1.pairing.P1.1": (at(10, 7), at(10, 17, 30)),
    "C9.pairing.P3.1": (at(10, 12), at(11, 3)),
}
LOOKS = {
    "planned": {"C1.pairing.P2.1", "C1.pairing.P2.2"},
    "flown": {"C1.pairing.P1.1", "F1.pairing.P1.1", "C9.pairing.P3.1"},
    "outside: for another certificate holder": {"C1.outside.X0", "C1.outside.G1"},
    "ground duty": {"C1.ground.G1"},
}
# X0 takes rest from P1, of C1 alone. For C9, who reports at ten, the tables have 9 hours of flight and 14 of duty.
EXCEEDED = {"C1.outside.X0", "C1.pairing.P1.1", "C9.pairing.P3.1"}
BELOW = ["C1 exceeds: outside X0 117.25(e); P1/1 117.25(e)", "C9 exceeds: P3/1 117.11(a)(1), 117.13(a)"]
LABELS = ["G1", "P1/1", "P1/1", "P2/1", "P2/2", "P3/1", "X0"]
WRITTEN = {"Duties in June 2025", f"local time by {ZONE}", "UTC: 00:00 of each day", "Lee $Roy$", "captain, DEN", "first officer", "Zoë Roy"}


def seen_in(chart):
    """What differs of the chart of C1, F1 and C9 in New York."""
    bad = chart.differs(BARS) + unlike("the marks", chart.marks, EXCEEDED)
    bad += unlike("the labels", sorted(it for it in chart.texts if it in LABELS), LABELS)
    bad += unlike("the lines below", sorted(it for it in chart.texts if "exceeds:" in it), BELOW)
    bad += unlike("texts that are missing", (WRITTEN | LOOKS.keys()) - set(chart.texts), set())
    alike = {look: {name for name, its_look in chart.looks.items() if its_look == look} for look in chart.looks.values()}
    bad += unlike("the bars that look alike", sorted(map(sorted, alike.values())), sorted(map(sorted, LOOKS.values())))
    rows = sorted({(height, name.partition(".")[0]) for name, height in chart.heights.items()})
    return bad + unlike("the rows", [crew for _, crew in rows], ["C1", "F1", "C9"])


def a_chart_of_a_file(examples):
    chart, bad = charted(examples, examples.book.file, "C1", "F1", "C9", "--zone", ZONE)
    return bad + seen_in(chart)


def a_chart_of_all_members(examples):
    """Without a CREW each member has a row, in the order of the ids, also one without a duty."""
    chart, bad = charted(examples, examples.book.file, "--zone", ZONE)
    rows = sorted({(height, name.partition(".")[0]) for name, height in chart.heights.items()})
    bad += unlike("the rows with a duty", [crew for _, crew in rows], ["C1", "C9", "F1", "F3"])
    return bad + unlike("the ids", sorted(it for it in chart.texts if it in ("C1", "C9", "F1", "F2", "F3")), ["C1", "C9", "F1", "F2", "F3"])


def a_chart_of_a_server(examples):
    """One connection for each member, and one for the exceedances."""
    with serving(examples.book, 4) as server:
        chart, bad = charted(examples, address_of(server), "C1", "F1", "C9", "--zone", ZONE)
        bad += unlike("how the server ended", server.end(), server.served())
    return bad + seen_in(chart)


def a_chart_in_utc(examples):
    chart, bad = charted(examples, examples.book.file, "C9", "--zone", "UTC0")
    bad += chart.differs({"C9.pairing.P3.1": (at(10, 16), at(11, 7))})
    return bad + unlike("what says the time", [it for it in chart.texts if "local" in it], ["local time by UTC0"])


def a_chart_by_the_zone_of_the_base(examples):
    """Without --zone local time is that of the first member's base: of DEN, six hours behind UTC."""
    chart, bad = charted(examples, examples.book.file, "C9", "C1")
    mine = {name: span for name, span in BARS.items() if name.startswith("C1")}
    two_hours = 2 / 24  # that Denver is behind New York
    bad += chart.differs({"C9.pairing.P3.1": (at(10, 10), at(11, 1)), **{name: (a - two_hours, b - two_hours) for name, (a, b) in mine.items()}})
    said = [it for it in chart.texts if "UTC" in it or "local" in it]
    return bad + unlike("what says the time", sorted(said), ["UTC: 00:00 of each day", "local time by MST7MDT,M3.2.0,M11.1.0"])


def the_month_of_the_first_duty(examples):
    """A duty from 22:00 on the last of June in New York to 06:00, which is in July by UTC, and goes on in July by local time."""
    book = office_in(examples.room, """
        hire C1 captain: Ada Ray
        plan P1 day-182: 02:00 | 03:00-09:00 | 10:00
        assign P1 C1
    """)  # fmt: skip
    bad = []
    for words, days, title, span in (
        (["--zone", ZONE], 30, "Duties in June 2025", (at(30, 22), 30)),
        (["--zone", ZONE, "--month", "2025-07"], 31, "Duties in July 2025", (0, at(1, 6))),
        (["--zone", "UTC0"], 31, "Duties in July 2025", (at(1, 2), at(1, 10))),
        (["--zone", "UTC0", "--month", "2025-06"], 30, "Duties in June 2025", None),
    ):
        chart, differs = charted(examples, book.file, "C1", *words, days=days)
        bad += differs + chart.differs({"C1.pairing.P1.1": span} if span else {})
        bad += unlike(f"{words}: the title", [it for it in chart.texts if it.startswith("Duties")], [title])
    return bad


def a_month_of_a_change_of_clocks(examples):
    """In New York March of 2025 has an hour less, at 02:00 of the ninth. A bar is as long as its duty, and days begin at midnight."""
    book = office_in(examples.room, """
        hire C1 captain: Ada Ray
        plan P1 day-68: 04:00 | 05:00-08:00 | 09:00
        plan P2 day-69: 11:00 | 12:00-19:00 | 20:00
        assign P1 C1
        assign P2 C1
    """)  # fmt: skip
    chart, bad = charted(examples, book.file, "C1", "--zone", ZONE, days=31 - 1 / 24)
    return bad + chart.differs({"C1.pairing.P1.1": (at(8, 23), at(9, 4)), "C1.pairing.P2.1": (at(10, 6), at(10, 15))})


def duties_at_one_time(examples):
    """Bars of duties that overlap lie one above the other, and hide nothing."""
    book = office_in(examples.room, """
        hire C1 captain: Ada Ray
        outside X1 C1 10: 11:00 | 12:00-19:00 | 20:00
        outside X2 C1 10: 15:00 | 16:00-22:00 | 23:00
    """)  # fmt: skip
    chart, bad = charted(examples, book.file, "C1", "--zone", "UTC0")
    bad += chart.differs({"C1.outside.X1": (at(10, 11), at(10, 20)), "C1.outside.X2": (at(10, 15), at(10, 23))})
    heights = sorted(chart.heights.values())
    bad += unlike("whether one is below the other", [upper[1] <= lower[0] for upper, lower in zip(heights, heights[1:])], [True])
    return bad + unlike("the labels", sorted(it for it in chart.texts if it in ("X1", "X2")), ["X1", "X2"])


def the_same_chart_again(examples):
    """An SVG is the same bytes, and a PNG is one."""
    book, folder = examples.book, examples.folder()
    files = [folder / name for name in ("a.svg", "b.svg", "c.png")]
    bad = [it for file in files for it in unlike(file.name, examples.run(CHART, book.file, "C1", "--output", file), Ran(0, "", ""))]
    first, second, picture = (file.read_bytes() for file in files)
    return bad + unlike("the second", second == first, True) + unlike("a PNG", picture[:8], b"\x89PNG\r\n\x1a\n")


def words_that_a_chart_refuses(examples):
    book, output = examples.book, examples.folder() / "chart.svg"
    bad = []
    for words, wanted in (
        (["--zone", "America/New_York"], 2),
        (["--zone", "EST5EDT"], 2),
        (["--zone", ""], 2),
        (["--month", "2025-13"], 2),
        (["--month", "0001-01"], 2),
        (["--output", output.with_suffix(".pdf")], 2),
        (["--output", output.parent / "none" / "chart.svg"], 1),
    ):
        ran = examples.run(CHART, book.file, "C1", "--output", output, *words)
        bad += unlike(f"{words}", (ran.status, "chart.py: " in ran.err), (wanted, True))
    ran = examples.run(CHART, book.file, "F2", "--output", output)
    bad += unlike("no duty", ran, Ran(1, "", "chart.py: there is no duty; --month names a month without one\n"))
    return bad + unlike("what is written", list(output.parent.iterdir()), [])


# ---- What is refused.


def whoever_is_not_there_is_refused(examples, script):
    book, output = examples.book, examples.folder() / "chart.svg"
    more = ["--output", output] if script == CHART else []
    no_crew = Ran(1, "", "refused 2 NoSuchCrew\n")
    bad = unlike("of a file", examples.run(script, book.file, "C8", *more), no_crew)
    bad += unlike("no book", examples.run(script, book.folder / "none.db", "C1", *more), Ran(1, "", "refused 40 NotABook\n"))
    with serving(book, 3) as server:
        bad += unlike("of a server", examples.run(script, address_of(server), "C8", *more), no_crew)
        bad += unlike("a wrong id", examples.run(script, address_of(server), "C 1/", *more), no_crew)
        no_path = f"{script}: {address_of(server)}/json/crew/: HTTP Error 404: Not Found\n"
        bad += unlike("no id", examples.run(script, address_of(server), "", *more), Ran(1, "", no_path))
    nobody = f"http://127.0.0.1:{free_port()}"
    ran = examples.run(script, nobody, "C1", *more)
    bad += unlike("no server", (ran.status, ran.out, ran.err.count("\n")), (1, "", 1))
    bad += unlike("no server", ran.err.startswith(f"{script}: {nobody}/json/crew/C1: "), True)
    return bad + unlike("what is written", output.exists(), False)


def the_program_is_found(examples, script):
    """On the PATH first; then beside the folder of the examples; and where it is named."""
    book, folder = examples.book, examples.folder()
    words = [book.file, "C8", *(["--output", folder / "chart.svg"] if script == CHART else [])]
    other = folder / "rosterbook"
    other.write_text("#!/bin/sh\necho refused by the other >&2\nexit 3\n")
    other.chmod(0o755)
    path = os.environ["PATH"]
    by_other, by_program = Ran(1, "", "refused by the other\n"), Ran(1, "", "refused 2 NoSuchCrew\n")
    bad = unlike("on the PATH", examples.run(script, *words, program=None, PATH=f"{folder}:{path}"), by_other)
    bad += unlike("named", examples.run(script, *words, PATH=f"{folder}:{path}"), by_program)
    bad += unlike("beside", examples.run(script, *words, program=None), by_program)
    ran = examples.run(script, *words, program=folder / "none")
    return bad + unlike("nowhere", (ran.status, ran.err.split(";")[0]), (1, f"{script}: {folder}/none: No such file or directory"))


def a_missing_package_is_named(examples, script):
    """A module of the name that can't be imported stands for none. Help is there without the package."""
    folder, (package, debian) = examples.folder(), PACKAGES[script]
    (folder / f"{package}.py").write_text("raise ModuleNotFoundError\n")
    more = ["--output", folder / "chart.svg"] if script == CHART else []
    ran = examples.run(script, "roster.db", "C1", *more, PYTHONPATH=str(folder))
    bad = unlike("what is printed", ran, Ran(2, "", f"{script}: it needs the package {package} (Debian: {debian})\n"))
    ran = examples.run(script, "--help", PYTHONPATH=str(folder))
    return bad + unlike("--help", (ran.status, ran.out.split()[:2], ran.err), (0, ["usage:", script], ""))


def nothing_is_left_beside_a_script(examples, script):
    """Nothing that ./install wouldn't remove: Python keeps what it has compiled of a module in a folder beside it."""
    folder = Path(shutil.copytree(EXAMPLES, examples.folder() / "examples", ignore=shutil.ignore_patterns("__pycache__")))
    before = sorted(folder.iterdir())
    ran = examples.run(script, "--help", folder=folder, PYTHONDONTWRITEBYTECODE="")
    return unlike("how it ended", (ran.status, ran.err), (0, "")) + unlike("the folder", sorted(folder.iterdir()), before)


CASES = {
    CALENDAR: (a_calendar_of_a_file, a_calendar_of_a_server),
    CHART: (
        a_chart_of_a_file, a_chart_of_all_members, a_chart_of_a_server, a_chart_in_utc, a_chart_by_the_zone_of_the_base,
        the_month_of_the_first_duty, a_month_of_a_change_of_clocks, duties_at_one_time, the_same_chart_again, words_that_a_chart_refuses,
    ),
}  # fmt: skip
OF_BOTH = (whoever_is_not_there_is_refused, the_program_is_found, nothing_is_left_beside_a_script)


def cases_of(examples):
    """Each case that can be tried, by its name, with its arguments."""
    cases = {}
    for script, (package, _) in PACKAGES.items():
        cases[f"{script}_{a_missing_package_is_named.__name__}"] = (a_missing_package_is_named, script)
        if not examples.python[script]:
            print(f"tests/pictures.py: {script}: skipped, since no Python has the package {package}", file=sys.stderr)
            continue
        cases |= {case.__name__: (case,) for case in CASES[script]}
        cases |= {f"{script}_{case.__name__}": (case, script) for case in OF_BOTH}
    return cases


def main(names):
    if not build():
        return 3
    failed = 0
    with tempfile.TemporaryDirectory() as room:
        examples = Examples.found(room)
        cases = cases_of(examples)
        for name in names or cases:
            case, *arguments = cases[name]
            bad = case(examples, *arguments)
            failed += bool(bad)
            for line in bad:
                print(f"tests/pictures.py: {name}: {line}", file=sys.stderr)
    print(f"{len(names or cases) - failed} passed, {failed} failed")
    return 1 if failed else 0


if __name__ == "__main__":
    sys.exit(main(sys.argv[1:]))
