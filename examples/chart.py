#!/usr/bin/env python3
"""Draws the duties of members over a month: a row for each member, a bar for each duty.

    chart.py roster.db C1 C2 F1 --output june.svg
    chart.py roster.db --output all.svg
    chart.py http://127.0.0.1:8117 C1 --month 2025-07 --zone UTC0 --output july.png

Without a CREW all members have a row. The days are those of local time at the base of the first member, or by the rule of --zone; UTC
stands above. A red triangle marks a duty of which an exceedance is on record, and the lines below name the sections. The same book gives
the same SVG.
"""

import argparse
import os
import re
import sys
import textwrap
import time
from dataclasses import dataclass
from datetime import date, datetime, timedelta, timezone

sys.dont_write_bytecode = True  # so that nothing is left beside the scripts

from reports import add_source, in_order, key, name, needs, source_of, span, standing, stop

try:
    import matplotlib
    from matplotlib.figure import Figure
    from matplotlib.lines import Line2D
    from matplotlib.patches import Patch
    from matplotlib.textpath import TextPath
except ImportError:
    matplotlib = None  # `--help` needs no package

DAY = timedelta(days=1)

# A POSIX rule: name and hours west of UTC; and for daylight saving time its name, and when it begins and ends.
NAME = r"([A-Za-z]{3,15}|<[A-Za-z0-9+-]{3,15}>)"
CLOCK = r"[+-]?\d{1,3}(:\d\d){0,2}"
DATE = rf"(M\d\d?\.\d\.\d|J?\d{{1,3}})(/{CLOCK})?"
RULE = re.compile(rf"{NAME}{CLOCK}({NAME}({CLOCK})?,{DATE},{DATE})?")

# Inches.
MONTH = 14  # the width of the month
LEFT, RIGHT, TOP, BOTTOM = 1.9, 0.2, 0.95, 0.9  # what is around it
ROW = 1.0  # the height of a member
FOOT = 0.2  # that of a line below

# Parts of a row.
BAR = 0.66  # the height of a bar
ABOVE = 0.27  # what is above it, with the mark of an exceedance
QUARTER = 0.06  # the length of the line at a quarter of a day

SIZES = (9, 8, 7, 6)  # of the letters on a bar, in points
SPACED = 0.9  # the room that they take across, of that size
MARGIN = 0.04  # inches that they leave along the bar
POINTS = 72  # of an inch

RED = "#d00000"
OUTLINE = {"facecolor": "none", "edgecolor": "black", "linewidth": 0.7}
MARK = {"marker": "v", "markersize": 8, "color": RED, "markeredgecolor": "black", "linestyle": "none"}


@dataclass(frozen=True)
class Look:
    """How a bar looks; in grey too no two are alike."""

    label: str
    face: str
    letters: str = "black"
    hatch: str = ""
    lines: str = "none"  # of the hatch

    @property
    def paint(self):
        return {"facecolor": self.face, "edgecolor": self.lines, "hatch": self.hatch, "linewidth": 0}


LOOKS = {
    "plan": Look("planned", "#b5d4f0"),
    "actual": Look("flown", "#1d4e80", letters="white"),
    "ground": Look("ground duty", "white", hatch="////", lines="#aaaaaa"),
    "outside": Look("outside: for another certificate holder", "#f2a65a", hatch="\\\\\\\\", lines="#c97a2b"),
}


def labels_of(duty):
    """What may stand on a bar, the longest first."""
    match duty["kind"]:
        case "ground":
            return f"{duty['ground']} {duty['task']}", duty["ground"]
        case "outside":
            return (duty["outside"],)
        case "pairing":
            return name(duty), duty["pairing"]


# ---- The month.


def set_zone(rule):
    """Has the local time of this process go by a POSIX rule."""
    os.environ["TZ"] = rule
    time.tzset()


def midnight(day):
    """The instant at which a local day begins."""
    return datetime(day.year, day.month, day.day).astimezone(timezone.utc)


def next_month(day):
    return (day.replace(day=1) + 31 * DAY).replace(day=1)


@dataclass(frozen=True)
class Month:
    """A month of local days; its places are days since its begin, of 24 hours each."""

    first: date

    @property
    def begin(self):
        return midnight(self.first)

    @property
    def end(self):
        return midnight(next_month(self.first))

    def place(self, instant):
        return (instant - self.begin) / DAY

    def days(self):
        """Each day, with the places where it begins and ends."""
        for number in range((next_month(self.first) - self.first).days):
            day = self.first + number * DAY
            yield day, self.place(midnight(day)), self.place(midnight(day + DAY))

    def utc_days(self):
        """Each place where a day of UTC begins, with that day."""
        instant = self.begin.replace(hour=0, minute=0)
        while instant <= self.end:
            if instant >= self.begin:
                yield self.place(instant), instant.day
            instant += DAY

    def span(self, duty):
        """The places between which a duty is in the month, or None."""
        begin, end = span(duty)
        begin, end = max(begin, self.begin), min(end, self.end)
        return (self.place(begin), self.place(end)) if begin < end else None


def first_month(rosters):
    """The month in which the first duty begins."""
    begins = [span(duty)[0] for roster in rosters for duty in roster["duties"]]
    if not begins:
        stop("there is no duty; --month names a month without one")
    return min(begins).astimezone().date().replace(day=1)


# ---- The picture.


def fitting(labels, width, height):
    """The first of the labels that has room on a bar of these inches: with its size, and how far it is turned."""
    for label in labels:
        for size in SIZES:
            along = TextPath((0, 0), label, size=size).get_extents().width / POINTS + MARGIN
            across = SPACED * size / POINTS
            if along <= width and across <= height:
                return label, size, 0
            if along <= height and across <= width:
                return label, size, 90
    return None


def side_by_side(duties):
    """Each duty with its share of the height: which it is of how many of a run, where each begins before the end of one before."""
    runs = []
    for duty in duties:
        if runs and duty["begin"] < max(before["end"] for before in runs[-1]):
            runs[-1].append(duty)
        else:
            runs.append([duty])
    return [(duty, place, len(run)) for run in runs for place, duty in enumerate(run)]


@dataclass(frozen=True)
class Picture:
    """A month with a row for each member, which is one high."""

    month: Month
    rosters: list
    axes: object

    @property
    def rows(self):
        return len(self.rosters)

    @property
    def inches_of_a_day(self):
        return MONTH / self.month.place(self.month.end)

    def draw_days(self):
        """A line at each midnight, and a short one at each quarter of a day; Saturdays and Sundays are shaded."""
        self.axes.set_xlim(0, self.month.place(self.month.end))
        for day, begin, end in self.month.days():
            if day.weekday() >= 5:
                self.axes.axvspan(begin, end, color="#eeeeee", zorder=0)
            self.axes.axvline(begin, color="#bbbbbb", linewidth=0.6, zorder=1)
            quarters = [begin + (end - begin) * quarter / 4 for quarter in (1, 2, 3)]
            self.axes.vlines(quarters, self.rows - QUARTER, self.rows, color="#777777", linewidth=0.6, zorder=1)
        middles = [((begin + end) / 2, f"{day.day}\n{day:%a}") for day, begin, end in self.month.days()]
        self.axes.set_xticks(*zip(*middles), fontsize=8)
        self.axes.tick_params(axis="x", length=0)

    def draw_utc(self):
        above = self.axes.secondary_xaxis("top")
        above.set_xticks(*zip(*self.month.utc_days()), fontsize=7)
        above.set_xlabel("UTC: 00:00 of each day", fontsize=8)

    def draw_members(self):
        self.axes.set_ylim(self.rows, 0)
        for row in range(1, self.rows):
            self.axes.axhline(row, color="#777777", linewidth=0.6, zorder=1)
        self.axes.set_yticks([row + 0.5 for row in range(self.rows)], map(who, self.rosters), fontsize=8)
        self.axes.tick_params(axis="y", length=0)

    def draw_duties(self, row, roster, exceeded):
        """The bars of a member, with marks on those whose names are among the exceeded."""
        for duty, place, count in side_by_side([it for it in in_order(roster["duties"]) if self.month.span(it)]):
            height = BAR / count
            group = f"{roster['crew']}.{key(duty)}"
            self.draw_bar(duty, row + ABOVE + place * height, height, group)
            if name(duty) in exceeded:
                self.draw_mark(duty, row + ABOVE / 2, group)

    def draw_bar(self, duty, top, height, group):
        begin, end = self.month.span(duty)
        look = LOOKS[standing(duty)]
        (bar,) = self.axes.barh(top, end - begin, height, begin, align="edge", zorder=3, **look.paint)
        bar.set_gid(group)
        self.axes.barh(top, end - begin, height, begin, align="edge", zorder=4, **OUTLINE)
        room = fitting(labels_of(duty), (end - begin) * self.inches_of_a_day, height * ROW)
        if room:
            label, size, turned = room
            middle = ((begin + end) / 2, top + height / 2)
            self.axes.text(*middle, label, fontsize=size, rotation=turned, ha="center", va="center", color=look.letters, zorder=5)

    def draw_mark(self, duty, height, group):
        begin, end = self.month.span(duty)
        (mark,) = self.axes.plot([(begin + end) / 2], [height], zorder=6, **MARK)
        mark.set_gid(f"{group}.exceeds")


def who(roster):
    base = "" if roster["base"] == "HOME" else f", {roster['base']}"
    return "\n".join([roster["crew"], *textwrap.wrap(roster["name"], 24), f"{roster['seat']}{base}"])


def sections_of(exceedances, crew):
    """The sections of each duty of a member that has exceedances, by its name."""
    sections = {}
    for it in exceedances:
        if it["crew"] == crew and it["section"] not in sections.setdefault(name(it), []):
            sections[name(it)].append(it["section"])
    return sections


def lines_below(rosters, month, exceeded):
    """A line for each member with exceedances in the month."""
    for roster in rosters:
        sections = exceeded[roster["crew"]]
        shown = [name(duty) for duty in in_order(roster["duties"]) if month.span(duty) and name(duty) in sections]
        if shown:
            yield f"{roster['crew']} exceeds: " + "; ".join(f"{it} {', '.join(sections[it])}" for it in shown)


def legend():
    bars = [(Patch(**it.paint), Patch(**OUTLINE)) for it in LOOKS.values()]
    labels = [it.label for it in LOOKS.values()]
    return [*bars, Line2D([], [], **MARK)], [*labels, "exceeds a limit"]


def paper(rows, lines):
    """An empty figure for this many members and lines below, and the axes of the month in it."""
    width, foot = LEFT + MONTH + RIGHT, BOTTOM + FOOT * lines
    height = TOP + ROW * rows + foot
    figure = Figure(figsize=(width, height))
    axes = figure.add_axes([LEFT / width, foot / height, MONTH / width, ROW * rows / height])
    axes.patch.set_gid("month")
    return figure, axes


def write_around(figure, title, below):
    """Writes the title, the legend and the lines below round the month; places are inches here."""
    inches = figure.dpi_scale_trans
    figure.text(LEFT, figure.get_figheight() - 0.35, title, fontsize=14, transform=inches)
    corner = {"loc": "lower left", "bbox_to_anchor": (LEFT, FOOT * len(below)), "bbox_transform": inches}
    figure.legend(*legend(), ncol=len(LOOKS) + 1, fontsize=8, frameon=False, **corner)
    for number, line in enumerate(reversed(below)):
        figure.text(LEFT, 0.1 + FOOT * number, line, fontsize=8, color=RED, transform=inches)


def page_of(rosters, exceedances, month, zone):
    """The figure of the members' month."""
    exceeded = {roster["crew"]: sections_of(exceedances, roster["crew"]) for roster in rosters}
    below = list(lines_below(rosters, month, exceeded))
    figure, axes = paper(len(rosters), len(below))
    picture = Picture(month, rosters, axes)
    picture.draw_members()
    picture.draw_days()
    for row, roster in enumerate(rosters):
        picture.draw_duties(row, roster, exceeded[roster["crew"]])
    axes.set_xlabel(f"local time by {zone}", fontsize=9)
    picture.draw_utc()
    write_around(figure, f"Duties in {month.first:%B %Y}", below)
    return figure


# ---- The command line.


def month_named(text):
    try:
        month = datetime.strptime(text, "%Y-%m").date()
    except ValueError:
        raise argparse.ArgumentTypeError(f"{text} is no month, such as 2025-07") from None
    if not 1999 <= month.year <= 2100:
        raise argparse.ArgumentTypeError("a book's instants are those of 2000 to 2099")
    return month


def zone_named(text):
    if not RULE.fullmatch(text):
        raise argparse.ArgumentTypeError(f"{text} is no POSIX rule, such as EST5EDT,M3.2.0,M11.1.0")
    return text


def picture_named(text):
    if not text.endswith((".svg", ".png")):
        raise argparse.ArgumentTypeError(f"{text} ends neither in .svg nor in .png")
    return text


def arguments():
    parser = argparse.ArgumentParser(description="Draws the duties of members over a month.")
    add_source(parser)
    parser.add_argument("crew", metavar="CREW", nargs="*", help="the id of a member; without one, all members")
    parser.add_argument("--output", metavar="FILE", required=True, type=picture_named, help="the picture, FILE.svg or FILE.png")
    parser.add_argument("--month", metavar="YYYY-MM", type=month_named, help="without it, the month of the members' first duty")
    parser.add_argument("--zone", metavar="ZONE", type=zone_named, help="the POSIX rule of local time; without it, that of the first member's base")
    return parser.parse_args()


def main():
    asked = arguments()
    if not matplotlib:
        needs("matplotlib", "python3-matplotlib")
    source = source_of(asked)
    rosters = [source.roster(crew) for crew in asked.crew or [it["crew"] for it in source.members()["members"]]]
    if not rosters:
        stop("the book has no members")
    zone = asked.zone or rosters[0]["zone"]
    set_zone(zone)
    month = Month(asked.month or first_month(rosters))
    # (text stays text in an SVG, and a `$` in a name is no formula)
    matplotlib.rcParams.update({"svg.fonttype": "none", "svg.hashsalt": "rosterbook", "text.parse_math": False, "hatch.linewidth": 0.6})
    figure = page_of(rosters, source.exceedances(), month, zone)
    try:
        figure.savefig(asked.output, dpi=110, metadata={"Date": None} if asked.output.endswith(".svg") else None)
    except OSError as fault:
        stop(f"{asked.output}: {fault.strerror}")


main()
