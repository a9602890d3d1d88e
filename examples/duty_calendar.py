#!/usr/bin/env python3
"""Writes a member's duties as a calendar, which telephones and other calendars import (RFC 5545), to standard output.

    duty_calendar.py roster.db C1 >c1.ics
    duty_calendar.py http://127.0.0.1:8117 C1 >c1.ics

Each duty is an event. Its UID is made of the ids of the member and of the duty, so a calendar that imports the duties again has each
of them once, at its times now. A duty that was taken from the member isn't in the new file, and no import removes its event: so import
into a calendar that has nothing else, and empty it before. The same book gives the same file. A member without a duty has no calendar: it
would have no event, which the RFC doesn't allow.
"""

import argparse
import sys

sys.dont_write_bytecode = True  # so that nothing is left beside the scripts

from reports import add_source, in_order, instant, key, name, needs, source_of, span, standing, stop

try:
    from icalendar import Calendar, Event, vDatetime
except ImportError:
    Calendar = None  # `--help` needs no package

MAKER = "-//rosterbook//duty_calendar//EN"


def route(duty):
    """The airports of a period in turn, as `BOS-IAD-BOS`."""
    return "-".join([duty["segments"][0]["from"], *(it["to"] for it in duty["segments"])])


def flights(duty):
    """A line for each segment of a period, with its block times as flown, or else as planned."""
    flown = duty["actual"] or duty
    for planned, times in zip(duty["segments"], flown["segments"]):
        block_out, block_in = instant(times["out"]), instant(times["in"])
        yield f"{planned['flight']} {planned['from']} {block_out:%Y-%m-%d %H:%M}Z {planned['to']} {block_in:%Y-%m-%d %H:%M}Z"


def summary(duty):
    match duty["kind"]:
        case "pairing":
            return f"{name(duty)} {route(duty)}"
        case "ground":
            return f"{name(duty)} {duty['task']}"
        case "outside":
            return name(duty)


def hours(minutes):
    return f"{minutes // 60}:{minutes % 60:02}"


def lengths(duty):
    return f"flight duty period {hours(duty['fdp'])}, flight time {hours(duty['flight'])}"


def description(duty, pairings):
    match duty["kind"]:
        case "pairing":
            pairing = pairings[duty["pairing"]]
            crew = [f"captain {pairing['captain'] or '-'}", f"first officer {pairing['first_officer'] or '-'}"]
            lines = [f"{standing(duty)}: {lengths(duty)}", *flights(duty), *crew]
        case "ground":
            lines = ["ground duty"]
        case "outside":
            lines = [f"flown for another certificate holder: {lengths(duty)}"]
    return "\n".join(lines)


def revision(duty):
    """An actual takes the place of the plan, also where a calendar looks which of two events is the later one."""
    return 1 if standing(duty) == "actual" else 0


def event_of(crew, duty, pairings):
    event = Event()
    event.add("uid", f"{crew}.{key(duty)}@rosterbook")
    begin, end = span(duty)
    # No report says when a duty was last changed, so the stamp that the RFC requires is the duty's begin: the same for the same book.
    for what, when in (("dtstamp", begin), ("dtstart", begin), ("dtend", end)):
        event.add(what, vDatetime(when))
    event.add("sequence", revision(duty))
    event.add("summary", summary(duty))
    event.add("description", description(duty, pairings))
    return event


def calendar_of(roster, pairings):
    """The calendar of a member, whose pairings are there by their ids."""
    calendar = Calendar()
    calendar.add("prodid", MAKER)
    calendar.add("version", "2.0")
    calendar.add("x-wr-calname", f"{roster['crew']} {roster['name']}")
    for duty in in_order(roster["duties"]):
        calendar.add_component(event_of(roster["crew"], duty, pairings))
    return calendar


def arguments():
    parser = argparse.ArgumentParser(description="Writes a member's duties as a calendar (RFC 5545) to standard output.")
    add_source(parser)
    parser.add_argument("crew", metavar="CREW", help="the id of the member")
    return parser.parse_args()


def main():
    asked = arguments()
    if not Calendar:
        needs("icalendar", "python3-icalendar")
    source = source_of(asked)
    roster = source.roster(asked.crew)
    if not roster["duties"]:
        stop(f"{asked.crew} has no duty, so there is no calendar")
    ids = {duty["pairing"] for duty in roster["duties"] if duty["kind"] == "pairing"}
    pairings = {pairing: source.pairing(pairing) for pairing in sorted(ids)}
    sys.stdout.buffer.write(calendar_of(roster, pairings).to_ical())


main()
