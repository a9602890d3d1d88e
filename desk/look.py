#!/usr/bin/env python3
"""Takes pictures of the desk for eyes: each screen at 1440 and at 360 px, by day and by night, of a made-up airline's June.

    desk/look.py FOLDER

Look at them after each change of the page: as somebody who makes rosters, as a captain on a phone, as an inspector. It needs the browser
of tests/desk.py, and the program. Nothing is tested here.
"""

import random
import sys
import tempfile
from datetime import datetime, timedelta
from pathlib import Path

sys.path.insert(0, str(Path(__file__).resolve().parent.parent / "tests"))

from browser import browser
from desk import NARROW, WIDE, Seen, at_desk
from office import build, written

NAMES = (
    "Ada Ray", "Bo Lind", "Cem Haddad", "Dara Quinn", "Eva Moreau", "Finn Young", "Gül Ivanov", "Hugo Castro", "Ines Jensen", "Jan Okafor",
    "Kira Adler", "Lee Roy", "Mia Thorsen", "Noor Ueda", "Olga Petrov", "Per Dunne", "Rosa Vance", "Sven Brandt", "Tomás Xu", "Uma Grant",
    "Vera Lund", "Wim Fonseca", "Xin Nakamura", "Zoë Ramírez",
)  # fmt: skip
PORTS = "BOS IAD ORD JFK DCA CLT ATL MIA BUF PIT CLE DTW".split()
JUNE, DAYS, PAIRS, FLOWN = datetime(2025, 6, 1), 30, 12, 10
SCREENS = (
    "board/2025-06-01/month", "board/2025-06-09/week+pairing/P030", "open+pairing/P030", "pairing/P000", "member/C02", "exceedances", "members",
    "import",
)  # fmt: skip


def period(rng, report):
    """A period from BOS and back, of two or four flights."""
    at, segments = report + timedelta(minutes=45), []
    for n in range(rng.choice((2, 2, 2, 4))):
        block = timedelta(minutes=rng.randrange(65, 130, 5))
        start, end = ("BOS", rng.choice(PORTS[1:])) if n % 2 == 0 else (segments[-1]["to"], "BOS")
        segments.append({"flight": f"RB{rng.randrange(100, 999)}", "from": start, "out": at, "to": end, "in": at + block})
        at += block + timedelta(minutes=rng.randrange(40, 75, 5))
    return {"report": report, "release": segments[-1]["in"] + timedelta(minutes=30), "segments": segments}


def in_words(value, late=timedelta(0)):
    """A period as a command has it, late by so much."""
    match value:
        case datetime():
            return written(value + late)
        case dict():
            return {name: in_words(it, late) for name, it in value.items()}
        case list():
            return [in_words(it, late) for it in value]
    return value


def commands():
    """The commands of the month."""
    rng = random.Random(7)
    yield {"do": "add-base", "base": "DEN", "zone": "MST7MDT,M3.2.0,M11.1.0"}
    for n, name in enumerate(NAMES):
        kind, seat = ("C", "captain") if n < PAIRS else ("F", "first officer")
        yield {"do": "add-crew", "crew": f"{kind}{n % PAIRS + 1:02}", "seat": seat, "name": name, **({"base": "DEN"} if n % PAIRS == 6 else {})}
    plans = []
    for day in range(DAYS):
        for pair in range(PAIRS):
            if (day + pair) % 7 < 5:
                plans.append((pair, period(rng, JUNE + timedelta(days=day, minutes=rng.randrange(630, 900, 5)))))
    for n, (_, one) in enumerate(plans):
        yield {"do": "add-pairing", "pairing": f"P{n:03}", "periods": [in_words(one)]}
    for n, (pair, one) in enumerate(plans):
        for kind, chance in (("C", 0.93), ("F", 0.97)):
            if rng.random() < chance and n != 30:
                yield {"do": "assign", "pairing": f"P{n:03}", "crew": f"{kind}{pair + 1:02}"}
    for n in range(8):
        begin = JUNE + timedelta(days=rng.randrange(DAYS), hours=12)
        times = {"begin": written(begin), "end": written(begin + timedelta(hours=4))}
        yield {"do": "add-ground", "ground": f"G{n}", "crew": f"{rng.choice('CF')}{rng.randrange(PAIRS) + 1:02}", "task": rng.choice(("Simulator", "Classroom", "Medical")), **times}
    for n, day in enumerate((5, 13, 24)):
        one = period(rng, JUNE + timedelta(days=day, hours=13))
        times = {"report": written(one["report"]), "release": written(one["release"]), "segments": [{"out": written(it["out"]), "in": written(it["in"])} for it in one["segments"]]}
        yield {"do": "record-outside", "outside": f"X{n}", "crew": f"F{3 * n + 2:02}", **times}
    for n, (_, one) in enumerate(plans):
        if one["report"] > JUNE + timedelta(days=FLOWN):
            break
        late = timedelta(minutes=rng.choice((0, 0, 5, 10, -5, 25)) if n % 29 != 20 else 380)
        flown = in_words({name: one[name] for name in ("release", "segments")}, late)
        flown["segments"] = [{name: it[name] for name in ("out", "in")} for it in flown["segments"]]
        yield {"do": "actual", "pairing": f"P{n:03}", "period": 1, "report": written(min(one["report"], one["report"] + late)), **flown}


def take_all(person, visitor, folder):
    for size in (WIDE, NARROW):
        person.size(size)
        for light in ("light", "dark"):
            visitor.execute_cdp_cmd("Emulation.setEmulatedMedia", {"features": [{"name": "prefers-color-scheme", "value": light}]})
            person.open("board/2025-06-01/month")
            for where in SCREENS:
                person.go(where)
                visitor.save_screenshot(str(folder / f"{size[0]}-{light}-{where.replace('/', '-')}.png"))
    visitor.execute_cdp_cmd("Emulation.setEmulatedMedia", {"features": []})
    person.size(WIDE)
    person.open("board/2025-06-09/week")
    person.drag("P080", "C11")  # (whose rest would be too short)
    visitor.save_screenshot(str(folder / "drag.png"))
    person.drop()
    visitor.save_screenshot(str(folder / "refused.png"))


def main():
    folder = Path(sys.argv[1])
    folder.mkdir(parents=True, exist_ok=True)
    if not build():
        return 3
    with tempfile.TemporaryDirectory(prefix="look-") as room:
        seen = Seen(Path(room))
        book = seen.book()
        book.settle_lines(list(commands()))
        with browser() as visitor, at_desk(seen, visitor, book) as person:
            take_all(person, visitor, folder)
    return 0


if __name__ == "__main__":
    sys.exit(main())
