#!/usr/bin/env python3
"""Times what the desk asks of a server, on the book of an airline of 100 members and a year of pairings.

    bench/desk.py [PROGRAM]

The year is that of airline.py, with 50 captains and 50 first officers, each of whom flies six days a week, and 1,000 open pairings. A
month of the board is read in one request, as a roster of each member in JSON, and as a roster of each in text. Who may fly a pairing is
asked for both seats: all verdicts in a request for a seat, or in one for each member, and the figures, which are a report for each. A
second desk looks whether the book was changed, and reads again what it shows. Each request has a connection of its own, one after the
other; the least of ROUNDS is told. In the end Chromium, where it is there, shows the board, and who may fly; its times are those from the
address to the bars of the rows near the window, and to the last answer that the page waits for. PROGRAM is another one than the one that is
built.
"""

import json
import sys
import tempfile
import time
from multiprocessing import Process
from pathlib import Path

TOP = Path(__file__).resolve().parent.parent
sys.path.insert(0, str(TOP / "tests"))

import airline
import office
import server
from browser import browser, lacks

PAIRS, FLOWN, ROUNDS = 50, 15_600, 5
FRESH = 2_000_000_000  # a number that no request of the book has
DAYS, OPEN = ("2025-05-31", "2025-07-01"), "O160"  # of June by any clock; it is of a day on which nobody flies
BOARD = "#/board/2025-06-01/month"
COUNT = "/json/count"  # which a page that is seen asks every six seconds
STANDS = """
    const done = arguments[0];
    const look = () => document.querySelector('.row .duty') && document.querySelector('#lanes') ? done(performance.now()) : requestAnimationFrame(look);
    look();
"""
CALM = """
    const done = arguments[0], told = document.documentElement.dataset;
    const look = () => told.ready && told.asking === '0' && !document.body.innerText.includes('Reading…') ? done(performance.now()) : setTimeout(look, 5);
    look();
"""
OPENED = """
    const done = arguments[1], told = document.documentElement.dataset, from = performance.now();
    location.hash = arguments[0];
    let listed = 0;
    const look = () => {
        if (!listed && document.querySelectorAll('.candidate .main, .candidate .tag').length > 90) listed = performance.now() - from;
        if (listed && told.asking === '0') done([listed, performance.now() - from]); else setTimeout(look, 5);
    };
    setTimeout(look);
"""


def filled(room):
    """The book of the airline. It is filled by a process of its own, with which its lock ends."""
    airline.PAIRS, airline.FLOWN, airline.TAKEN_AGAIN, airline.OPEN = PAIRS, FLOWN, 0, 1_000
    book = office.Book.made(room)
    filling = Process(target=airline.fill, args=(book.file, 1))
    filling.start()
    filling.join()
    return book


def answer(desk, path, body=None):
    """The text of an answer, which must be 200, or one to a command."""
    content = (body or "").encode()
    head = f"GET {path} HTTP/1.1\r\nHost: localhost\r\n" if body is None else f"POST {path} HTTP/1.1\r\nHost: localhost\r\nContent-Length: {len(content)}\r\n"
    got = desk.exchange(f"{head}\r\n".encode() + content, patience=300)
    if isinstance(got, str) or got[:13] not in (b"HTTP/1.1 200 ", b"HTTP/1.1 409 "):
        raise RuntimeError(f"{path} is answered {got[:200]}")
    return got.partition(b"\r\n\r\n")[2]


def told(what, desk, asked):
    """A line of the table: how many requests these are, the bytes of their answers, and the seconds that all take."""
    times = []
    for _ in range(ROUNDS):
        begun = time.perf_counter()
        texts = [answer(desk, *it) for it in asked]
        times.append(time.perf_counter() - begun)
    print(f"| {what} | {len(asked)} | {sum(map(len, texts)):,} | {min(times):.3f} |", flush=True)
    return texts


def check(crew):
    return json.dumps({"number": FRESH, "do": "assign", "pairing": OPEN, "crew": crew})


def ask_all(desk):
    crews = [[f"{letter}{pair}" for pair in range(PAIRS)] for letter in "CF"]
    both = [crew for seat in crews for crew in seat]
    (board,) = told("a month of the board", desk, [("/json/board/" + "/".join(DAYS),)])
    told("the same as text", desk, [("/board/" + "/".join(DAYS),)])
    rosters = told("a roster a member, in JSON", desk, [(f"/json/crew/{crew}",) for crew in both])
    told("the same as text", desk, [(f"/crew/{crew}",) for crew in both])
    told("all pairings, in JSON", desk, [("/json/reports/pairings",)])
    lines = told("who may fly, both seats", desk, [("/lines/checks", "\n".join(check(crew) for crew in seat)) for seat in crews])
    checks = told("the same by a check a member", desk, [("/checks", check(crew)) for crew in both])
    told("the figures of it", desk, [(f"/json/reports/limits/{crew}/{OPEN}",) for crew in both])
    told("whether another desk has changed the book", desk, [(COUNT,)])
    told("what is read again if it has", desk, [(it,) for it in (COUNT, "/json/board/" + "/".join(DAYS), "/json/reports/pairings", "/json/exceedances")])
    agree(json.loads(board)["members"], [json.loads(it) for it in rosters])
    verdicts = [it for text in lines for it in json.loads(text)["answers"]]
    if verdicts != [json.loads(it) for it in checks]:
        raise RuntimeError("lines are answered otherwise than checks")
    refused = [it["refusal"] for it in verdicts if it["result"] == "refused"]
    print(f"\nOf {len(both)} members {len(both) - len(refused)} may fly {OPEN}, {refused.count(12)} would break a limit.")


def agree(members, rosters):
    """Whether the board has of each roster what meets its days."""
    first, last = f"{DAYS[0]}T00:00Z", f"{DAYS[1]}T24:00Z"
    for one, whole in zip(members, sorted(rosters, key=lambda it: it["crew"]), strict=True):
        wanted = [it for it in whole["duties"] if it["begin"] < last and it["end"] > first]
        if [{name: it[name] for name in it if name != "exceeds"} for it in one["duties"]] != wanted:
            raise RuntimeError(f"the board has another roster of {whole['crew']}")


def show(desk):
    with browser() as visitor:
        visitor.set_page_load_timeout(300)
        visitor.set_script_timeout(300)
        stands, times, opened = [], [], []
        for turn in range(ROUNDS):
            visitor.get(f"http://{server.LOOPBACK}:{desk.port}/?{turn}{BOARD}")
            stands.append(visitor.execute_async_script(STANDS) / 1000)
            times.append(visitor.execute_async_script(CALM) / 1000)
            opened.append(visitor.execute_async_script(OPENED, f"{BOARD}+pairing/{OPEN}"))
        bars = visitor.execute_script("return document.querySelectorAll('.row .duty').length")
        print(f"\nIn Chromium: the board with all duties after {min(stands):.2f} s ({bars} bars of the rows near the window are drawn), all lists "
              f"after {min(times):.2f} s; who may fly, both seats, after {min(it[0] for it in opened) / 1000:.2f} s, with all figures after {min(it[1] for it in opened) / 1000:.2f} s.")


def main():
    if len(sys.argv) > 1:
        office.PROGRAM = server.PROGRAM = Path(sys.argv[1]).resolve()
    elif not office.build():
        return 3
    with tempfile.TemporaryDirectory(prefix="desk-") as room:
        with server.serving(filled(room)) as desk:
            print("| What | Requests | Bytes | Seconds |\n|---|---|---|---|")
            ask_all(desk)
            if why := lacks():
                print(f"Not in a browser, since {why}")
            else:
                show(desk)
    return 0


if __name__ == "__main__":
    sys.exit(main())
