#!/usr/bin/env python3
"""Has a real browser work at the desk, the page of the server, and looks at what it shows and at the rows of the book's file.

    tests/desk.py [NAME..]

First, without a browser: the parts of `desk/` are those of the page in the crate `desk`, the policy has the hashes of its script and its
style, nothing in it makes markup of a text or asks another server, and its refusals are in the words of docs/REFUSALS.md.

Then Chromium shows the page of a server of its own for each case, over a relay that can lose an answer. It is worked by clicks and keys,
as by a person, and waited for by what is on the page. The rows are read once the server has been stopped. After each case nothing may stand
on the browser's console but the statuses that the page asks for. Without Chromium, its driver and selenium these cases are skipped. What
differs is printed on standard error. The last line is 'N passed, M failed', and the exit status 1 where M isn't 0.
"""

import base64
import hashlib
import json
import os
import random
import re
import socket
import subprocess
import sys
import tempfile
import threading
import time
from contextlib import contextmanager
from dataclasses import dataclass, field
from datetime import datetime
from pathlib import Path

from browser import PATIENCE, browser, console, lacks
from exchanges import response
from office import TOP, Book, build, order, rosterbook
from server import LOOPBACK, free_port, serving

DESK = TOP / "desk"
PAGE, POLICY = (TOP / "crates" / "desk" / "src" / f"{name}.rt" for name in ("page", "policy"))
JUNE = TOP / "examples" / "june.csv"
LINES = 600  # of a part, at most
WIDE, NARROW = (1440, 900), (360, 740)
MARKUP = "<img src=x onerror=alert(1)>"
SCREENS = ("board/2025-06-01/month", "board/2025-06-09/week", "open", "exceedances", "members", "import", "member/C1", "pairing/B101")
PANELS = ("open+pairing/B102", "board/2025-06-01/month+pairing/B101", "members+ground/C1/G1", "members+outside/C2/X1", "open+member/C1")
OFFICE = """
    base DEN: MST7MDT,M3.2.0,M11.1.0
    hire C1 captain: Ada Ray
    hire C2 captain: Bo Lind
    hire C9 captain DEN: Lee Roy
    hire F1 first-officer: Zoë Roy
    hire F2 first-officer: Jo Poe
    plan B101 10: 17:00 | 18:00-19:45, 23:00-+1 00:45 | +1 01:15
    plan B102 11: 10:45 | 11:45-13:30, 17:15-19:00 | 19:30
    plan B103 12: 14:00 | 15:00-20:30 | 21:00; 13: 16:00 | 17:00-22:30 | 23:30
    assign B101 C1
    assign B101 F1
"""


# ---- What is counted.


@dataclass
class Seen:
    room: Path
    passed: int = 0
    failed: int = 0
    name: str = ""

    def expect(self, what, got, wanted=True):
        self.passed += got == wanted
        self.failed += got != wanted
        if got != wanted:
            print(f"tests/desk.py: {self.name}: {what}\n  wanted: {wanted}\n  got:    {got}", file=sys.stderr)

    def book(self, lines=""):
        """A book after these lines."""
        book = Book.made(self.room)
        for line in filter(None, (it.strip() for it in lines.splitlines())):
            self.expect(line, book.settle(line).split()[0], "accepted")
        return book


# ---- Without a browser.


def literal(path):
    """The text that a source has as its constant."""
    (text,) = re.findall(r'^pub const \w+: &str =\s+(?:r##)?"(.*?)"(?:##)?;$', path.read_text(), re.S | re.M)
    return text


def try_parts(seen):
    ran = subprocess.run([DESK / "make.py", "--check"], capture_output=True, text=True)
    seen.expect("the parts and the constants", ran.stderr, "")
    for path in sorted(DESK.rglob("*.*s")):
        lines = path.read_text().splitlines()
        seen.expect(f"{path.name} has at most {LINES} lines", len(lines) <= LINES)
        seen.expect(f"{path.name} says first what it has", lines[0][:3] in ("// ", "/* "))


def try_policy(seen):
    page, policy = literal(PAGE), literal(POLICY)
    for tag, directive in (("script", "script-src"), ("style", "style-src")):
        found = re.findall(rf"<{tag}[^>]*>(.*?)</{tag}>", page, re.S)
        seen.expect(f"one {tag}", len(found), 1)
        digest = base64.b64encode(hashlib.sha256(found[0].encode()).digest()).decode()
        seen.expect(f"the hash of the {tag}", f"; {directive} 'sha256-{digest}';" in policy)
    for words in ("default-src 'none'; ", "connect-src 'self'", "frame-ancestors 'none'", "require-trusted-types-for 'script'", "trusted-types 'none'"):
        seen.expect(words, words in policy)
    seen.expect("no script but by hash", re.search(r"unsafe|\*|http|blob", policy), None)


def try_text(seen):
    page = literal(PAGE)
    seen.expect("under 110 kB", len(page.encode()) < 110_000)
    for word in ("innerHTML", "outerHTML", "insertAdjacentHTML", "document.write", "DOMParser", "eval(", "Function(", "javascript:", "import(", "srcdoc", " style=", " onclick="):
        seen.expect(f"no {word}", word in page, False)
    seen.expect("the addresses in it", re.findall(r"https?:[^'\" ]*|[\"'(]//[^\"' ]*", page), ["http://www.w3.org/2000/svg"])
    seen.expect("where it asks", len(re.findall(r"\bfetch\(|XMLHttpRequest|WebSocket|EventSource|sendBeacon", page)), 1)


def try_refusals(seen):
    text = (TOP / "docs" / "REFUSALS.md").read_text()
    there = re.findall(r"^\| (\d+) \| (.*?) \| (.*?) \|$", text.partition("## On the desk")[2].partition("\n## ")[0], re.M)
    here = re.findall(r"\b(\d+):\['(.*?)','(.*?)'\],", re.search(r"^(?:let )?\w+=\{(1:\['.*)\}[,;]?$", literal(PAGE), re.M)[1])
    seen.expect("the words of the desk", here, there)
    numbers = {int(number) for number in re.findall(r"^\| (\d+) [A-Z]", text, re.M)}
    seen.expect("each refusal that a server answers has words", {int(it[0]) for it in here}, {it for it in numbers if it < 40} | {90, 91})


ALONE = {"parts": try_parts, "policy": try_policy, "text": try_text, "refusals": try_refusals}


# ---- A relay.


def request_from(client):
    """A whole request, or what came of it."""
    got = b""
    while b"\r\n\r\n" not in got:
        more = client.recv(65_536)
        if not more:
            return got
        got += more
    length = re.search(rb"(?im)^content-length: *(\d+)", got)
    end = got.index(b"\r\n\r\n") + 4 + int(length[1] if length else 0)
    while len(got) < end and (more := client.recv(65_536)):
        got += more
    return got


@dataclass
class Relay:
    """A port that hands on requests to a server, and answers back."""

    server: int  # its port
    lose: object = None  # called once, after the next command: its answer is lost
    said: list = field(default_factory=list)  # what is answered to the next commands, which aren't handed on
    held: threading.Event | None = None  # until it is set, no limits are answered, or no other path that has `held_path`
    held_path: bytes = b"/limits/"
    commands: list = field(default_factory=list)  # those that came
    paths: list = field(default_factory=list)  # what was asked for, in turn
    listener: socket.socket = field(default_factory=lambda: socket.create_server((LOOPBACK, 0)))

    @property
    def port(self):
        return self.listener.getsockname()[1]

    def run(self):
        while True:
            try:
                client, _ = self.listener.accept()
            except OSError:
                return
            threading.Thread(target=self.hand_on, args=(client,), daemon=True).start()

    def hand_on(self, client):
        with client:
            try:
                asked = request_from(client)
                self.paths += [it.decode() for it in asked.split(b" ")[1:2]]
                is_command = asked.startswith(b"POST /requests ")
                if is_command:
                    self.commands.append(asked.partition(b"\r\n\r\n")[2].decode())
                if self.held and self.held_path in asked.split(b"\r\n")[0]:
                    self.held.wait(PATIENCE)
                answer = self.said.pop(0) if is_command and self.said else self.answer(asked) if asked else b""
                if is_command and self.lose:
                    lose, self.lose = self.lose, None
                    lose()
                    return
                client.sendall(answer)
                client.shutdown(socket.SHUT_WR)
                client.recv(1)
            except OSError:
                pass

    def answer(self, asked):
        with socket.create_connection((LOOPBACK, self.server)) as link:
            link.sendall(asked)
            got = b""
            while more := link.recv(65_536):
                got += more
        return got


@contextmanager
def relayed(port):
    relay = Relay(port)
    threading.Thread(target=relay.run, daemon=True).start()
    try:
        yield relay
    finally:
        relay.listener.close()


# ---- A person at the desk.

CALM = """
    const done = arguments[0], told = document.documentElement.dataset;
    let calm = 0;
    const look = () => {
        calm = told.ready && told.asking === '0' ? calm + 1 : 0;
        if (calm > 2) done(); else setTimeout(look, 20);
    };
    look();
"""
CONTROL = """
    const [name, within] = arguments, clean = text => text.replace(/\\s+/g, ' ').trim();
    const all = [...document.querySelector(within).querySelectorAll('button, summary, a, label')].filter(it => it.checkVisibility());
    const names = it => [it.getAttribute('aria-label'), it.textContent].filter(Boolean).map(clean);
    return all.find(it => names(it).includes(name)) ?? all.find(it => names(it).some(text => text.startsWith(name)));
"""
FIELD = """
    const [label, within] = arguments;
    const all = [...document.querySelector(within).querySelectorAll('input, select, textarea')].filter(it => it.checkVisibility());
    return all.find(it => (it.getAttribute('aria-label') ?? it.closest('label')?.firstChild.textContent ?? '').startsWith(label));
"""


@dataclass
class Person:
    """Who sees a page, clicks on it and types."""

    visitor: object
    port: int

    def __post_init__(self):
        from selenium.common.exceptions import WebDriverException
        from selenium.webdriver.common.action_chains import ActionChains
        from selenium.webdriver.common.keys import Keys

        self.fault, self.actions, self.key = WebDriverException, ActionChains, Keys

    def js(self, code, *words):
        return self.visitor.execute_script(code, *words)

    def calm(self):
        """Waits until the page has asked all that it wants to know."""
        self.visitor.execute_async_script(CALM)

    def size(self, size):
        width, height = size
        metrics = {"width": width, "height": height, "deviceScaleFactor": 1, "mobile": size == NARROW}
        self.visitor.execute_cdp_cmd("Emulation.setDeviceMetricsOverride", metrics)

    def open(self, where=""):
        self.visitor.get(f"http://{LOOPBACK}:{self.port}/#/{where}")
        self.calm()

    def go(self, where):
        """Goes to another address of the page."""
        self.js("location.hash = '#/' + arguments[0]", where)
        self.calm()

    def text(self, css="body"):
        """What stands in a part of the page, with one blank or one line end between its words."""
        text = self.js("return document.querySelector(arguments[0])?.innerText ?? ''", css)
        return re.sub(r"\s*\n\s*", "\n", re.sub(r"[\u00a0\t ]+", " ", text))

    def wait(self, holds):
        """What becomes true of the page, or what it is after all patience."""
        until = time.monotonic() + PATIENCE
        while not (it := holds()) and time.monotonic() < until:
            time.sleep(0.02)
        return it

    def sees(self, words, css="body"):
        return self.wait(lambda: words in self.text(css))

    def found(self, code, *words):
        """An element that a script finds, once it is there."""
        el = self.wait(lambda: self.js(code, *words))
        if not el:
            raise LookupError(f"{words}: nothing of this name on the page")
        return el

    def press(self, name, within="body"):
        """Clicks on what has this name, or a name that begins so."""

        def is_pressed():
            try:
                self.found(CONTROL, name, within).click()
            except self.fault:
                return False
            return True

        if not self.wait(is_pressed):
            raise LookupError(f"{name}: it can't be pressed")
        self.calm()

    def fill(self, label, text, within="main"):
        el = self.found(FIELD, label, within)
        if el.tag_name == "select":
            next(it for it in el.find_elements("tag name", "option") if it.text.startswith(text)).click()
        else:
            el.clear()
            el.send_keys(text)

    def type(self, *keys):
        """Types where the focus is."""
        chain = self.actions(self.visitor)
        for key in keys:
            chain.send_keys(key)
        chain.perform()
        self.calm()

    def focused(self):
        return self.js("return document.activeElement?.getAttribute('aria-label') ?? document.activeElement?.textContent ?? ''")

    def drag(self, pairing, crew):
        """Drags an open pairing to a member's row, and leaves it there in the air."""
        bar, row = (self.found("return document.querySelector(arguments[0])", css) for css in (f'[data-open="{pairing}"]', f'.row[data-crew="{crew}"] .track'))
        self.actions(self.visitor).click_and_hold(bar).move_by_offset(5, -20).move_to_element(row).perform()
        self.calm()

    def drop(self):
        self.actions(self.visitor).release().perform()
        self.calm()

    def drop_file(self, path):
        """Drops a file on the field for schedules."""
        code = """
            const data = new DataTransfer(), field = document.querySelector('.drop');
            data.items.add(new File([arguments[0]], 'june.csv', { type: 'text/csv' }));
            for (const type of ['dragover', 'drop']) field.dispatchEvent(new DragEvent(type, { dataTransfer: data, bubbles: true, cancelable: true }));
        """
        self.js(code, path.read_text())

    def is_too_wide(self):
        """What sticks out of the window, or of the panel."""
        return self.js("""
            const panel = document.getElementById('panel'), root = document.documentElement, found = [];
            if (root.scrollWidth > innerWidth) found.push(`the page: ${root.scrollWidth}`);
            if (!panel.hidden && panel.scrollWidth > panel.clientWidth) found.push(`the panel: ${panel.scrollWidth} of ${panel.clientWidth}`);
            return found;
        """)


def stop(server):
    if server.process.poll() is None:
        server.kill()


@contextmanager
def at_desk(seen, visitor, book, wanted=("409 (Conflict)",)):
    """A person before the page of a server of this book. The server is stopped behind the block, and the console looked at."""
    console(visitor)
    with serving(book) as server, relayed(server.port) as relay:
        person = Person(visitor, relay.port)
        person.size(WIDE)
        person.server, person.relay = server, relay
        yield person
        visitor.get("about:blank")
        stop(server)
    seen.expect("the console", [it for it in console(visitor) if not any(words in it for words in wanted)], [])


# ---- What is tried in the browser.


def try_first_hour(seen, visitor):
    """README's first hour, of an empty book, by the page alone."""
    book = seen.book()
    with at_desk(seen, visitor, book) as person:
        person.open()
        seen.expect("an empty book says what to do", person.sees("no members yet. Add the first one, then import a schedule, or write a pairing by hand."))
        person.press("Add the first one", "main")
        for crew, name, seat in (("C1", "Ada Ray", "captain"), ("F1", "Bo Lund", "first officer")):
            person.fill("Id", crew, "form")
            person.fill("Name", name, "form")
            person.fill("Seat", seat, "form")
            person.press("Add member")
            seen.expect(f"{crew} is told", person.sees(f"{name} ({crew}) is a member."))
            seen.expect("and nothing else", re.findall(r"^\W?\d+$", person.text("#told"), re.M), [])
        person.fill("Id", "C1", "form")
        person.fill("Name", "Ada Ray", "form")
        person.press("Add member")
        seen.expect("a member twice", person.sees("A member has this id already.", "#told"))
        seen.expect("the id has the focus", person.wait(lambda: person.js("return document.activeElement.value") == "C1"))
        person.type(person.key.ESCAPE)
        seen.expect("Esc closes the message", person.text("#told"), "")
        person.go("import")
        person.drop_file(JUNE)
        seen.expect("a preview", person.sees("3 pairings read") and "BOS–SEA–BOS" in person.text())
        person.press("Import 3 pairings")
        seen.expect("each part's answer", person.wait(lambda: person.text().count("✓ in the book")), 3)
        person.press("Open", "nav")
        person.press("B101", "main")
        seen.expect("who may fly", person.sees("1 of 1 may", "#panel"))
        words = "With it: flight in 28 days 3:30 of 100:00, flight duty in 7 days 7:45 of 60:00, least rest 7 days or more"
        seen.expect("how near to the limits", person.sees(words, "#panel"))
        person.press("Assign Ada Ray", "#panel")
        person.press("Assign Bo Lund", "#panel")
        seen.expect("both fly", person.sees("Captain Ada Ray C1", "#panel") and person.sees("First officer Bo Lund F1", "#panel"))
        person.press("B102", "main")
        seen.expect("by how much", person.sees("the rest before B102/1 is 9:30, and must be at least 10:00", "#panel"))
        person.press("B103", "main")
        seen.expect("B103 is allowed", person.sees("1 of 1 may", "#panel"))
        person.go("pairing/B101")
        person.press("Enter flown times")
        for name, text in (("RB2 out", "0330"), ("RB2 in", "11 0515"), ("Release", "+4:30")):
            person.fill(name, text)
        seen.expect("told before it is sent", person.sees("FDP 12:15 · flight 3:30. These exceedances would stay on record for good:"))
        seen.expect("whose limit", person.sees("Ada Ray (C1): Flight duty period (Table B), 117.13(a)"))
        person.press("Record flown times")
        seen.expect("told what is on record", person.sees("On record: C1 exceeds 117.13(a)", "#told"))
        seen.expect("beside the plan", person.sees("03:30 +1 +4:30", "main"))
        person.press("Exceeded", "nav")
        seen.expect("the exceedances", person.sees("2 of 2 on record") and person.sees("FDP 12:15, flight 3:30"))
    seen.expect("the members", book.members(), ["C1 HOME", "F1 HOME"])
    seen.expect("the seats", book.seats(), ["B101 C1 F1", "B102 - -", "B103 - -"])
    seen.expect("the exceedances", [it.split(" ", 2)[2] for it in book.exceedances()], ["C1 117.13(a) B101 1", "F1 117.13(a) B101 1"])


def try_first_month(seen, visitor):
    """README's first month: the page, after the requests of the examples."""
    book = seen.book()
    requests = [json.loads(line) for line in (TOP / "examples" / "requests.jsonl").read_text().splitlines()]
    answers = book.settle_lines([{name: value for name, value in it.items() if name != "number"} for it in requests])
    seen.expect("the requests", {it.split()[0] for it in answers}, {"accepted"})
    with at_desk(seen, visitor, book) as person:
        person.open("import")
        person.found("return document.querySelector('input[type=file]')").send_keys(str(JUNE))
        person.press("Import 3 pairings")
        person.go("pairing/B102")
        person.press("Assign Ada Ray")
        person.press("Release Ada Ray")
        person.press("Cancel pairing")
        person.press("Cancel B102 for good?")
        seen.expect("cancelled", person.sees("B102 is cancelled.", "#told"))
        person.go("import")
        person.press("or paste it")
        late = re.sub(r"T17:15Z|T19:00Z|T19:30Z", lambda it: f"T{int(it[0][1:3]) + 1}{it[0][3:]}", JUNE.read_text())
        person.fill("The schedule as text", "".join(line for line in late.splitlines(True) if line[:4] in ("pair", "B102")))
        person.press("Import 1 pairing")
        seen.expect("the new plan", person.sees("✓ in the book"))
        person.go("pairing/B102")
        person.press("Assign Ada Ray")
        person.press("Assign Zoë Roy")
        person.press("Enter flown times")
        for name, text in (("RB4 out", "2315"), ("RB4 in", "0100"), ("Release", "0130")):
            person.fill(name, text)
        seen.expect("an exceedance, told before", person.sees("would stay on record for good"))
        person.press("Record flown times")
        write_pairing(person, "B104", ("2025-06-17 16:00", "18 0630"), (("RB7", "DEN", "1630", "BOS", "2030"), ("RB8", "BOS", "18 0129", "DEN", "0559")))
        seen.expect("by the clock of HOME", person.sees("the flight duty period of B104/1 is 13:59, and may be at most 13:00"))
        person.press("Assign Lee Roy")
        person.go("member/C9")
        seen.expect("the roster of C9", person.sees("Tue 17 Jun B104/1 planned\nDEN–BOS–DEN\n16:00 – 06:30 +1 13:59 8:30", "main"))
        person.go("member/C2")
        person.press("Record flying for another airline")
        form = "details:nth-of-type(2)"
        for name, text in (("Report", "2025-06-15 15:00"), ("Out 1", "1600"), ("In 1", "1900"), ("Release", "16 0100"), ("Id", "X2")):
            person.fill(name, text, form)
        person.press("One more segment", form)
        person.fill("Out 2", "2100", form)
        person.fill("In 2", "0030", form)
        seen.expect("within all limits", person.sees("FDP 9:30 · flight 6:30. Within all limits.", form))
        person.press("Record", f"{form} form > div:last-child")
        seen.expect("recorded", person.sees("Flying X2 of Bo Lind (C2) for another airline is recorded."))
        write_pairing(person, "B105", ("2025-06-16 10:00", "1900"), (("RB9", "BOS", "1100", "IAD", "1245"), ("RB10", "IAD", "1645", "BOS", "1830")))
        seen.expect("the rest is short", person.sees("the rest before B105/1 is 9:00, and must be at least 10:00"))
        person.go("member/C2+outside/C2/X2")
        person.press("Correct its times")
        for name, text in (("Out 2", "2030"), ("In 2", "2300"), ("Release", "2330")):
            person.fill(name, text, "#panel")
        seen.expect("judged", person.sees("FDP 8:00 · flight 5:30. Within all limits.", "#panel"))
        person.press("Record", "#panel form > div:last-child")
        seen.expect("corrected", person.sees("Sun 15 Jun 15:00 – Sun 15 Jun 23:30 · FDP 8:00 · flight 5:30", "#panel"))
        person.go("pairing/B105")
        person.press("Assign Bo Lind")
        person.go("member/C2")
        seen.expect("the roster of C2", person.sees("flight 22:10 · FDP 34:40 · UTC", "main"))
    seats = ["B101 - -", "B102 C1 F1", "B103 - -", "B104 C9 -", "B105 C2 -", "P1 C2 F1"]
    seen.expect("the seats", book.seats(), seats)
    seen.expect("the exceedances", [it.split(" ", 2)[2] for it in book.exceedances()], ["C1 117.13(a) B102 1", "F1 117.13(a) B102 1"])
    wanted = order("outside X2 C2 15: 15:00 | 16:00-19:00, 20:30-23:00 | 23:30")
    seen.expect("the outside period", book.recorded("X2"), [{name: wanted[name] for name in ("crew", "report", "release", "segments")}])
    wanted = order("plan B104 17: 16:00 | RB7/DEN/BOS 16:30-20:30, RB8/BOS/DEN +1 01:29-+1 05:59 | +1 06:30")
    seen.expect("the pairing by hand", book.planned("B104"), wanted["periods"])


def write_pairing(person, pairing, edges, segments, is_left=False):
    """Writes a pairing of one period by hand, and adds it, unless it is left so."""
    person.go("import")
    person.press("Write one pairing by hand")
    form = "main form"
    person.fill("Pairing", pairing, form)
    person.fill("Report", edges[0], form)
    for n, segment in enumerate(segments):
        if n:
            person.press("One more segment", form)
        row = f"{form} fieldset > .stack > .stack > .fields:nth-child({n + 1})"
        for name, text in zip(("Flight", "From", "Out", "To", "In"), segment, strict=True):
            person.fill(name, text, row)
    person.fill("Release", edges[1], form)
    if is_left:
        return
    person.press("Add pairing")
    person.sees(f"Pairing {pairing} is in the book.")
    person.calm()


LATE = "fly B101 1 10: 17:00 | 18:00-19:45, +1 03:30-+1 05:15 | +1 05:45\n"
OUTSIDE = "details:nth-of-type(2)"  # on a member's page


def try_foretold(seen, visitor):
    """Flying for another airline is judged before it is sent; a ground duty that is refused says what is in its way, or by how much."""
    book = seen.book(OFFICE + "assign B103 C1\n")
    with at_desk(seen, visitor, book, ("409 (Conflict)", "422 (Unprocessable")) as person:
        person.open("member/C1")
        person.press("Record flying for another airline")
        seen.expect("no times yet", person.sees("A time is missing, or isn’t read.", OUTSIDE))
        person.fill("Report", "2025-06-11 02:00", OUTSIDE)
        seen.expect("the day by each clock", person.sees("Wed 11 Jun UTC · Tue 10 Jun 22:00 HOME", OUTSIDE))
        for name, text in (("Report", "2025-06-11 07:00"), ("Out 1", "0800"), ("In 1", "1000"), ("Release", "11")):
            person.fill(name, text, OUTSIDE)
        seen.expect("an example of a time", person.sees("write it as 11:05, +35 or 11 01:05", OUTSIDE))
        person.fill("Release", "11 1100", OUTSIDE)
        words = "FDP 3:00 · flight 2:00. These exceedances would stay on record for good:\nAda Ray (C1): Rest before a report, 117.25(e)"
        seen.expect("foretold", person.sees(words, OUTSIDE))
        person.fill("Id", "x 1", OUTSIDE)
        seen.expect("an id that would be refused", person.sees("It is about Id “x 1”.", OUTSIDE))
        seen.expect("it can't be sent", person.js("return document.querySelector(arguments[0]).disabled", f"{OUTSIDE} button.main"))
        person.fill("Id", "X1", OUTSIDE)
        seen.expect("foretold again", person.sees(words, OUTSIDE))
        seen.expect("nothing is sent yet", person.relay.commands, [])
        person.press("Record", f"{OUTSIDE} form > div:last-child")
        seen.expect("recorded", person.sees("On record: C1 exceeds 117.25(e), Rest before a report.", "#told"))
        person.press("Add a ground duty")
        for begin, end, words in (
            ("2025-06-10 1800", "1900", "The member has another duty at that time.\nAda Ray (C1) has B101/1, Tue 10 Jun 17:00 to Wed 11 Jun 01:15, UTC."),
            ("2025-06-11 0800", "0900", "Ada Ray (C1) flies for another airline (X1), Wed 11 Jun 07:00 to Wed 11 Jun 11:00, UTC."),
            ("2025-06-12 0600", "0900", "It would break a limit.\nAda Ray (C1):\nthe rest before B103/1 is 5:00, and must be at least 10:00 (117.25(e))"),
        ):
            for name, text in (("Task", "Medical"), ("Begin", begin), ("End", end), ("Id", "G1")):
                person.fill(name, text, "details")
            person.press("Add ground duty")
            seen.expect(begin, person.sees(words, "#told"))
        seen.expect("it isn't told as if it were so, and once", person.text("#told").count("Ada Ray (C1) was not given Medical (G1):"), 1)
    seen.expect("the exceedances", [it.split(" ", 2)[2] for it in book.exceedances()], ["C1 117.25(e) X1 0"])
    seen.expect("no ground duty", book.rows("SELECT id FROM ground"), [])


def try_corrected(seen, visitor):
    """A correction of flown times warns only of what isn't on record yet."""
    book = seen.book(OFFICE + "assign B103 F1\n" + LATE)
    with at_desk(seen, visitor, book) as person:
        person.open("pairing/B101")
        person.press("Correct flown times")
        seen.expect("as it was opened", person.sees("These times are in the book.", "form"))
        seen.expect("no warning", "for good" in person.text("form"), False)
        person.fill("RB2 in", "+4:40")
        seen.expect("no new one", person.sees("FDP 12:25 · flight 3:40. It exceeds only what is on record already.", "form"))
        person.fill("Release", "12 0500")
        seen.expect("a new one", person.sees("These exceedances would stay on record for good:\nZoë Roy (F1): Rest before a report, 117.25(e)", "form"))
        seen.expect("and no other", person.text("form").count("117."), 1)
    seen.expect("the exceedances", [it.split(" ", 2)[2] for it in book.exceedances()], ["C1 117.13(a) B101 1", "F1 117.13(a) B101 1"])


def try_schedule(seen, visitor):
    """A schedule that is refused: its record, pairing and field are named, and the row is marked; what is no schedule says what one is."""
    book, june = seen.book(OFFICE), re.sub("B10([23])", r"Q10\1", JUNE.read_text())
    wanted = {
        "flight “RB 4” isn’t one such as RB1": ("RB4", "RB 4"),
        "A segment doesn’t depart from where the one before arrived. Period 1": ("RB4,IAD", "RB4,DCA"),
        "The times are out of order. Period 1": ("2025-06-11T19:30Z", "2025-06-11T18:30Z"),
    }
    with at_desk(seen, visitor, book, ("422 (Unprocessable",)) as person:
        person.open("import")
        person.press("What a schedule looks like")
        example = "\n".join(re.findall(r"^    (pairing,period,report.*|P1,1,2025-06-10T11:00Z,.*)$", (TOP / "docs" / "FORMATS.md").read_text(), re.M)[:2])
        seen.expect("an example", person.text("pre"), example)
        seen.expect("what an id is", "An id has only A-Z, 0-9 and -, at most 12 of them." in person.text("main"))
        person.press("or paste it")
        for number, empty in ((3, "  "), (4, ",,,,,,,,")):
            person.fill("The schedule as text", "".join(june.splitlines(True)[: number - 1]) + f"{empty}\n")
            seen.expect("an empty line", person.sees(f"1 record can’t be read\nRecord {number}: it is an empty line: take it out."))
            seen.expect("why it can't be handed in", person.sees("correct first what can’t be read"))
        for why, (old, new) in wanted.items():
            text = june.replace(old, new)
            number = 5 if "RB 4" in new else 4  # (of the file: B101 isn't sent; the pairing's first, if no text of it is wrong)
            person.fill("The schedule as text", text)
            person.press("Import 2 pairings")
            seen.expect(why, person.sees(f"Nothing was imported.\n✕\nRecord {number} (Q102): {why}.\nThe schedule can’t be read.", "#told"))
            seen.expect("its row", person.text("tr.wrong").split()[0], "Q102")
            seen.expect("why, in the row", f"✗ Record {number} (Q102): {why}." in person.text("tr.wrong"))
        person.fill("The schedule as text", june.replace("Q103,2", "Q103,3"))
        person.press("Import 2 pairings")
        seen.expect("out of its place", person.sees("Record 7 (Q103): its period, report or release doesn’t go with the records around it.", "#told"))
        person.fill("The schedule as text", june.replace("2025-06-11T11:45Z", "6/11/2025 11:45"))
        seen.expect("a time", person.sees("1 record can’t be read\nRecord 4 (Q102): out “6/11/2025 11:45” isn’t one such as 2025-06-10T12:00Z."))
        more = "Its fields are not between commas: save it as comma separated values. "
        for text, more in ((june.replace(",", ";"), more), (june.partition("\n")[2], "")):
            person.fill("The schedule as text", text)
            words = f"This is no schedule. {more}Its first line must be\npairing,period,report,release,flight,from,out,to,in\nWrite"
            seen.expect("what a schedule is", person.sees(words))
        person.fill("The schedule as text", june)
        person.press("Import 2 pairings")
        seen.expect("imported", person.wait(lambda: person.text().count("✓ in the book")), 2)
        seen.expect("why nothing is left", person.sees("the book has them all already"))
        person.fill("The schedule as text", june.replace("2025-06-11T19:30Z", "2025-06-11T20:30Z").replace("Q103", "Q104"))
        states = "return [...document.querySelectorAll('tbody tr td:last-child')].map(it => it.textContent)"
        wanted = ["already there", "there with other times: cancel it first", "new"]
        seen.expect("what the book has", person.wait(lambda: person.js(states) == wanted))
        person.press("leave out those that the book has already")
        person.press("Import 3 pairings")
        seen.expect("not all", person.sees("1 of 3 pairings imported.", "#told"))
    seen.expect("the pairings", [it.split()[0] for it in book.seats()], ["B101", "B102", "B103", "Q102", "Q103", "Q104"])


def try_by_hand(seen, visitor):
    """A time that is typed as so much later means what it says beside the times as they stand when the pairing is added."""
    book = seen.book(OFFICE)
    with at_desk(seen, visitor, book) as person:
        person.open()
        write_pairing(person, "B900", ("2025-06-20 12:00", "+0:30"), (("RB1", "BOS", "1300", "IAD", "1430"),), is_left=True)
        form = "main form"
        seen.expect("beside the segment", person.sees("Fri 20 Jun UTC · Fri 20 Jun 11:00 HOME", form))
        person.press("One more segment", form)
        for name, text in (("Flight", "RB2"), ("To", "BOS"), ("Out", "1530"), ("In", "1700")):
            person.fill(name, text, f"{form} fieldset > .stack > .stack > .fields:nth-child(2)")
        seen.expect("beside the other", person.sees("Fri 20 Jun UTC · Fri 20 Jun 13:30 HOME", form))
        person.press("Add pairing")
        person.sees("Pairing B900 is in the book.")
        person.calm()
    at = minutes("2025-06-20T12:00Z") - minutes("2000-01-01T00:00Z")
    seen.expect("as it was meant", book.rows("SELECT report_at, release_at FROM period WHERE pairing = 'B900'"), [(at, at + 330)])


def try_names(seen, visitor):
    """What is refused is named as on the screen, and told as what isn't so; a base's zone is chosen by its place."""
    book = seen.book(OFFICE)
    with at_desk(seen, visitor, book, ("409 (Conflict)", "422 (Unprocessable")) as person:
        person.open("members")
        person.fill("Id", "C 3", "form")
        person.fill("Name", "Max Weil", "form")
        person.press("Add member")
        seen.expect("the field has the focus", person.wait(lambda: person.js("return document.activeElement.value") == "C 3"))
        seen.expect("an id", person.sees("Max Weil (C 3) was not added:\n✕\nA text has a sign that it may not have, or it is empty or too long. It is about Id “C 3”.", "#told"))
        base = "form:nth-of-type(2)"
        person.fill("Id", "BER", base)
        person.fill("Zone", "another", base)
        person.fill("POSIX rule", "Berlin", base)
        seen.expect("no rule", person.sees("not a rule yet", base))
        person.fill("POSIX rule", "CET-1CEST,M3.5.0,M10.5.0/3", base)
        seen.expect("a rule", person.sees("Check it: at 17:00 UTC a clock there shows 18:00 on 15 January and 19:00 on 15 July.", base))
        person.fill("Zone", "Alaska", base)
        seen.expect("by its place", person.sees("Check it: at 17:00 UTC a clock there shows 08:00 on 15 January and 09:00 on 15 July.", base))
        person.fill("Id", "ANC", base)
        person.press("Add base")
        seen.expect("a base", person.sees("The base ANC is there.", "#told"))
        person.press("Open", "nav")
        person.press("Write one pairing by hand")
        row = "fieldset > .stack > .stack > .fields"
        for name, text in (("Pairing", "b9"), ("Report", "2025-06-20 0800"), ("Release", "11:30")):
            person.fill(name, text, "form")
        for name, text in (("Flight", "R-1"), ("From", "BOS"), ("Out", "0900"), ("To", "IAD"), ("In", "1100")):
            person.fill(name, text, row)
        person.press("Add pairing")
        seen.expect("a flight", person.sees("Pairing B9 was not added:", "#told") and person.sees("It is about Flight “R-1”.", "#told"))
        seen.expect("which has the focus", person.wait(lambda: person.js("return document.activeElement.value") == "R-1"))
        person.fill("Flight", "R1", row)
        person.fill("Release", "1030", "form")
        person.press("Add pairing")
        seen.expect("times", person.sees("The times are out of order. Period 1.\nReport, Out and In of each segment, and Release follow one another", "#told"))
        person.fill("Release", "1130", "form")
        person.press("Add pairing")
        person.sees("Who may fly as captain?")
        person.press("Assign Bo Lind")
        person.press("Release Bo Lind")
        person.js("document.activeElement.blur()")
        person.type("?")
        seen.expect("what was sent", person.sees("Max Weil (C 3) was not added: refused", "dialog") and "Bo Lind (C2) flies B9: accepted" in person.text("dialog"))
    seen.expect("the bases", book.bases(), ["ANC AKST9AKDT,M3.2.0,M11.1.0", "DEN MST7MDT,M3.2.0,M11.1.0", "HOME EST5EDT,M3.2.0,M11.1.0"])
    seen.expect("the pairing", "B9 - -" in book.seats())


ON_25_JUNE = "const real = Date.now, off = Date.parse('2025-06-25T12:00Z') - real(); Date.now = () => real() + off;"


def try_phone(seen, visitor):
    """A captain's phone on 25 June: today comes first, by the clock of the captain's base."""
    plans = "".join(f"plan P{day} {day}: 16:00 | 17:00-19:00 | 20:00\nassign P{day} C9\n" for day in (3, 8, 13, 18, 21, 25, 28))
    book = seen.book(OFFICE + plans)
    added = visitor.execute_cdp_cmd("Page.addScriptToEvaluateOnNewDocument", {"source": ON_25_JUNE})
    try:
        with at_desk(seen, visitor, book) as person:
            person.size(NARROW)
            person.open("member/C9")
            top = "return document.querySelector('.coming').getBoundingClientRect().top"
            seen.expect("today's duty is seen first", person.wait(lambda: 0 < person.js(top) < 100) and "P25/1" in person.text(".coming"))
            seen.expect("its route", "BOS–IAD" in person.text(".coming"))
            person.js("scrollTo(0, 0)")
            person.press("This is me")
            seen.expect("by the clock of the base", person.sees("10:00 – 14:00", ".coming"))
            seen.expect("which the head says", person.text("#clock option:checked"), "DEN time")
            person.go("board/2025-06-01/month")
            edge = "document.querySelector('{}').getBoundingClientRect()"
            left = f"return {edge.format('.dayname.today')}.left - {edge.format('.days > div')}.right"
            seen.expect("the board begins with today", person.wait(lambda: abs(person.js(left)) < 90), True)
            seen.expect("it is scrolled", person.js("return document.getElementById('grid').scrollLeft > 500"))
            seen.expect("the legend", all(words in person.text(".legend") for words in ("one seat free", "✓ may fly")))
    finally:
        visitor.execute_cdp_cmd("Page.removeScriptToEvaluateOnNewDocument", added)


RESTS = """
    const [duties, sections] = arguments, all = duties.sort((a, b) => a.begin - b.begin);
    return sections.map(([section, limit]) => nearestRest({ section, limit }, all, { begin: 0, end: 1e9 })?.minutes ?? null);
"""


def try_rests(seen, visitor):
    """Where the page reckons rests itself, it comes to what the report says."""
    script = "".join(part(name) for name in ("instants", "kept", "zones", "clock", "sections")) + RESTS
    visitor.get("about:blank")
    for seed in range(6):
        rng, lines = random.Random(seed), ["hire C1 captain: Ada Ray"]
        for day in sorted(rng.sample(range(1, 25), 14)):
            hour = rng.randrange(0, 12)
            lines += [f"plan P{day} {day}: {hour:02}:00 | {hour + 1:02}:00-{hour + 2:02}:30 | {hour + 3:02}:00", f"assign P{day} C1"] if rng.random() < 0.6 else [f"train G{day} {day}: {hour:02}:00-{hour + rng.randrange(2, 12):02}:00"]
        book = Book.made(seen.room)
        for line in lines:
            book.settle(line)
        limits = json.loads(rosterbook("limits", book.file, "C1", "--json").out)["limits"][-2:]
        duties = [{"begin": minutes(it["begin"]), "end": minutes(it["end"]), "fdp": it.get("fdp")} for it in json.loads(rosterbook("roster", book.file, "C1", "--json").out)["duties"]]
        got = visitor.execute_script(script, duties, [[it["section"], it["limit"]] for it in limits])
        seen.expect(f"the rests of roster {seed}", got, [it["minutes"] for it in limits])


def minutes(text):
    return int(datetime.fromisoformat(text.replace("Z", "+00:00")).timestamp() // 60)


def try_drag(seen, visitor):
    """A pairing is dragged to a member who may not fly it, and to one who may."""
    book = seen.book(OFFICE)
    with at_desk(seen, visitor, book) as person:
        person.open("board/2025-06-01/month")
        person.drag("B102", "C1")
        words = "the rest before B102/1 is 9:30, and must be at least 10:00"
        seen.expect("why not, in the air", person.sees(f"B102 to Ada Ray: {words}", ".drag"))
        barred = "return document.querySelector('.row.over').classList.contains('barred')"
        seen.expect("her row", person.js(barred))
        person.drop()
        seen.expect("refused", person.sees("Ada Ray (C1) was not assigned to B102:", "#told"))
        seen.expect("the reason", person.sees(f"It would break a limit.\nAda Ray (C1):\n{words} (117.25(e))\nTake another member, or other times.", "#told"))
        person.drag("B102", "C2")
        seen.expect("allowed, in the air", person.sees("B102 to Bo Lind: may fly", ".drag"))
        seen.expect("his row", person.js(barred), False)
        person.drop()
        seen.expect("assigned", person.sees("Bo Lind (C2) flies B102.", "#told"))
        person.drag("B103", "F1")
        person.type(person.key.ESCAPE)
        person.drop()
        seen.expect("taken back", person.text(".drag"), "")
        person.drag("B102", "C9")
        seen.expect("a seat that is taken", person.sees("The captain’s seat of B102 is taken", ".drag") and person.js(barred))
        person.type(person.key.ESCAPE)
        person.drop()
        person.press("Undo", "#told")
        seen.expect("undone", person.sees("Bo Lind (C2) doesn’t fly B102.", "#told"))
    seen.expect("the seats", book.seats(), ["B101 C1 F1", "B102 - -", "B103 - -"])
    commands = [json.loads(row[2]) for row in book.requests()][-2:]
    seen.expect("the last commands", [it["do"] for it in commands], ["assign", "release"])


def try_seats(seen, visitor):
    """A member is replaced, two swap, and one is released."""
    book = seen.book(OFFICE + "assign B103 C2\n")
    with at_desk(seen, visitor, book) as person:
        person.open("pairing/B101")
        person.press("Replace Zoë Roy")
        person.press("Replace by Jo Poe")
        seen.expect("replaced", person.sees("Jo Poe (F2) flies B101, in place of Zoë Roy (F1).", "#told"))
        person.press("Undo", "#told")
        seen.expect("and back", person.sees("Zoë Roy (F1) flies B101, in place of Jo Poe (F2).", "#told") and person.sees("First officer Zoë Roy F1", "main"))
        person.press("Undo", "#told")
        seen.expect("and replaced again", person.sees("First officer Jo Poe F2", "main"))
        person.press("Swap Ada Ray")
        seen.expect("with whom", person.sees("1 of 1 may"))
        person.press("Swap: Ada Ray (C1) flies B103, Bo Lind (C2) flies B101")
        seen.expect("swapped", person.sees("Captain Bo Lind C2", "main"))
        person.press("Undo", "#told")
        seen.expect("swapped back", person.sees("Captain Ada Ray C1", "main"))
        person.press("Undo", "#told")
        seen.expect("and again", person.sees("Captain Bo Lind C2", "main"))
        person.press("Release Jo Poe")
        seen.expect("released", person.sees("Who may fly as first officer?", "main"))
        person.go("board/2025-06-01/month")
        seen.expect("no mark of what isn't shown", person.js("return document.querySelectorAll('.row:is(.yes, .no)').length"), 0)
        person.go("board/2025-06-01/month+pairing/B101")
        seen.expect("marks of what is", person.wait(lambda: person.js("return document.querySelectorAll('.row:is(.yes, .no)').length")), 2)
    seen.expect("the seats", book.seats(), ["B101 C2 -", "B102 - -", "B103 C1 -"])


def try_requests(seen, visitor):
    """How often the server is asked doesn't depend on how many members there are: for a month, for who may fly, and for swaps."""
    more = "".join(f"hire {seat[0].upper()}{n} {seat}: {seat} {n}\n" for n in range(30, 50) for seat in ("captain", "first-officer"))
    for lines, captains in ((OFFICE, 3), (OFFICE + more, 23)):
        book = seen.book(lines + "assign B103 C2\n")
        with at_desk(seen, visitor, book) as person:
            person.open("board/2025-06-01/month")
            month, lists = "/json/board/2025-05-31/2025-07-01", ["/json/reports/pairings", "/json/exceedances"]
            seen.expect("how many requests are kept, before all that is read", person.relay.paths[:3], ["/", COUNT, month])
            seen.expect("a month, and the page itself", asked_by(person), ["/", month, *lists])
            seen.expect("all duties", person.js("return document.querySelectorAll('.row .duty').length"), 4)
            person.type(person.key.PAGE_DOWN) if person.js("return document.activeElement.closest('#grid')") else person.press("Later")
            seen.expect("the next month", [person.text("h1"), asked_by(person)], ["July 2025", ["/json/board/2025-06-30/2025-08-01"]])
            person.press("Week", "main")
            seen.expect("its first week", person.sees("Mon 30 Jun – Sun 6 Jul 2025", "h1"))
            person.press("Month", "main")
            seen.expect("and back to it", person.sees("July 2025", "h1"))
            asked_by(person)
            person.relay.held = threading.Event()
            person.js("location.hash = '#/pairing/B102'")
            seats = "return [...document.querySelectorAll('.candidate .main')].map(it => it.getAttribute('aria-label').split(', ')[1])"
            seen.expect("the lists stand", person.sees(f"{captains - 1} of {captains} may", "main") and person.sees(f"{captains - 2} of {captains - 1} may", "main"))
            allowed = person.js(seats)
            inert = "return [...document.querySelectorAll('.candidate .main')].map(it => it.closest('ul').inert)"
            seen.expect("none can be chosen before they are sorted", set(person.js(inert)), {True})
            seen.expect("who may not, and why", "Rest before a report" in person.text("main") and "C1" not in allowed)
            asked = [it for it in asked_by(person) if "/limits/" not in it]
            seen.expect("two requests for two seats", asked, ["/json/pairings/B102", "/lines/checks", "/lines/checks"])
            person.relay.held.set()
            person.calm()
            seen.expect("by how much", person.sees("the rest before B102/1 is 9:30, and must be at least 10:00", "main"))
            seen.expect("each can be chosen", set(person.js(inert)), {False})
            seen.expect("the same may, those with the fewest hours first", [sorted(person.js(seats)) == sorted(allowed), allowed[0], person.js(seats)[captains - 2]], [True, "C2", "C2"])
            asked_by(person)
            person.go("pairing/B103")
            asked_by(person)
            person.press("Swap Bo Lind")
            seen.expect("one request for all swaps", asked_by(person), ["/lines/checks"])
            person.press("Release Bo Lind")
            crews = [it for it in asked_by(person) if it.startswith(("/json/reports/m", "/json/c", "/json/board"))]
            seen.expect("one for the members", crews, ["/json/reports/members"])


COUNT = "/json/count"


def asked_by(person):
    """What the page has asked for since this was looked at last, but for how many requests are kept: that it asks by the clock."""
    asked, person.relay.paths = person.relay.paths, []
    return [it for it in asked if it != COUNT]


def pause(person, is_paused):
    """Hides the page, or shows it again: one that nobody sees doesn't look for what other desks do."""
    person.js("""
        Object.defineProperty(document, 'hidden', { value: arguments[0], configurable: true });
        document.dispatchEvent(new Event('visibilitychange', { bubbles: true }));
    """, is_paused)


def elsewhere(seen, person, lines, start=5_000_000):
    """Another program has the server do these lines."""
    for number, line in enumerate(lines, start):
        body = json.dumps({"number": number, **order(line)}).encode()
        got = person.relay.answer(b"POST /requests HTTP/1.1\r\nHost: localhost\r\nContent-Length: %d\r\n\r\n" % len(body) + body)
        seen.expect(line, b'"accepted"' in got)


def looks(person, times):
    """Waits until the page has asked so many times how many requests are kept."""
    before = person.relay.paths.count(COUNT)
    seen = person.wait(lambda: person.relay.paths.count(COUNT) >= before + times)
    person.calm()
    return seen


def try_changes(seen, visitor):
    """What another desk does is seen within seconds, without a key, and leaves alone what somebody is at; what this one does is read once."""
    book = seen.book(OFFICE)
    bars = "return document.querySelectorAll('.row[data-crew=\"{}\"] .duty').length"
    with at_desk(seen, visitor, book, ("net::ERR_",)) as person:
        person.open("board/2025-06-01/month")
        asked_by(person)
        seen.expect("it looks", looks(person, 1))
        seen.expect("and reads nothing", asked_by(person), [])
        person.js("document.querySelector('[data-key=\"C1 pairing B101/1\"]').focus()")
        focus = person.focused()
        elsewhere(seen, person, ["assign B103 C2", "train G1 16: 12:00-20:00"])
        seen.expect("the bars of another desk", person.wait(lambda: [person.js(bars.format(crew)) for crew in ("C1", "C2")] == [2, 2]))
        person.calm()
        seen.expect("the focus stays", person.wait(lambda: person.focused() == focus))
        seen.expect("the lists are read once", [it for it in asked_by(person) if "pairings" in it], ["/json/reports/pairings"])
        person.fill("Filter members", "Roy")
        elsewhere(seen, person, ["hire C7 captain: Ed Roy"], 5_000_010)
        seen.expect("a new row of those that are chosen", person.sees("Ed Roy", "#grid") and "3 of 6" in person.text("#shown"))
        person.type(" x")
        seen.expect("the filter goes on", person.js("return document.activeElement.value"), "Roy x")
        person.open("member/C1")
        visitor.refresh()
        person.calm()
        person.press("Add a ground duty")
        person.fill("Task", "Simul", "details")
        asked_by(person)
        elsewhere(seen, person, ["train G2 20: 12:00-20:00"], 5_000_020)
        person.wait(lambda: "/json/exceedances" in person.relay.paths)
        person.calm()
        person.type("ator")
        form = "return [document.activeElement.value, document.activeElement.closest('details').open]"
        seen.expect("a form goes on", person.js(form), ["Simulator", True])
        for name, text in (("Begin", "2025-06-22 0800"), ("End", "1200")):
            person.fill(name, text, "details")
        person.press("Add ground duty")
        seen.expect("both are there once it is sent", person.sees("GC1-0622", ".duties") and "G2" in person.text(".duties"))
        seen.expect("it is read once", [it for it in asked_by(person) if "pairings" in it][1:], ["/json/reports/pairings"])
        seen.expect("and not again", [looks(person, 1), asked_by(person)], [True, []])
        person.press("Add a ground duty")
        elsewhere(seen, person, ["train G3 24: 12:00-20:00"], 5_000_030)
        person.wait(lambda: "/json/exceedances" in person.relay.paths)
        looks(person, 1)
        seen.expect("a form that is open", [person.js("return document.querySelector('details').open"), "G3" in person.text(".duties")], [True, False])
        person.press("Add a ground duty")
        seen.expect("is drawn over once it is closed", person.sees("G3", ".duties"))
        person.js("document.activeElement.blur()")
        person.type("?")
        elsewhere(seen, person, ["train G4 26: 12:00-20:00"], 5_000_040)
        seen.expect("below the help", person.sees("G4", ".duties"))
        seen.expect("which stays", [person.text("dialog h2"), person.focused()], ["Keys", "Close"])
        person.type(person.key.ESCAPE)
        person.go("board/2025-06-01/month+pairing/B102")
        person.js("document.querySelector('#panel .main').focus()")
        focus = person.focused()
        elsewhere(seen, person, ["train G5 28: 12:00-20:00"], 5_000_050)
        seen.expect("a bar beside the panel", person.wait(lambda: person.js(bars.format("C1")) == 7))
        seen.expect("the focus in the panel", person.wait(lambda: person.focused() == focus))
        pause(person, True)
        person.calm()
        person.relay.paths.clear()
        elsewhere(seen, person, ["train G6 29: 12:00-20:00"], 5_000_060)
        time.sleep(7)
        seen.expect("nobody looks", person.relay.paths, [])
        pause(person, False)
        seen.expect("until somebody does", person.wait(lambda: person.js(bars.format("C1")) == 8))
        there, person.relay.server = person.relay.server, free_port()
        seen.expect("the book doesn't answer", person.sees("The book doesn’t answer.", "#told"))
        person.relay.server = there
        elsewhere(seen, person, ["excuse G6"], 5_000_070)
        seen.expect("until it does", person.wait(lambda: "doesn’t answer" not in person.text("#told")))
        seen.expect("it is read again", person.wait(lambda: person.js(bars.format("C1")) == 7))


def try_two_desks(seen, visitor):
    """Another desk changes what this one shows, and what a person presses before it is shown."""
    book = seen.book(OFFICE)
    with at_desk(seen, visitor, book) as person, browser() as other_visitor:
        other = Person(other_visitor, person.port)
        person.open("board/2025-06-01/month")
        other.open("pairing/B103")
        other.press("Assign Bo Lind")
        bar = "return document.querySelector('.row[data-crew=\"C2\"] .duty')?.getAttribute('aria-label')"
        seen.expect("the other desk's bar", person.wait(lambda: person.js(bar)), "Bo Lind: B103/1, planned, Thu 12 Jun 14:00 to Thu 12 Jun 21:00")
        person.go("pairing/B103")
        person.press("Release Bo Lind")
        seen.expect("the seat is free", other.sees("Captain free", "main"))
        other.calm()
        pause(person, True)
        other.press("Assign Bo Lind")
        person.press("Assign Ada Ray")
        seen.expect("the seat is taken", person.sees("The seat is taken.", "#told"))
        seen.expect("who has it", person.sees("Captain Bo Lind C2", "main"))
        person.press("Release Bo Lind")
        other.type("r")
        seen.expect("read again", other.sees("Captain free", "main"))
        person.press("Assign Lee Roy")
        other.press("Assign Jo Poe")
        seen.expect("both seats", other.sees("Captain Lee Roy C9", "main") and other.sees("First officer Jo Poe F2", "main"))
    seen.expect("the seats", book.seats(), ["B101 C1 F1", "B102 - -", "B103 C9 F2"])


def try_lost_answer(seen, visitor):
    """The server is stopped once it has done a command, and its answer is lost; it is started again, and the command is sent again."""
    for is_reloaded in (False, True):
        book, stopped = seen.book(OFFICE), threading.Event()
        with at_desk(seen, visitor, book, ("409 (Conflict)", "net::ERR_")) as person:

            def lose(server=person.server, stopped=stopped):
                stop(server)
                stopped.set()

            person.open("pairing/B103")
            person.relay.lose = lose
            person.found(CONTROL, "Assign Ada Ray", "main").click()
            seen.expect("the server is stopped", stopped.wait(PATIENCE))
            seen.expect("it is told", person.sees("1 command without an answer yet.", "#outbox"))
            seen.expect("which", "Ada Ray (C1) flies B103" in person.text("#outbox"))
            seen.expect("the book doesn't answer", person.sees("The book doesn’t answer.", "#told"))
            with serving(book) as again:
                person.relay.server = again.port
                if is_reloaded:
                    visitor.refresh()
                    seen.expect("told after a reload", person.sees("It was sent again under its number", "#told"))
                person.press("Send now") if person.text("#outbox") else None
                seen.expect("it is done", person.sees("Captain Ada Ray C1", "main"))
                seen.expect("nothing is left", person.wait(lambda: person.text("#outbox") == ""))
                seen.expect("the book answers", person.wait(lambda: "doesn’t answer" not in person.text("#told")))
                person.press("Release Ada Ray")
                seen.expect("and goes on", person.sees("Captain free", "main"))
        assigned = [row for row in book.requests() if json.loads(row[2]) == {"do": "assign", "pairing": "B103", "crew": "C1"}]
        seen.expect("it acted once", len(assigned), 1)
        seen.expect("the seats", book.seats(), ["B101 C1 F1", "B102 - -", "B103 - -"])


def try_numbers(seen, visitor):
    """Somebody else's command has the number of one; the server has no memory for an answer."""
    book = seen.book(OFFICE)
    with at_desk(seen, visitor, book, ("409 (Conflict)", "503 (Service Unavailable)")) as person:
        person.open("pairing/B103")
        person.relay.said = [response(409, '{"name":"NumberUsed","refusal":1,"result":"refused"}')]
        person.press("Assign Ada Ray")
        seen.expect("assigned under another number", person.sees("Captain Ada Ray C1", "main"))
        person.relay.said = [response(503, '{"name":"Memory","refusal":91,"result":"refused"}')]
        person.press("Assign Jo Poe")
        seen.expect("assigned after all", person.sees("First officer Jo Poe F2", "main"))
    numbers = [json.loads(it)["number"] for it in person.relay.commands]
    seen.expect("the commands", [numbers[0] == numbers[1], numbers[2] == numbers[3], len(numbers)], [False, True, 4])
    seen.expect("those in the book", [row[0] for row in book.requests()][-2:], [numbers[1], numbers[3]])


def try_room(seen, visitor):
    """The member's screen has room for its limits before they are there; on the phone of a member it is the first one."""
    book = seen.book(OFFICE)
    place = "return [...document.querySelectorAll('main summary')].map(it => it.getBoundingClientRect().top)"
    with at_desk(seen, visitor, book) as person:
        person.open("members")
        for size in (WIDE, NARROW):
            person.size(size)
            person.relay.held = threading.Event()
            person.js("location.hash = '#/member/C1'")
            seen.expect("the limits are named", person.sees("Flight duty in 28 days") and "…" in person.text("main .limits"))
            seen.expect("the roster is there", person.sees("B101/1"))
            before = person.js(place)
            person.relay.held.set()
            person.calm()
            seen.expect("the limits", "2:" in person.text("main .limits") or "3:30 of 9:00" in person.text("main .limits"))
            seen.expect(f"nothing has moved at {size[0]} px", person.js(place), before)
            person.go("members")
        person.go("member/C1")
        person.press("This is me")
        person.go("open")
        person.open()
        visitor.refresh()
        person.calm()
        seen.expect("it is the first screen of a phone", person.text("h1"), "Ada Ray")
        seen.expect("a link to it", person.text("#mine"), "Mine")


def try_markup(seen, visitor):
    """Names and tasks that would be markup are texts."""
    book = seen.book(OFFICE)
    with at_desk(seen, visitor, book, ("409 (Conflict)", "TrustedHTML")) as person:
        person.open("members")
        for crew, name in (("C3", MARKUP), ("C4", "</script><script>alert(2)</script>"), ("C5", "\u202eevil &amp; \"'`${alert(3)}")):
            person.fill("Id", crew, "form")
            person.js("const it = [...document.querySelectorAll('form input')][1]; it.value = arguments[0]", name)
            person.press("Add member")
        person.go("member/C3")
        person.press("Add a ground duty")
        for name, text in (("Task", MARKUP), ("Begin", "2025-06-20 0800"), ("End", "1200")):
            person.fill(name, text, "details")
        person.press("Add ground duty")
        for where in ("board/2025-06-01/week", "board/2025-06-16/week+ground/C3/GC3-0620", "open+pairing/B103", "members", "member/C3"):
            person.go(where)
            seen.expect(f"it is a text on {where}", person.sees(MARKUP))
            seen.expect(f"no picture on {where}", person.js("return document.querySelectorAll('img, main script, #panel script, #told script').length"), 0)
        seen.expect("markup is refused by the browser", person.js("try { document.body.innerHTML = '<b>x</b>'; return 'taken' } catch (why) { return why.name }"), "TypeError")
    rows = dict(book.rows("SELECT id, name FROM crew"))
    seen.expect("the name in the file", rows["C3"], MARKUP)


def try_clocks(seen, visitor):
    """A month by the clock of a base, in which clocks change."""
    book = seen.book("base LH: LHST-10:30LHDT-11,M10.1.0,M4.1.0\nhire C1 captain: Ada Ray\n")
    march = {"report": "2025-03-09T06:30Z", "release": "2025-03-09T14:00Z", "segments": [{"flight": "RB1", "from": "BOS", "out": "2025-03-09T07:30Z", "to": "IAD", "in": "2025-03-09T13:00Z"}]}
    for command in ({"do": "add-pairing", "pairing": "M1", "periods": [march]}, {"do": "assign", "pairing": "M1", "crew": "C1"}):
        seen.expect(command["do"], book.settle(json.dumps(command)), "accepted")
    widths = "return [...document.querySelectorAll('.dayname')].map(it => parseFloat(it.style.width))"
    with at_desk(seen, visitor, book) as person:
        person.open("board/2025-03-01/month")
        bar = "return document.querySelector('.row .duty').getAttribute('aria-label')"
        seen.expect("in UTC", person.found(bar), "Ada Ray: M1/1, planned, Sun 9 Mar 06:30 to Sun 9 Mar 14:00")
        person.fill("Clock", "HOME time", "header")
        person.calm()
        seen.expect("in the local time of HOME", person.found(bar), "Ada Ray: M1/1, planned, Sun 9 Mar 01:30 to Sun 9 Mar 10:00")
        days = person.js(widths)
        seen.expect("the days of March", len(days), 31)
        seen.expect("9 March has 23 hours", round(days[8] / days[7] * 24, 3), 23.0)
        person.type("4")
        person.go("pairing/M1")
        seen.expect("a segment before and after", person.sees("03:30") and person.sees("local time of HOME"))
        person.go("board/2025-11-01/month")
        days = person.js(widths)
        seen.expect("2 November has 25 hours", round(days[1] / days[0] * 24, 3), 25.0)
        person.type("u")
        person.go("board/2025-04-01/month")
        days = person.js(widths)
        seen.expect("half an hour more", [person.text("#clock option:checked"), round(days[5] / days[4] * 24, 3)], ["LH time", 24.5])
        person.go("members")
        seen.expect("the zones of the bases", person.sees("at 17:00 UTC a clock there shows 12:00 on 15 January and 13:00 on 15 July"))
        person.open("board/2025-03-01/month")
        seen.expect("the clock is kept", person.text("#clock option:checked"), "LH time")


RULES = (
    "MST7", "<-03>3", "<+0530>-5:30", "CET-1CEST,M3.5.0,M10.5.0/3", "NZST-12NZDT,M9.5.0,M4.1.0/3", "LHST-10:30LHDT-11,M10.1.0,M4.1.0",
    "EST5EDT,J60/0,J300", "EST5EDT,59,300", "IST-1GMT0,M10.5.0,M3.5.0/1", "PST8PDT,M3.2.0/26,M11.1.0/-1", "<-03>3<-02>,M10.3.0/0,M2.3.0/0",
)  # fmt: skip
OFFSETS = """
    const [rule, instants] = arguments, zone = zoneOf(rule), wrong = [];
    setZones([{ base: 'X', zone: rule }]);
    chooseClock('X');
    for (let n = 0; n < 1100; n++) {
        const first = midnight(2024, 0, n), day = new Date(Date.UTC(2024, 0, n)).toISOString().slice(0, 10);
        if (ymd(first) !== day || ymd(first - 1) >= day || addDays(first, 1) !== midnight(2024, 0, n + 1)) wrong.push(day);
    }
    return [instants.map(m => zone.offset(m)), wrong];
"""


def part(name):
    """A part of the script, as one that imports nothing and exports nothing."""
    return re.sub(r"^import .*$|^export ", "", (DESK / "script" / f"{name}.js").read_text(), flags=re.M)


def try_zones(seen, visitor):
    """Zones are read as the C library reads them, and a day begins with its first minute."""
    text = (TOP / "docs" / "REFUSALS.md").read_text()
    offered = re.findall(r"^\| ([A-Z][\w ]+) \| `(\S+)` \| \d\d:\d\d \|", text, re.M)
    there = re.findall(r"\['(\S+)', '([\w ]+)'\]", part("zones"))
    seen.expect("the zones that are offered", there, [(rule, name) for name, rule in offered])
    instants = [15_778_080 + n * 13_147 for n in range(4_000)]  # of 2000 to 2099
    script = "".join(part(name) for name in ("instants", "kept", "zones", "clock")) + OFFSETS
    visitor.get("about:blank")
    kept = os.environ.get("TZ")
    for rule in (*(rule for _, rule in offered), *RULES):
        os.environ["TZ"] = rule
        time.tzset()
        wanted = [time.localtime(m * 60).tm_gmtoff // 60 for m in instants]
        seen.expect(rule, visitor.execute_script(script, rule, instants) == [wanted, []])
    os.environ.pop("TZ")
    if kept is not None:
        os.environ["TZ"] = kept
    time.tzset()


def try_keys(seen, visitor):
    """The desk by the keyboard alone."""
    book = seen.book(OFFICE + "plan B104 20: 11:00 | RB77/BOS/IAD 12:00-14:00 | 15:00\nassign B104 C9\nassign B104 F2\n")
    with at_desk(seen, visitor, book) as person:
        key = person.key
        person.open()
        person.type("o")
        seen.expect("o", person.text("h1"), "Open pairings")
        person.type("b")
        seen.expect("b", person.text("h1"), "June 2025")
        person.js("document.activeElement.blur()")
        person.type(key.ARROW_DOWN)
        seen.expect("an arrow goes to the grid", person.focused().startswith("Ada Ray"))
        seen.expect("one tab stop", person.js("return document.querySelectorAll('#grid [tabindex=\"0\"]').length"), 1)
        person.type(key.ARROW_RIGHT)
        seen.expect("to a duty", person.focused(), "Ada Ray: B101/1, planned, Tue 10 Jun 17:00 to Wed 11 Jun 01:15")
        person.type(key.ENTER)
        seen.expect("Enter opens it", person.sees("Pairing B101", "#panel"))
        person.type(key.ESCAPE)
        seen.expect("Esc closes it", person.wait(lambda: person.text("#panel") == "" and "B101/1" in person.focused()))
        person.type(key.ARROW_DOWN, key.ARROW_DOWN, key.ARROW_DOWN, key.ARROW_DOWN, key.ARROW_DOWN)
        seen.expect("down to the open pairings", person.focused().startswith("Open pairing B10"))
        person.type(key.END, key.ENTER)
        seen.expect("who may fly", person.wait(lambda: "2 of 2 may" in person.text("#panel")))
        steps = 0
        while person.focused() != "Assign Bo Lind, C2" and steps < 20:
            person.type(key.TAB)
            steps += 1
        person.type(key.ENTER)
        seen.expect("assigned by a key", person.sees("Bo Lind (C2) flies B103.", "#told"))
        person.type(key.ESCAPE)
        person.type("1")
        seen.expect("a week", person.sees("Mon 9 Jun – Sun 15 Jun 2025", "h1"))
        person.type(key.PAGE_DOWN) if person.js("return document.activeElement.closest('#grid')") else person.press("Later")
        seen.expect("the next one", person.sees("Mon 16 Jun – Sun 22 Jun 2025", "h1"))
        person.type("/")
        person.type("lee", key.ENTER)
        seen.expect("found by a part of the name", person.sees("Lee Roy", "h1"))
        person.type("/")
        person.type("b102", key.ENTER)
        seen.expect("found by the id", person.sees("Pairing B102", "h1"))
        person.type("/")
        person.type("rb77", key.ENTER)
        seen.expect("found by a flight", person.sees("Pairing B104", "h1"))
        person.go("board/2025-06-01/month")
        person.type("/")
        person.type("rb1", key.ENTER)
        listed = "return [...document.querySelectorAll('#panel li a')].map(it => it.textContent)"
        seen.expect("several with a flight", person.sees("Flight RB1", "#panel") and person.js(listed), ["B101", "B102", "B103"])
        person.press("B103", "#panel ul")
        seen.expect("one of them", person.sees("Pairing B103", "#panel h2"))
        person.js("document.activeElement.blur()")
        person.type("?")
        seen.expect("help", person.sees("What this desk sent last", "dialog"))
        seen.expect("what was sent", "Bo Lind (C2) flies B103: accepted" in person.text("dialog"))
        person.type(key.ESCAPE)
        seen.expect("help is closed", person.wait(lambda: person.text("dialog") == ""))
    seen.expect("the seats", book.seats(), ["B101 C1 F1", "B102 - -", "B103 C2 -", "B104 C9 F2"])


def try_screens(seen, visitor):
    """Each screen, full and empty, at both widths: nothing is wider than the window, and each control has a name."""
    more = """
        train G1 20: 12:00-20:00
        outside X1 C2 16: 13:00 | 14:00-17:00, 19:00-22:30 | 23:00
        fly B101 1 10: 17:00 | 18:00-19:45, +1 03:30-+1 05:15 | +1 05:45
        hire C8 captain: Maximiliana-Konstantina Freifrau von Hohenzollern-Sigmaring
        assign B103 C8
    """
    for book, addresses in ((seen.book(OFFICE + more), (*SCREENS, *PANELS)), (seen.book(), SCREENS)):
        with at_desk(seen, visitor, book) as person:
            for size in (WIDE, NARROW):
                person.size(size)
                person.open()
                for where in addresses:
                    person.go(where)
                    person.js("for (const it of document.querySelectorAll('details')) it.open = true")
                    seen.expect(f"too wide at {size[0]} px: {where}", person.is_too_wide(), [])
                    seen.expect(f"headings: {where}", person.js("return document.querySelectorAll('h1').length"), 1)
                    seen.expect(f"controls without a name: {where}", unnamed(visitor), [])


ROLES = ("button", "link", "textbox", "searchbox", "combobox", "checkbox", "radio", "radiogroup", "meter", "grid", "table", "dialog", "navigation", "complementary")


def unnamed(visitor):
    """The controls to which Chromium's accessibility tree gives no name."""
    nodes = visitor.execute_cdp_cmd("Accessibility.getFullAXTree", {})["nodes"]
    shown = ((it["role"]["value"], it.get("name", {}).get("value")) for it in nodes if not it.get("ignored") and "role" in it)
    return sorted({role for role, name in shown if role in ROLES and not name})


def try_inspector(seen, visitor):
    """What is on record: chosen by member, section and month, sorted, and each with its duty."""
    late = "fly B101 1 10: 17:00 | 18:00-19:45, +1 03:30-+1 05:15 | +1 05:45"
    book = seen.book(OFFICE + f"assign B103 F1\n{late}\noutside X1 F1 11: 13:00 | 14:00-17:00 | 18:00\n")
    first = "return document.querySelector('tbody tr').innerText.replace(/\\s+/g, ' ')"
    with at_desk(seen, visitor, book) as person:
        person.open("exceedances")
        seen.expect("all", person.sees("3 of 3 on record"))
        person.fill("sections", "117.25(e)")
        seen.expect("one of rest", person.sees("1 of 3 on record"))
        wanted = "Zoë Roy F1 117.25(e) Rest before a report 2:45 short of 10:00 X1 (other airline) Wed 11 Jun 2025 13:00 FDP 4:00, flight 3:00"
        seen.expect("whose, of what, by how much", person.wait(lambda: person.js(first).startswith(wanted)))
        person.fill("sections", "all")
        person.fill("members", "C1")
        wanted = "(Table B) 0:15 over 12:00 B101/1 Tue 10 Jun 2025 17:00 FDP 12:15, flight 3:30"
        seen.expect("one of C1", person.sees("1 of 3 on record") and person.wait(lambda: wanted in person.js(first)))
        person.fill("members", "all")
        person.press("Member", "thead")
        seen.expect("sorted by member", person.js(first)[:7], "Ada Ray")
        person.found("return document.querySelector('tbody summary')").click()
        words = "Flown times of B101/1 are recorded. Handed in: report Tue 10 Jun 2025 17:00, FDP 12:15 · flight 3:30.\nOn record: C1 exceeds 117.13(a), Flight duty period (Table B); F1 exceeds 117.13(a), Flight duty period (Table B)."
        seen.expect("what is kept under its number", person.sees(words, "tbody details"))
        person.press("B101/1", "main")
        seen.expect("the duty, beside the plan", person.sees("117.13(a) Flight duty period (Table B): Ada Ray (C1)", "#panel") and "+4:30" in person.text("#panel"))


def try_within(seen, visitor):
    """What is within its limit since it was corrected stays on record, and isn't red any more; what still exceeds it is."""
    on_time = "fly B101 1 10: 17:00 | 18:00-19:45, 23:00-+1 00:45 | +1 01:15\n"
    colours = "return [...document.querySelectorAll(arguments[0])].map(it => getComputedStyle(it).color === getComputedStyle(document.querySelector('.is-bad') ?? bad()).color);"
    is_red = "const bad = () => { const it = document.body.appendChild(document.createElement('i')); it.className = 'bad is-bad'; return it; };" + colours
    for lines, words, red in ((LATE, "0:15 over 12:00", True), (LATE + on_time, "within 12:00 now", False)):
        book = seen.book(OFFICE + lines)
        with at_desk(seen, visitor, book) as person:
            person.open("exceedances")
            seen.expect("on record", person.sees("2 of 2 on record") and person.sees(words))
            seen.expect(f"by how much is red: {red}", person.js(is_red, "td:nth-child(3)"), [red, red])
            person.go("member/C1")
            seen.expect("the member's row", person.sees("▲ exceeded 117.13(a)" + ("" if red else ": within now")))
            seen.expect(f"it is red: {red}", person.js(is_red, ".duties tbody tr, .duties td span.num, .duties td:last-child span"), [red, red])
            person.go("pairing/B101")
            seen.expect("the pairing", person.sees("117.13(a) Flight duty period (Table B): Ada Ray (C1)"))
            seen.expect("it says so", person.text("main").count("On record; by the times now it is within."), 0 if red else 2)
            seen.expect(f"its notes are red: {red}", len(person.js("return [...document.querySelectorAll('.note.bad')].map(it => 1)")), 2 if red else 0)


def try_early(seen, visitor):
    """The board stands before the lists are read; when they come, nothing moves, and what somebody is at goes on."""
    book = seen.book(OFFICE + "assign B103 C2\n")
    places = "return [...document.querySelectorAll('nav a, .tools > *, .row, .duty, #lanes, h1, .legend span')].map(it => JSON.stringify(it.getBoundingClientRect()))"
    counts = "return ['openCount', 'exceededCount'].map(id => document.getElementById(id).textContent)"
    with at_desk(seen, visitor, book) as person:

        def hold(where):
            person.relay.held, person.relay.held_path = threading.Event(), b"/reports/pairings"
            visitor.get("about:blank")
            visitor.get(f"http://{LOOPBACK}:{person.port}/#/{where}")

        hold("board/2025-06-01/month")
        seen.expect("the duties of the month", person.wait(lambda: person.js("return document.querySelectorAll('.row .duty').length") == 4))
        seen.expect("what is open", person.js("return [...document.querySelectorAll('#lanes .duty')].map(it => it.dataset.open)"), ["B102", "B103"])
        seen.expect("no numbers yet", person.js(counts), ["…", "…"])
        person.fill("Filter members", "Roy")
        before = person.js(places)
        person.relay.held.set()
        person.calm()
        seen.expect("the numbers", person.js(counts), ["2", "0"])
        seen.expect("nothing has moved", person.js(places), before)
        person.type(" x")
        seen.expect("the filter goes on", person.js("return document.activeElement.value"), "Roy x")
        hold("board/2025-06-01/month+pairing/B101")
        seen.expect("the panel waits", person.sees("Reading…", "#panel"))
        person.found("return document.querySelector('#find')").send_keys("b102" + person.key.ENTER)
        seen.expect("so does what is found", person.sees("Reading the book…", "h1"))
        person.relay.held.set()
        seen.expect("it is there", person.sees("Pairing B102", "h1") and person.sees("Who may fly as captain?", "main"))
        person.calm()
        hold("")
        seen.expect("of a book of last year the month isn't known", [person.sees("Reading the book…", "main"), person.text("h1")], [True, ""])
        person.relay.held.set()
        seen.expect("until all is read", person.sees("June 2025", "h1"))
        person.calm()
        added = visitor.execute_cdp_cmd("Page.addScriptToEvaluateOnNewDocument", {"source": ON_25_JUNE})
        hold("")
        seen.expect("of a book of this month it is", person.sees("June 2025", "h1") and person.js(counts), ["…", "…"])
        visitor.execute_cdp_cmd("Page.removeScriptToEvaluateOnNewDocument", added)
        person.relay.held.set()
        person.calm()


def try_messages(seen, visitor):
    """One message of what was done, and one of what was refused, where nothing stands that is worked on; Esc and a button close them."""
    book = seen.book(OFFICE)
    covered = """
        const boxes = [...document.querySelectorAll('.told')].map(it => it.getBoundingClientRect()).filter(it => it.width);
        const meets = (a, b) => a.left < b.right && b.left < a.right && a.top < b.bottom && b.top < a.bottom;
        return [...document.querySelectorAll(arguments[0])].filter(it => boxes.some(box => meets(it.getBoundingClientRect(), box))).length;
    """
    with at_desk(seen, visitor, book) as person:
        person.open("board/2025-06-01/month+pairing/B103")
        person.press("Assign Bo Lind", "#panel")
        seen.expect("done", person.sees("Bo Lind (C2) flies B103.", "#told"))
        seen.expect("it covers nothing", person.js(covered, "nav a, .tools > *, main a, main button, main input, #panel *"), 0)
        for crew in ("C1", "C1"):
            person.drag("B102", crew)
            person.drop()
            seen.expect("refused", person.sees("Ada Ray (C1) was not assigned to B102:", "#told"))
            person.calm()
        seen.expect("one of each kind", person.wait(lambda: person.text("#told").count("B102:") == 1))
        seen.expect("it covers nothing of the lanes, nor of the panel", person.js(covered, "#lanes, #panel"), 0)
        person.type(person.key.ESCAPE)
        seen.expect("Esc closes them", [person.text("#told"), "Pairing B103" in person.text("#panel")], ["", True])
        person.press("Release Bo Lind", "#panel")
        person.press("Close the message", "#told")
        seen.expect("the button closes it", person.text("#told"), "")
        person.type(person.key.ESCAPE)
        seen.expect("Esc closes the panel then", person.wait(lambda: person.text("#panel") == ""))
        person.size(NARROW)
        person.drag("B102", "C1")
        person.drop()
        seen.expect("on a phone", person.sees("Ada Ray (C1) was not assigned to B102:", "#told"))
        seen.expect("it covers no lane, and no screen's name", person.js(covered, "#lanes, nav a"), 0)


def try_beside(seen, visitor):
    """With a panel open nothing of a member's screen lies over another part; on a phone the clock can be read, and a field is seen."""
    book = seen.book(OFFICE + LATE)
    apart = """
        const [roster, more] = [...document.querySelector('.two').children], right = Math.max(...[...roster.querySelectorAll('*')].map(it => it.getBoundingClientRect().right));
        return right <= more.getBoundingClientRect().left || roster.getBoundingClientRect().bottom <= more.getBoundingClientRect().top;
    """
    whole = """
        const clock = document.getElementById('clock'), alone = clock.parentNode.appendChild(clock.cloneNode());
        alone.append(new Option(clock.selectedOptions[0].text));
        alone.style = 'position: fixed; width: max-content; max-width: none';
        const wanted = alone.offsetWidth;
        alone.remove();
        return clock.offsetWidth >= wanted;
    """
    with at_desk(seen, visitor, book) as person:
        person.open("member/C1")
        for width in (1440, 1300, 1240, 1100):
            person.size((width, 900))
            for panel in ("", "+pairing/B101"):
                person.go(f"member/C1{panel}")
                seen.expect(f"{width} px {panel}", [person.sees("B101/1", "main"), person.js(apart)], [True, True])
        person.size(NARROW)
        person.go("members")
        for clock in ("HOME time", "UTC"):
            person.fill("Clock", clock, "header")
            seen.expect(f"all of {clock}", person.js(whole))
        last = "const all = [...document.querySelectorAll('main input, main select')].filter(it => it.checkVisibility()), it = all.at(-1);"
        person.js(last + "scrollTo(0, 0); it.focus();")
        seen.expect("the field above the screens' names", person.wait(lambda: person.js(last + "return it.getBoundingClientRect().bottom <= document.querySelector('nav').getBoundingClientRect().top")))


def try_paper(seen, visitor):
    """A roster and the exceedances are printed, without controls."""
    book = seen.book(OFFICE + "fly B101 1 10: 17:00 | 18:00-19:45, +1 03:30-+1 05:15 | +1 05:45\n")
    with at_desk(seen, visitor, book) as person:
        for where, words in (("member/C1", "117.13(a)"), ("exceedances", "from the roster book at"), ("board/2025-06-01/month", "Roster, June 2025, UTC")):
            person.open(where)
            visitor.execute_cdp_cmd("Emulation.setEmulatedMedia", {"media": "print"})
            seen.expect(f"{where} on paper", person.sees(words))
            seen.expect("no link to a list on it", "List" in person.text("#lanes"), False)
            seen.expect(f"no controls on it: {where}", person.js("return [...document.querySelectorAll('nav, .tools, select, main > .line button')].filter(it => it.checkVisibility()).length"), 0)
            visitor.execute_cdp_cmd("Emulation.setEmulatedMedia", {"media": ""})
        person.open("exceedances")
        person.fill("members", "C1")
        seen.expect("the filter of a list, on paper", printed(person), "Only member C1 Ada Ray. Printed")
        person.fill("sections", "117.13(a)")
        person.fill("months", "June")
        seen.expect("all filters", printed(person), "Only member C1 Ada Ray, section 117.13(a), June 2025. Printed")
        person.go("board/2025-06-01/month")
        seen.expect("no filter", printed(person), "Roster, June 2025, UTC")
        person.press("Captains", "main")
        person.fill("Filter members", "Roy")
        seen.expect("the filter of the board, on paper", printed(person), "Roster, June 2025, UTC. Only captains, “Roy”: 1 of 5 members")


def printed(person):
    """What the head of the print says, but for when."""
    person.visitor.execute_cdp_cmd("Emulation.setEmulatedMedia", {"media": "print"})
    text = person.text(".printonly")
    person.visitor.execute_cdp_cmd("Emulation.setEmulatedMedia", {"media": ""})
    return re.sub(r"(?<=Printed) .*", "", text)


IN_BROWSER = {
    "first_hour": try_first_hour, "first_month": try_first_month, "foretold": try_foretold, "corrected": try_corrected, "schedule": try_schedule,
    "by_hand": try_by_hand,
    "names": try_names, "phone": try_phone, "rests": try_rests, "drag": try_drag, "seats": try_seats, "requests": try_requests, "two_desks": try_two_desks, "changes": try_changes,
    "lost_answer": try_lost_answer, "numbers": try_numbers, "room": try_room, "markup": try_markup, "clocks": try_clocks, "zones": try_zones, "keys": try_keys, "screens": try_screens,
    "inspector": try_inspector, "within": try_within, "paper": try_paper, "early": try_early, "messages": try_messages, "beside": try_beside,
}  # fmt: skip


def main():
    names = sys.argv[1:] or [*ALONE, *IN_BROWSER]
    with tempfile.TemporaryDirectory(prefix="desk-") as room:
        seen = Seen(Path(room))
        for seen.name in (name for name in ALONE if name in names):
            ALONE[seen.name](seen)
        shown = [name for name in IN_BROWSER if name in names]
        if why := shown and lacks():
            print(f"tests/desk.py: skipped in a browser, since {why}")
        elif shown and not build():
            return 3
        elif shown:
            with browser() as visitor:
                for seen.name in shown:
                    begun = time.monotonic()
                    try:
                        IN_BROWSER[seen.name](seen, visitor)
                    except Exception as fault:
                        seen.expect("what ends it", f"{type(fault).__name__}: {fault}".splitlines()[0], None)
                    print(f"{seen.name}: {time.monotonic() - begun:.0f} seconds")
    print(f"{seen.passed} passed, {seen.failed} failed")
    return 1 if seen.failed else 0


if __name__ == "__main__":
    sys.exit(main())
