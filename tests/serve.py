#!/usr/bin/env python3
"""Starts `rosterbook serve` on 127.0.0.1, speaks to it as clients do, and compares what it writes with what was worked out.

    tests/serve.py [NAME..]

What is asked and answered stands in tests/exchanges.py. Clients are raw sockets (tests/server.py), Python's `http.client`, and
`curl` where it is on the PATH. Each server is started for this many connections. It has to end after the last of them with status
0, with its one line on standard output, and with a line on standard error for each connection that failed. What differs is printed
on standard error. The line before the last one says how many requests were cut. The last line is 'N passed, M failed', and the exit
status 1 where M isn't 0.
"""

import errno
import http.client
import os
import resource
import select
import shlex
import shutil
import signal
import socket
import sqlite3
import subprocess
import sys
import tempfile
import time
from concurrent.futures import Future, ThreadPoolExecutor
from contextlib import ExitStack, closing
from dataclasses import dataclass, field
from pathlib import Path
from statistics import median

from exchanges import (
    ACCEPTED, ANSWERS, CANCEL, CONTINUE, CUT, DESK, HEADER, HIRE, HIRED, HOUR, JUNE, LONGEST, NO_CREW, NO_GROUND, NO_PAIRING,
    NONE_EXCEEDED, NONE_EXCEEDED_JSON, ONE_PAIRING, OTHER_METHODS, STORE, WITH_A_BODY_LEFT, answer_of, body_of, error, exchanges,
    get, hour, parts, post, refused, request_of, response, wire,
)  # fmt: skip
from office import PROGRAM, TOP, Book, Ran, build, order, schedule, told
from refusing import folder
from server import LOOPBACK, OTHER_ADDRESS, free_port, receive, reset, run, serving

FAILED = "refused 92 Channel\n"  # what is printed of a connection


@dataclass
class Desk:
    """What was tried, on books in a folder."""

    room: Path
    empty: Book
    passed: int = 0
    failed: int = 0
    cuts: int = 0
    name: str = ""
    waits: dict[str, Future] = field(default_factory=dict)  # what is found meanwhile

    def expect(self, what, got, wanted):
        self.passed += got == wanted
        self.failed += got != wanted
        if got != wanted:
            print(f"tests/serve.py: {self.name}: {what}\n  wanted: {wanted}\n  got:    {got}", file=sys.stderr)

    def skip(self, why):
        print(f"tests/serve.py: {self.name}: skipped, since {why}", file=sys.stderr)

    def book(self):
        return self.empty.copy()

    def expect_served(self, book, samples):
        """A server answers these requests, each as it stands beside it, and then ends."""
        with serving(book, len(samples)) as server:
            for given, wanted in samples:
                self.expect(given[:200], server.exchange(given), wanted)
            self.expect("the end", server.end(), server.served())


# ---- What is answered.


def try_exchanges(desk):
    """Whole exchanges, byte for byte. A client that sent less than it announced ends its side."""
    book = desk.book()
    rows = list(exchanges())
    with serving(book, len(rows)) as server:
        for text, sent, written in rows:
            desk.expect(text, server.exchange(sent, is_cut=text.endswith('"G1"')), written)
        desk.expect("the end", server.end(), server.served())
    desk.expect("what is kept", book.requests(), [])


def try_answers(desk):
    """What heads, paths, lengths and bodies come to on a book without crew."""
    book = desk.book()
    desk.expect_served(book, [(given, answer_of(short)) for given, short in ANSWERS])
    heads = [(get(path, "HEAD"), error(404, method="HEAD")) for path in ("/nothing", "/imports/0")]
    heads += [(wire("HEAD /exceedances HTTP/1.1|Host: evil.com||"), error(403, method="HEAD"))]
    methods = [(get(path, method), error(405, allow, method)) for path, method, allow in OTHER_METHODS]
    desk.expect_served(book, heads + methods)
    desk.expect("what is kept", book.requests(), [])


def try_hour(desk):
    """Each path over a book, each report also by HEAD; and the same hour by Python's own client, over another."""
    book, other = desk.book(), desk.book()
    desk.expect_served(book, list(hour()))
    with serving(other, len(HOUR)) as server:
        for asked, wanted in HOUR:
            desk.expect(f"http.client: {asked}", told_to_stock(server, asked), wanted[:2])
        desk.expect("the end", server.end(), server.served())
    desk.expect("the tables", other.tables(), book.tables())


def told_to_stock(server, asked):
    """The status and the text that Python's own client gets."""
    with closing(http.client.HTTPConnection(LOOPBACK, server.port, timeout=20)) as client:
        if isinstance(asked, tuple):
            client.request("POST", asked[0], asked[1].encode())
        elif asked.startswith("GET "):
            client.request(*asked.split(" "))
        else:
            number, _, line = asked.partition(" ")
            client.request("POST", "/requests", body_of(int(number), line).encode())
        answer = client.getresponse()
        return answer.status, answer.read().decode()


def try_pieces(desk):
    """A head of one byte a packet, and bodies in pieces, with pauses."""
    book = desk.book()
    plan = post("/imports/2", ONE_PAIRING)
    head = HIRE.index(b"\r\n\r\n") + 4
    with serving(book, 3) as server:
        for given, places, pause, wanted in (
            (get("/exceedances"), range(1, 100), 0.002, response(*NONE_EXCEEDED)),
            (HIRE, [*range(1, head), head, head + 8, head + 40], 0.005, response(200, ACCEPTED)),
            (plan, [10, 70, 71, 75, 120, len(plan) - 1], 0.05, response(200, parts(ACCEPTED))),
        ):
            desk.expect(given, told_in_pieces(server, given, places, pause), wanted)
        desk.expect("the end", server.end(), server.served())
    desk.expect("what is kept", [row[:2] for row in book.requests()], [(1, 0), (2, 1)])


def told_in_pieces(server, given, places, pause):
    """What a client gets that pauses at these places."""
    with server.connect() as client:
        for begin, end in zip([0, *places], [*places, len(given)]):
            if given[begin:end]:
                client.sendall(given[begin:end])
                time.sleep(pause)
        return receive(client)


def try_cuts(desk):
    """Requests that end after each of their bytes but the last: 400, and nothing is kept. Then each of them whole."""
    book = desk.book()
    before = book.tables()
    for given, _ in CUT:
        with serving(book, len(given)) as server:
            answers = [server.exchange(given[:length], is_cut=True) for length in range(len(given))]
            desk.expect("the end", server.end(), server.served())
        wrong = {length: got for length, got in enumerate(answers) if got != told_of_a_cut(given, length)}
        desk.cuts += len(answers)
        desk.expect(f"cuts of {given}", wrong, {})
        desk.expect(f"the tables after cuts of {given}", book.tables(), before)
    desk.expect_served(book, CUT)


def told_of_a_cut(given, length):
    """What a client gets that ends its side after this many bytes of a request."""
    if length == 0:
        return b""
    has_head = given.index(b"\r\n\r\n") + 4 <= length
    return (CONTINUE if has_head and b"Expect:" in given else b"") + error(400)


def try_one_exchange(desk):
    """Of two requests on a connection the second is neither done nor answered."""
    desk.expect_served(desk.book(), [
        (HIRE + request_of("2 hire C2 captain: Bo Lind"), response(200, ACCEPTED)),
        (get("/crew/C1") + b"x" * 300_000, response(200, HIRED)),
        (get("/crew/C1") + get("/exceedances"), response(200, HIRED)),
        (get("/crew/C2"), response(*NO_CREW)),
    ])  # fmt: skip


def try_expectation(desk):
    """A client that sends its body once it is asked to go on; nobody is asked so for a body that is too long."""
    body = body_of(1, "hire C1 captain: Ada Ray").encode()
    with serving(desk.book(), 2) as server:
        with server.connect() as client:
            client.sendall(post("/requests", body, "Expect: 100-Continue").removesuffix(body))
            desk.expect("what comes first", receive(client, len(CONTINUE)), CONTINUE)
            client.sendall(body)
            desk.expect("what comes then", receive(client), response(200, ACCEPTED))
        head = wire(f"POST /requests HTTP/1.1|Host: x|Expect: 100-continue|Content-Length: {LONGEST + 1}||")
        desk.expect("of a body that is too long", server.exchange(head), error(413))
        desk.expect("the end", server.end(), server.served())


def try_large_bodies(desk):
    """A body that isn't taken doesn't cost its client the answer; the longest bodies are taken whole."""
    book = desk.book()
    desk.expect_served(book, WITH_A_BODY_LEFT)
    filler = "x" * (LONGEST - len(CANCEL) - len(',"note":""'))
    longest = f'{CANCEL[:-1]},"note":"{filler}"}}'
    record = ONE_PAIRING.removeprefix(HEADER)
    torn = (HEADER + record * 12_000)[:LONGEST]
    desk.expect("the lengths of the longest", (len(longest), len(torn)), (LONGEST, LONGEST))
    desk.expect_served(book, [
        (post("/requests", longest), response(*NO_GROUND)),
        (post("/imports/5", torn), response(422, refused(30, "BadCsv", line=torn.count("\n") + 1))),
    ])  # fmt: skip
    desk.expect("what is kept", book.requests(), [])


def try_curl(desk):
    """By curl, which waits to be asked to go on with a body where it is asked to, and with a long one by itself."""
    if not shutil.which("curl"):
        desk.skip("no curl is on the PATH")
        return
    june, long = desk.room / "june.csv", desk.room / "long"
    june.write_text(JUNE)
    long.write_bytes(b"x" * (2 * LONGEST))
    roster = HIRED + "2025-06-10T17:00Z 2025-06-11T01:15Z pairing B101/1 plan fdp 7:45 flight 3:30\n"
    exchanged = [
        (response(200, ACCEPTED), "--data", body_of(1, "hire C1 captain: Ada Ray"), "/requests"),
        (CONTINUE + response(200, parts(*[ACCEPTED] * 3)), "--data-binary", f"@{june}", "--header", "Expect: 100-continue", "/imports/3"),
        (response(200, ACCEPTED), "--data", body_of(4, "assign B101 C1"), "/requests"),
        (response(200, roster), "/crew/C1"),
        (response(*NO_PAIRING), "/pairings/B999"),
        (response(*NONE_EXCEEDED, method="HEAD"), "--head", "/exceedances"),
        (response(*NONE_EXCEEDED), "--http1.0", "/exceedances"),
        (response(*NONE_EXCEEDED_JSON), "/json/exceedances"),
        (response(*NONE_EXCEEDED_JSON, method="HEAD"), "--head", "/json/exceedances"),
        (response(*DESK), "/"),
        (response(*DESK, method="HEAD"), "--head", "/"),
        (error(405, "GET, HEAD"), "--request", "DELETE", "/crew/C1"),
        (error(413), "--data-binary", f"@{long}", "/requests"),
        (error(501), "--data", "x", "--header", "Transfer-Encoding: chunked", "/requests"),
    ]
    with serving(desk.book(), len(exchanged)) as server:
        for wanted, *words, path in exchanged:
            desk.expect(" ".join([*words, path]), told_to_curl(server, words, path), wanted)
        desk.expect("the end", server.end(), server.served())


def told_to_curl(server, words, path):
    """What curl gets, with the heads of all responses."""
    options = ["--disable", "--noproxy", "*", "--max-time", "20", "--silent", "--show-error", "--include"]
    done = subprocess.run(["curl", *options, *words, f"http://{LOOPBACK}:{server.port}{path}"], capture_output=True)
    return done.stdout if done.returncode == 0 else f"curl ends with {done.returncode}: {done.stderr}".encode()


# ---- Clients that don't do as they should, and many of them.


def closes_at_once(client):
    client.close()


def closes_after_the_head(client):
    client.sendall(wire("POST /requests HTTP/1.1|Host: x|Content-Length: 47||"))
    client.close()


def closes_within_the_head(client):
    client.sendall(wire("POST /requests HTTP/1.1|Hos"))
    client.close()


def closes_within_the_body(client):
    client.sendall(wire(f"POST /requests HTTP/1.1|Host: x|Content-Length: 47||{CANCEL[:20]}"))
    client.close()


def closes_before_the_answer(client):
    client.sendall(get("/exceedances"))
    client.close()


def resets_at_once(client):
    reset(client)


def resets_within_the_head(client):
    client.sendall(wire("POST /requests HTTP/1.1|Hos"))
    reset(client)


def resets_within_the_body(client):
    client.sendall(wire(f"POST /requests HTTP/1.1|Host: x|Content-Length: 47||{CANCEL[:20]}"))
    reset(client)


def resets_before_the_answer(client):
    client.sendall(get("/exceedances"))
    reset(client)


# With the lines that they cost. The system may take an answer that nobody reads, so of some it isn't known.
MISBEHAVING = {
    closes_at_once: {""},
    closes_after_the_head: {"", FAILED},
    closes_within_the_head: {"", FAILED},
    closes_within_the_body: {"", FAILED},
    closes_before_the_answer: {"", FAILED},
    resets_at_once: {FAILED},
    resets_within_the_head: {FAILED},
    resets_within_the_body: {FAILED},
    resets_before_the_answer: {FAILED},
}


def try_misbehaving(desk):
    """The next client is served, and no table has changed. The server is held while a client misbehaves, which is gone when it goes on."""
    book = desk.book()
    before = book.tables()
    for misbehave, lines in MISBEHAVING.items():
        with serving(book, 2) as server:
            with server.held():
                misbehave(server.connect())
            desk.expect(f"after {misbehave.__name__}", server.exchange(get("/crew/C9")), response(*NO_CREW))
            ended = server.end()
            desk.expect(f"the end after {misbehave.__name__}", ended, server.served(ended.err if ended.err in lines else lines))
    desk.expect("the tables", book.tables(), before)


def try_lost_answer(desk):
    """A command whose client is gone before its answer is kept, and is answered so when it is asked again."""
    book = desk.book()
    with serving(book, 4) as server:
        with server.held():
            client = server.connect()
            client.sendall(HIRE)
            reset(client)
        desk.expect("what is there", server.exchange(get("/crew/C1")), response(200, HIRED))
        desk.expect("it again", server.exchange(HIRE), response(200, ACCEPTED))
        other = request_of("1 hire C2 captain: Bo Lind")
        desk.expect("another under its number", server.exchange(other), response(409, refused(1, "NumberUsed")))
        desk.expect("the end", server.end(), server.served(FAILED))
    desk.expect("what is kept", [row[:2] for row in book.requests()], [(1, 0)])


def try_many_at_once(desk):
    """Two hundred clients that all ask before one of them reads, three times as many as the server has places."""
    book = desk.book()
    with serving(book, 200) as server, ExitStack() as clients:
        asked = []
        for number in range(1, 201):
            asked.append(clients.enter_context(server.connect()))
            asked[-1].sendall(request_of(f"{number} hire C{number} captain: Ada Ray"))
        wrong = [number for number, client in enumerate(asked, 1) if received(client) != response(200, ACCEPTED)]
        desk.expect("clients with another answer", wrong, [])
        clients.close()
        desk.expect("the end", server.end(), server.served())
    desk.expect("the members", book.rows("SELECT count(*) FROM crew"), [(200,)])


def received(client):
    """All that a client gets up to the end, or why it gets no more."""
    try:
        return receive(client)
    except OSError as fault:
        return repr(fault)


LIFE = (
    "20 assign B103 C1", "21 assign B103 F1", "22 assign B103 C2", "23 train G2 10: 09:00-10:00", "24 train G3 20: 12:00-20:00",
    "25 fly B103 1 12: 14:00 | 15:00-+1 04:30 | +1 05:00", "25 fly B103 1 12: 14:00 | 15:00-+1 04:30 | +1 05:00", "26 excuse G3",
    "27 cancel B102", "28 release B103 F1",
    "29 outside X2 C1 12: 11:00 | 12:00-13:00 | 13:30", "30 outside X2 C2 15: 11:00 | 12:00-13:00 | 13:30",
    "29 outside X2 C1 12: 11:00 | 12:00-13:00 | 13:30", "31 outside X1 C2 15: 11:00 | 12:00-13:00, 13:30-14:00 | 14:00",
)  # fmt: skip


def life():
    """A life of commands: those of examples/, and more. Each as HTTP has it, and as `do` or `import` is asked it of a book."""
    for body in (TOP / "examples" / "requests.jsonl").read_text().splitlines():
        yield post("/requests", body), lambda book, body=body: book.send(body).out.strip()
    yield post("/imports/19", JUNE), lambda book: parts(*[ACCEPTED] * book.import_schedule(19, JUNE).out.count(" accepted\n"))
    for asked in LIFE:
        number, _, line = asked.partition(" ")
        yield request_of(asked), lambda book, number=number, line=line: book.do(int(number), order(line)).out.strip()


def try_life(desk):
    """200 connections of which every fifth misbehaves, and then a life of commands: the tables are those that `do` leaves."""
    book, other = desk.book(), desk.book()
    commands = list(life())
    with serving(book, 200 + len(commands)) as server:
        desk.expect("turns with another answer", [turn for turn in range(200) if not takes_turn(server, turn)], [])
        for given, ask in commands:
            text = ask(other)
            desk.expect(given[:200], server.exchange(given), response(200 if '"accepted"' in text else 409, text))
        ended = server.end()
        lines = ended.err.count("\n")
        desk.expect("the end", ended, server.served(FAILED * lines))
        desk.expect("a number of failed connections", 12 <= lines <= 40, True)
    desk.expect("the tables", book.tables(), other.tables())
    desk.expect("how many are kept", len(book.requests()), 17 + 3 + 9)


def takes_turn(server, turn):
    """Whether the client of this turn is answered as it should be; every fifth misbehaves."""
    if turn % 5 == 4:
        list(MISBEHAVING)[turn // 5 % len(MISBEHAVING)](server.connect())
        return True
    given, short = ANSWERS[turn % len(ANSWERS)]
    return server.exchange(given) == answer_of(short)


# ---- Clients that take their time.


SOON = 0.05  # seconds within which a request is answered, however many clients take their time beside it
# The first bytes of a browser that tries TLS.
CLIENT_HELLO = bytes.fromhex("16030100c8010000c40303") + bytes(range(32, 64)) + b"\0\0\x02\x13\x01\x01\0\0\x99" + b"x" * 153


def times_beside(server, count, given=get("/crew/C9"), wanted=response(*NO_CREW)):
    """The seconds that this many requests take, one after the other, or fewer where one gets another answer."""
    times = []
    for _ in range(count):
        begin = time.monotonic()
        if server.exchange(given, patience=5) != wanted:
            break
        times.append(time.monotonic() - begin)
    return times


def are_soon(times, count):
    """Whether this many requests were answered, half of them at once, and each before long. (The machine may have other work.)"""
    return len(times) == count > 0 and median(times) < SOON and max(times) < 2


def try_tls(desk):
    """Bytes that can't become a head are answered at once, though the client waits for more than that."""
    with serving(desk.book(), 2) as server:
        for given in (CLIENT_HELLO, b"SSH-2.0-OpenSSH_9.2\r\n"):
            begin = time.monotonic()
            desk.expect(given, told_and_open(server, given), error(400))
            desk.expect(f"{given}: at once", time.monotonic() - begin < 5, True)
        desk.expect("the end", server.end(), server.served())


def told_and_open(server, given):
    """What a client gets that sends no more than this, and waits."""
    try:
        with server.connect(patience=5) as client:
            client.sendall(given)
            return receive(client)
    except OSError as fault:
        return repr(fault)


def try_heads_alone(desk):
    """Who is refused by the head alone is answered before the body comes, and isn't asked to go on."""
    rows = [
        ("POST /nothing HTTP/1.1|Host: x|Content-Length: 47||", error(404)),
        ("POST /crew/C1 HTTP/1.1|Host: x|Content-Length: 47||", error(405, "GET, HEAD")),
        ("POST /requests HTTP/1.1|Host: x||", error(411)),
        (f"POST /requests HTTP/1.1|Host: x|Content-Length: {LONGEST + 1}||", error(413)),
        ("POST /requests HTTP/1.1|Host: x|Transfer-Encoding: chunked||", error(501)),
        ("POST /requests HTTP/1.1|Host: x|Origin: null|Content-Length: 47||", error(403)),
        ("POST /requests HTTP/1.1|Content-Length: 47||", error(400)),
    ]
    rows += [(head.replace("|Content-Length", "|Expect: 100-continue|Content-Length"), wanted) for head, wanted in rows]
    with serving(desk.book(), len(rows)) as server:
        for head, wanted in rows:
            desk.expect(head, told_and_open(server, wire(head)), wanted)
        desk.expect("the end", server.end(), server.served())


def try_farewell(desk):
    """A client that has its response and doesn't close holds up nobody."""
    with serving(desk.book()) as server, ExitStack() as clients:
        times = []
        for _ in range(9):
            client = clients.enter_context(server.connect())
            client.sendall(get("/exceedances"))
            desk.expect("an answer", received(client), response(*NONE_EXCEEDED))
            times += times_beside(server, 1)
        desk.expect(f"the next clients, after {times}", are_soon(times, 9), True)


def begin_waits(desk, pool):
    """Begins with clients that make a server wait, each kind beside requests to a server of its own, and all kinds at the same time."""
    large = desk.book()
    fill(large)
    for wait in WAITS:
        book = large.copy() if wait in (deaf, slow) else desk.book()
        desk.waits[wait.__name__] = pool.submit(lambda wait=wait, book=book: list(wait(book)))


def try_waits(desk):
    """What was found of them."""
    for name, found in desk.waits.items():
        if found.exception():
            desk.expect(f"{name}: what ends it", repr(found.exception()), None)
            continue
        for what, got, wanted in found.result():
            desk.expect(f"{name}: {what}", got, wanted)


def fill(book):
    """Writes 60,000 members into a book: a report of five megabytes. The system keeps three for a client that has little room."""
    with closing(sqlite3.connect(book.file)) as tables:
        members = [(f"C{number}", "x" * 60) for number in range(100_000, 160_000)]
        tables.executemany("INSERT INTO crew (id, seat, name) VALUES (?, 0, ?)", members)
        tables.execute("INSERT INTO crew_base (crew, base) SELECT id, 'HOME' FROM crew")
        tables.commit()


ALL_MEMBERS = "MEMBERS 60000\n" + "".join(f"C{number} captain HOME {'x' * 60}\n" for number in range(100_000, 160_000))
LITTLE_ROOM = 4_096  # bytes


def ended(client):
    """Waits until the server has ended a connection that it doesn't answer; whatever it writes instead."""
    try:
        return receive(client)
    except ConnectionError:
        return b""


def silent(book):
    """Fifty connections over which nothing comes: they hold up nobody, and end after thirty seconds, as connections that cost no line."""
    with serving(book, 70) as server, ExitStack() as clients:
        begin = time.monotonic()
        quiet = [clients.enter_context(server.connect(patience=60)) for _ in range(50)]
        times = times_beside(server, 20)
        yield f"requests beside them, after {times}", are_soon(times, 20), True
        if len(times) == 20:
            yield "what they get", [ended(client) for client in quiet], [b""] * 50
            yield "thirty seconds", 25 < time.monotonic() - begin < 45, True
            yield "the end", server.end(), server.served()


def unfinished(book):
    """Of N connections each one counts, however it ends: those that failed cost a line."""
    with serving(book, 10) as server, ExitStack() as clients:
        begin = time.monotonic()
        nothing, half, half_a_body, reset_one, closed = (server.connect(patience=60) for _ in range(5))
        for client in (nothing, half, half_a_body):
            clients.enter_context(client)
        half.sendall(HIRE[:20])
        half_a_body.sendall(HIRE[:-1])
        reset(reset_one)
        closed.close()
        times = times_beside(server, 5)
        yield f"requests beside them, after {times}", are_soon(times, 5), True
        if len(times) == 5:
            yield "what half a request gets", ended(half), b""
            yield "what half a body gets", ended(half_a_body), b""
            yield "what a silent one gets", ended(nothing), b""
            yield "thirty seconds", 25 < time.monotonic() - begin < 45, True
            yield "the end", server.end(), server.served(FAILED * 3)
    yield "what is kept", book.requests(), []


def drips(book):
    """Three clients of which a byte comes each 0.2 seconds: they have thirty seconds from the beginning, and not from each byte."""
    with serving(book) as server, ExitStack() as clients:
        begin = time.monotonic()
        open_ones = {clients.enter_context(server.connect(patience=5)) for _ in range(3)}
        ends, times = [], []
        for byte in get("/exceedances")[:-4] + b"\r\nA: " + b"a" * 200:
            for client in list(open_ones):
                if has_ended(client, bytes([byte])):
                    open_ones.remove(client)
                    ends.append(time.monotonic() - begin)
            if not open_ones:
                break
            times += times_beside(server, 1)
            select.select(open_ones, [], [], 0.2)
            if len(times) < 2 and time.monotonic() - begin > 10:
                break
        yield f"requests beside them, after {sorted(times)[-3:]}", are_soon(times, len(times)) and len(times) > 50, True
        yield "when they end", [25 < end < 40 for end in ends], [True] * 3
        yield "a request after them", server.exchange(get("/crew/C9"), patience=5), response(*NO_CREW)
        yield "the lines", server.error_lines(), FAILED * 3


def has_ended(client, more):
    """Whether a connection has ended; if not, these bytes are sent over it."""
    try:
        if select.select([client], [], [], 0)[0]:
            return True
        client.sendall(more)
    except OSError:
        return True
    return False


def deaf(book):
    """Three clients that read nothing of a large response: it is given up once nothing more of it has gone for thirty seconds."""
    with serving(book) as server, ExitStack() as clients:
        begin = time.monotonic()
        unread = [clients.enter_context(server.connect(patience=60, room=LITTLE_ROOM)) for _ in range(3)]
        for client in unread:
            client.sendall(get("/reports/members"))
        has_begun = select.select(unread, [], [], 0)[0]
        while len(has_begun) < 3 and time.monotonic() - begin < 40:
            time.sleep(0.01)  # (one command or report is answered after the other)
            has_begun = select.select(unread, [], [], 0)[0]
        times = times_beside(server, 20)
        yield f"requests beside them, after {times}", are_soon(times, 20), True
        if len(times) == 20:
            # (it may take more than once thirty seconds, since the system may take a little more whenever they are up)
            while server.error_lines() != FAILED * 3 and time.monotonic() - begin < 100:
                time.sleep(0.1)
            yield "the lines", server.error_lines(), FAILED * 3
            yield "thirty seconds", time.monotonic() - begin > 25, True
            yield "a request after them", server.exchange(get("/crew/C9"), patience=5), response(*NO_CREW)
            yield "how many got all of it", sum(len(ended(client)) >= len(ALL_MEMBERS) for client in unread), 0


def slow(book):
    """A client that reads so little of a large response that it isn't gone after thirty seconds gets all of it."""
    with serving(book, 1) as server, server.connect(room=LITTLE_ROOM, patience=40) as client:
        client.sendall(get("/reports/members"))
        got = receive(client, 10_000)
        begin = time.monotonic()
        while time.monotonic() - begin < 32:
            got += receive(client, 10_000)
            time.sleep(0.25)
        got += receive(client)
        yield "what it gets", got == response(200, ALL_MEMBERS), True
        yield "the end", server.end(), server.served()


def full(book):
    """Seventy connections over which nothing comes, more than the server has places: whoever comes next waits for about a second."""
    with serving(book, 76) as server, ExitStack() as clients:
        for _ in range(70):
            clients.enter_context(server.connect())
        begin = time.monotonic()
        yield "the next client", server.exchange(get("/crew/C9"), patience=5), response(*NO_CREW)
        yield "about a second", time.monotonic() - begin < 4, True
        times = times_beside(server, 5)
        yield f"those after it, after {times}", are_soon(times, 5), True
        clients.close()
        yield "the end", server.end(), server.served()


def refused_store(book):
    """Where the store fails, a server ends that has open connections over which nothing or half a request came."""
    with serving(book, **on_a_full_disk(book)) as server, server.connect(), server.connect() as client:
        client.sendall(HIRE[:20])
        answer, count = response(200, ACCEPTED), 0
        while answer == response(200, ACCEPTED) and count < 200:
            count += 1
            answer = server.exchange(request_of(f"{count} hire C{count} captain: Ada Ray"), patience=5)
        yield "the last answer", answer, response(503, STORE)
        yield "the end", server.end(), Ran(3, f"listening {server.port}\n", "refused 90 Store\n")


WAITS = (silent, unfinished, drips, deaf, slow, full, refused_store)


# ---- How a server begins and ends.


def try_refused_books(desk):
    """What a server is refused with before it listens. The book is opened first, also where the port is taken."""
    book = desk.book()
    refusals = {
        "missing": "40 NotABook", "empty": "40 NotABook", "other": "40 NotABook", "text": "90 Store", "newer": "42 Version",
        "damaged": "41 Damaged seat",
    }  # fmt: skip
    make_files(desk.room, book)
    with socket.socket() as taken:
        taken.bind((LOOPBACK, 0))
        taken.listen()
        port = taken.getsockname()[1]
        desk.expect("a port that is taken", run(book.file, port), Ran(3, "", "refused 93 Network\n"))
        for name, refusal in refusals.items():
            for where in (port, free_port()):
                desk.expect(f"{name} on {where}", run(desk.room / name, where), Ran(3, "", f"refused {refusal}\n"))
    desk.expect("that no file was made", (desk.room / "missing").exists(), False)
    with serving(book, 1) as server:
        desk.expect("a book that is served", run(book.file, free_port()), Ran(3, "", "refused 90 Store\n"))
        desk.expect("`do` on it", book.send(CANCEL), Ran(3, "", "refused 90 Store\n"))
        desk.expect("its client", server.exchange(get("/exceedances")), response(*NONE_EXCEEDED))
        desk.expect("the end", server.end(), server.served())
    desk.expect("`do` after it", told(book.send(CANCEL)), "15 NoSuchGround")


def make_files(room, book):
    """Files that hold no book that can be taken up."""
    (room / "empty").touch()
    (room / "text").write_text("".join(f"{line}\n" for line in range(1000)))
    for name in ("newer", "damaged"):
        shutil.copyfile(book.file, room / name)
    changes = {"other": "CREATE TABLE t (x)", "newer": "UPDATE book SET version = 7", "damaged": "DROP TABLE seat"}
    for name, change in changes.items():
        with closing(sqlite3.connect(room / name)) as tables:
            tables.execute(change)
            tables.commit()


def try_words(desk):
    """A port or a number of connections out of its range is no command line: status 2, and nothing is served."""
    file = desk.book().file
    for port, connections in (
        (0, 1), (65_536, 1), ("x", 1), ("", 1), (-1, 1), (8117, 0), (8117, 1_000_001), (8117, "x"), (8117, ""), (8117, -1),
    ):  # fmt: skip
        ran = run(file, port, connections)
        desk.expect(f"port {port}, connections {connections}", (ran.status, ran.out, ran.err[:7]), (2, "", "error: "))


def try_other_addresses(desk):
    """The port is one of 127.0.0.1: who asks at another address of the machine finds nobody there."""
    with serving(desk.book(), 1) as server:
        nobody = ConnectionRefusedError(errno.ECONNREFUSED, os.strerror(errno.ECONNREFUSED))
        desk.expect("at another address", server.exchange(HIRE, address=OTHER_ADDRESS), repr(nobody))
        desk.expect("at its own", server.exchange(HIRE), response(200, ACCEPTED))
        desk.expect("the end", server.end(), server.served())


def try_full_output(desk):
    """A server that can't print that it listens ends before it serves anybody."""
    with open("/dev/full", "w") as full:
        desk.expect("on a full disk", run(desk.book().file, free_port(), stdout=full), Ran(3, "", FAILED))


def try_full_errors(desk):
    """A line of a failed connection that can't be written doesn't end a server, but it ends with status 3 for it."""
    with open("/dev/full", "w") as full, serving(desk.book(), 2, stderr=full) as server:
        resets_within_the_head(server.connect())
        desk.expect("after", server.exchange(get("/crew/C9")), response(*NO_CREW))
        desk.expect("the end", server.end(), Ran(3, f"listening {server.port}\n", ""))


def try_no_more_files(desk):
    """A server that may open no more files takes no connection, says so of each, and ends after the last. It takes the first one if it
    waited for that before."""
    book = desk.book()
    with serving(book, 4) as server:
        count = server.open_files()
        if count is None:
            desk.skip("the system doesn't say which files a process has open")
            return
        resource.prlimit(server.process.pid, resource.RLIMIT_NOFILE, (count, count))
        taken = server.exchange(HIRE) == response(200, ACCEPTED)
        desk.expect("the end", server.end(), server.served("refused 93 Network\n" * (4 - taken)))
    desk.expect("what is kept", [row[:2] for row in book.requests()], [(1, 0)] * taken)


def try_kill(desk):
    """What was answered before a server is stopped by a signal is kept. One that isn't given a number goes on."""
    for stop in (signal.SIGTERM, signal.SIGKILL):
        book = desk.book()
        with serving(book) as server:
            desk.expect("the answer", server.exchange(HIRE), response(200, ACCEPTED))
            server.process.send_signal(stop)
            desk.expect("the end", server.end(), Ran(-stop, f"listening {server.port}\n", ""))
        # (the command itself would be accepted whether it was kept or lost)
        desk.expect("another under its number", told(book.do(1, order("hire C2 captain: Bo Lind"))), "1 NumberUsed")
        desk.expect("the members", book.rows("SELECT id FROM crew"), [("C1",)])
        desk.expect("what is kept", [row[:2] for row in book.requests()], [(1, 0)])


def on_a_full_disk(book):
    """Has a process write no file beyond the bytes that the book has now."""
    size = book.file.stat().st_size

    def limit():
        signal.signal(signal.SIGXFSZ, signal.SIG_IGN)
        resource.setrlimit(resource.RLIMIT_FSIZE, (size, size))

    return {"preexec_fn": limit}


def try_full_disk(desk):
    """The client of a command that the disk doesn't take is answered so, and the server ends. What was accepted is kept."""
    book = desk.book()
    count = 0
    with serving(book, 1_000, **on_a_full_disk(book)) as server:
        answer = response(200, ACCEPTED)
        while answer == response(200, ACCEPTED) and count < 200:
            count += 1
            answer = server.exchange(request_of(f"{count} hire C{count} captain: Ada Ray"))
        desk.expect("the last answer", answer, response(503, STORE))
        desk.expect("the end", server.end(), Ran(3, f"listening {server.port}\n", "refused 90 Store\n"))
    desk.expect("that the first was accepted", count > 1, True)
    for number in range(1, count):
        other = order(f"hire D{number} captain: Bo Lind")
        desk.expect(f"another under {number}", told(book.do(number, other)), "1 NumberUsed")
    # (nobody knows whether the last one was kept)
    desk.expect("the last one again", told(book.do(count, order(f"hire C{count} captain: Ada Ray"))), "accepted")
    members = sorted(f"C{number}" for number in range(1, count + 1))
    desk.expect("the members", book.rows("SELECT id FROM crew ORDER BY id"), [(crew,) for crew in members])
    desk.expect("what is kept", [row[:2] for row in book.requests()], [(number, 0) for number in range(1, count + 1)])


def try_full_disk_in_an_import(desk):
    """An import that the disk doesn't take whole is answered so in place of its parts, and is handed in again whole."""
    book = desk.book()
    plans = schedule([f"plan P{number} 10: 11:00 | 12:00-19:30 | 20:00" for number in range(1, 101)])
    with serving(book, 1_000, **on_a_full_disk(book)) as server:
        desk.expect("the answer", server.exchange(post("/imports/5", plans)), response(503, STORE))
        desk.expect("the end", server.end(), Ran(3, f"listening {server.port}\n", "refused 90 Store\n"))
    kept = [part for _, part, _, _ in book.requests()]
    desk.expect("the parts that are kept", kept, list(range(1, len(kept) + 1)))
    desk.expect("that some are, and not all", 0 < len(kept) < 100, True)
    desk.expect_served(book, [(post("/imports/5", plans), response(200, parts(*[ACCEPTED] * 100)))])


def try_memory(desk):
    """Of 10,000 requests that leave the book as it is, the last 9,000 leave the memory of the server as it is."""
    book = desk.book()
    desk.expect("a member", book.settle("hire C1 captain: Ada Ray"), "accepted")
    samples = [
        (get("/crew/C1"), response(200, HIRED)),
        (post("/requests", CANCEL), response(*NO_GROUND)),
        (request_of("1000 hire C1 captain: Ada Ray"), response(200, ACCEPTED)),
        (post("/imports/1", HEADER + "x"), response(422, refused(30, "BadCsv", line=2))),
        (get("/nothing"), error(404)),
    ]
    with serving(book, 10_000) as server:
        if server.memory() is None:
            desk.skip("the system doesn't say what memory a process holds")
            return
        early, wrong = ask_in_turn(server, samples, 1_000)
        late, more_wrong = ask_in_turn(server, samples, 8_999)
        desk.expect("wrong answers", wrong + more_wrong, 0)
        desk.expect("the last answer", server.exchange(get("/nothing")), error(404))
        desk.expect("the end", server.end(), server.served())
    desk.expect(f"kilobytes more than {early}: {late - early}, under 2,048", late - early < 2_048, True)


def ask_in_turn(server, samples, count):
    """The kilobytes that the server holds after this many requests, and how many got another answer."""
    wrong = 0
    for turn in range(count):
        given, wanted = samples[turn % len(samples)]
        wrong += server.exchange(given) != wanted
    return server.memory(), wrong


def try_log(desk):
    """20,000 commands of one server are kept, each over a connection of its own. Its log is copied into the file and begun anew, so
    that it stays short, and each socket is given back."""
    with folder("serve-log-") as room:
        serve_many(desk, Book.made(room), 20_000)


def serve_many(desk, book, count):
    """This many commands of one server, whose log and whose open files are looked at now and then."""
    log = book.file.with_name(f"{book.file.name}-wal")
    longest, most, wrong = 0, 0, 0
    with serving(book, count) as server:
        for number in range(1, count + 1):
            given = request_of(f"{number} hire C{number} captain: Ada Ray")
            wrong += server.exchange(given) != response(200, ACCEPTED)
            if number % 100 == 0 and number < count:
                longest = max(longest, log.stat().st_size)
                most = max(most, server.open_files() or 0)
        desk.expect("the end", server.end(), server.served())
    desk.expect("wrong answers", wrong, 0)
    desk.expect("the members and requests", book.rows("SELECT (SELECT count(*) FROM crew), count(*) FROM request"), [(count, count)])
    # (a commit puts three pages or more into the log, so 20,000 put more than 200 MB into one that only grows)
    desk.expect(f"a log of {longest} bytes at most, under 16 MiB", 0 < longest < 16 * 2**20, True)
    if most:
        desk.expect(f"{most} open files at most, under 16", most < 16, True)
    else:
        desk.skip("the system doesn't say which files a process has open")


# ---- What an office has beside it, in examples/.


def try_service(desk):
    """The words by which systemd starts the server, with a book and a port of ours."""
    unit = (TOP / "examples" / "rosterbook.service").read_text().splitlines()
    (words,) = [shlex.split(line.removeprefix("ExecStart=")) for line in unit if line.startswith("ExecStart=")]
    program, word, _, _, option, connections = words
    desk.expect("the words", (Path(program).name, word, option), ("rosterbook", "serve", "--connections"))
    with serving(desk.book(), connections) as server:
        desk.expect("an answer", server.exchange(get("/exceedances")), response(*NONE_EXCEEDED))


# Notes what it is asked, and has our server end, where there is one.
SYSTEMCTL = """\
#!/bin/sh
echo "$*" >>{asked}
if [ "$1" = stop ] && [ -n "{server}" ]; then
    kill {server}
    while grep -qs . /proc/{server}/cmdline; do sleep 0.1; done
fi
"""


def back_up(desk, book, *service, server="", on_path=True):
    """How examples/back_up.sh ends, the files that it leaves, what it asks of systemd, and what it prints on standard error."""
    folder = Path(tempfile.mkdtemp(dir=desk.room))
    commands, copies, asked = folder / "bin", folder / "copies", folder / "asked"
    commands.mkdir()
    copies.mkdir()
    asked.touch()
    path = os.environ["PATH"]
    if on_path:
        (commands / "rosterbook").symlink_to(PROGRAM)
    else:
        path = ":".join(it for it in path.split(":") if not (Path(it) / "rosterbook").exists())
    (commands / "systemctl").write_text(SYSTEMCTL.format(asked=asked, server=server))
    (commands / "systemctl").chmod(0o755)
    words = [TOP / "examples" / "back_up.sh", book.file, copies, *service]
    done = subprocess.run(words, env={**os.environ, "PATH": f"{commands}:{path}"}, capture_output=True)
    return done.returncode, sorted(copies.iterdir()), asked.read_text().splitlines(), done.stderr.decode()


def try_back_up(desk):
    """A copy is a whole book in one file, and none is made of a book that a server has, or that is damaged.

    Without the program on the PATH the script takes the one beside its folder.
    """
    if not shutil.which("sqlite3"):
        desk.skip("no sqlite3 is on the PATH")
        return
    book = desk.book()
    with serving(book, 2) as server:
        desk.expect("the answer", server.exchange(HIRE), response(200, ACCEPTED))
        status, files, _, errors = back_up(desk, book)
        desk.expect("while it is served", (status != 0, files, "as SERVICE" in errors), (True, [], True))
        status, files, asked, _ = back_up(desk, book, "rosterbook.service", server=server.process.pid)
    desk.expect("of a service", (status, asked), (0, ["stop rosterbook.service", "start rosterbook.service"]))
    beside = back_up(desk, book, on_path=False)
    desk.expect("by the program beside the script", (beside[0], beside[3]), (0, ""))
    for name, made in (("of a service", files), ("of a book", back_up(desk, book)[1]), ("by the program beside", beside[1])):
        desk.expect(f"the files {name}", len(made), 1)
        copy = Book(Path(tempfile.mkdtemp(dir=desk.room)))
        shutil.copyfile(made[0], copy.file)
        desk.expect(f"a member in the copy {name}", told(copy.do(2, order("hire C1 captain: Ada Ray"))), "3 CrewExists")
        desk.expect(f"the tables of the copy {name}", copy.tables(), book.tables())
    with closing(sqlite3.connect(book.file)) as tables:
        tables.execute("DROP TABLE seat")
        tables.commit()
    status, files, asked, _ = back_up(desk, book, "rosterbook.service")
    desk.expect("of a damaged book", (status != 0, files, asked[-1]), (True, [], "start rosterbook.service"))


TRIED = (
    try_exchanges, try_answers, try_hour, try_pieces, try_cuts, try_one_exchange, try_expectation, try_large_bodies, try_curl,
    try_misbehaving, try_lost_answer, try_many_at_once, try_life, try_tls, try_heads_alone, try_farewell, try_refused_books, try_words,
    try_other_addresses, try_full_output, try_full_errors, try_no_more_files, try_kill, try_full_disk, try_full_disk_in_an_import,
    try_service, try_back_up, try_memory, try_log, try_waits,
)  # fmt: skip


def main(names):
    tried = {it.__name__.removeprefix("try_"): it for it in TRIED}
    for name in names:
        if name not in tried:
            sys.exit(f"tests/serve.py: there is no case {name}")
    if not build():
        return 3
    with tempfile.TemporaryDirectory(prefix="serve-") as room, ThreadPoolExecutor(len(WAITS)) as pool:
        desk = Desk(Path(room), Book.made(room))
        if not names or "waits" in names:
            begin_waits(desk, pool)
        for desk.name in names or tried:
            try:
                tried[desk.name](desk)
            except (OSError, RuntimeError, sqlite3.Error) as fault:
                desk.expect("what ends it", repr(fault), None)
    print(f"{desk.cuts} cuts of requests")
    print(f"{desk.passed} passed, {desk.failed} failed")
    return 1 if desk.failed else 0


if __name__ == "__main__":
    sys.exit(main(sys.argv[1:]))
