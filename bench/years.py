#!/usr/bin/env python3
"""Fills books of several years, and times commands and reports on them; bench/years.sh says how.

    years.py fill FOLDER MEMBERS YEARS COUNT    fills the empty book.db of a folder, and writes the commands for it into its folder `lines`
    years.py time ROOM 'YEARS..' PROGRAM..      times them, by the folders of this room that are named by their years
"""

import shutil
import socket
import subprocess
import sys
import tempfile
import time
from contextlib import ExitStack, contextmanager
from multiprocessing import Pipe, Process
from pathlib import Path
from statistics import median

import airline
import plain

PAIRS = airline.PAIRS  # of the airline whose numbers of pairings airline.py has
LOOKS, LISTS = 10, 3  # how often a report of a member is asked, and a list
OPENING, MEMORY, PAIRINGS, OPEN = "opening the book", "memory then, MB", "`GET /reports/pairings`", "`GET /reports/open`"
ROSTER, LIMITS, WITH = "`GET /crew/ID`", "`GET /reports/limits/ID`", "`GET /reports/limits/ID/PAIRING`"
KINDS = ("assign", "assign, refused with 12", "actual", "assign, sent again", "assign, refused with 6", "release", "add-pairing")
ROWS = (OPENING, MEMORY, *KINDS, ROSTER, LIMITS, WITH, PAIRINGS, OPEN)


def fill(folder, members, years, count):
    pairs = int(members) // 2
    airline.PAIRS = pairs
    airline.FLOWN, airline.OPEN, airline.TAKEN_AGAIN = (it * pairs // PAIRS for it in (airline.FLOWN, airline.OPEN, airline.TAKEN_AGAIN))
    airline.fill(Path(folder) / "book.db", 1, years)
    lines = Path(folder) / "lines"
    lines.mkdir()
    airline.ask(lines, 1, count)


# ---- Who is asked. Each answers with a text and the milliseconds of a processor that it took.


class Server:
    """A program that serves a book."""

    def __init__(self, program, file):
        with socket.create_server(("127.0.0.1", 0)) as free:
            self.port = free.getsockname()[1]
        words = [program, "serve", file, str(self.port), "--connections", "1000000"]
        self.process = subprocess.Popen(words, stdout=subprocess.PIPE, text=True)
        if not self.process.stdout.readline().startswith("listening"):
            sys.exit(f"years.py: {program} did not start")
        self.opening = self.ran()

    def ran(self):
        """The milliseconds that it has run on a processor."""
        return int(Path(f"/proc/{self.process.pid}/schedstat").read_text().split()[0]) / 1e6

    def memory(self):
        """The most that it has held, in megabytes."""
        lines = Path(f"/proc/{self.process.pid}/status").read_text().splitlines()
        return int(next(line for line in lines if line.startswith("VmHWM:")).split()[1]) / 1e3

    def exchange(self, given):
        before, answer = self.ran(), b""
        with socket.create_connection(("127.0.0.1", self.port), timeout=600) as client:
            client.sendall(given)
            while more := client.recv(65_536):
                answer += more
        time.sleep(0.001)  # so that it waits again
        return answer.partition(b"\r\n\r\n")[2].decode().strip(), self.ran() - before

    def command(self, line):
        body = line.encode()
        return self.exchange(b"POST /requests HTTP/1.1\r\nHost: x\r\nContent-Length: %d\r\n\r\n%s" % (len(body), body))

    def report(self, path):
        return self.exchange(f"GET {path} HTTP/1.1\r\nHost: x\r\n\r\n".encode())

    def end(self):
        self.process.kill()
        self.process.wait()


class Plain:
    """The roster book in plain Python, in a process of its own. It has no reports."""

    def __init__(self, file):
        self.asked, asking = Pipe()
        self.process = Process(target=self.answer, args=(file, asking), daemon=True)
        self.process.start()
        self.opening = self.asked.recv()

    @staticmethod
    def answer(file, asking):
        begin = time.process_time()
        book = plain.Book(file)
        asking.send((time.process_time() - begin) * 1e3)
        while True:
            line, begin = asking.recv(), time.process_time()
            answer = book.answer(line)
            asking.send((answer, (time.process_time() - begin) * 1e3))

    def memory(self):
        return None

    def command(self, line):
        self.asked.send(line)
        return self.asked.recv()

    def report(self, path):
        return None

    def end(self):
        self.process.terminate()
        self.process.join()


@contextmanager
def asked_side_by_side(book, programs):
    """Each program over a copy of the book, and plain Python."""
    with tempfile.TemporaryDirectory(dir=book.parent) as room, ExitStack() as stack:
        found = []
        for at, program in enumerate((*programs, None)):
            file = shutil.copy(book, Path(room) / f"{at}.db")
            found.append(Plain(file) if program is None else Server(program, file))
            stack.callback(found[-1].end)
        yield found


# ---- What is timed.


def times_of(clerks, asked):
    """The median that each takes of these questions, of which each is asked of all in turn; None for one that doesn't answer such."""
    times = [[] for _ in clerks]
    for ask in asked:
        told = [ask(clerk) for clerk in clerks]
        if len({it[0] for it in told if it}) != 1:
            sys.exit(f"years.py: the answers differ: {[it and it[0][:200] for it in told]}")
        for it, found in zip(told, times):
            found += [it[1]] if it else []
    return [median(found) if found else None for found in times]


def of_lines(lines):
    return [lambda clerk, line=line: clerk.command(line) for line in lines]


def of_paths(paths):
    return [lambda clerk, path=path: clerk.report(path) for path in paths]


def column(folder, programs):
    """The times for a book: by what is asked a list, of each program and of plain Python."""
    lines = {file.name.split(" ", 1)[1]: file.read_text().splitlines() for file in sorted((folder / "lines").iterdir(), key=place_of)}
    captains = sorted({word for line in lines["assign"] for word in line.split('"') if word[:1] == "C"})[:LOOKS]
    with asked_side_by_side(folder / "book.db", programs) as clerks:
        found = {OPENING: [it.opening for it in clerks], MEMORY: [it.memory() for it in clerks]}
        for kind, its in lines.items():
            found[kind] = times_of(clerks, of_lines(its))
        found[ROSTER] = times_of(clerks, of_paths(f"/crew/{it}" for it in captains))
        found[LIMITS] = times_of(clerks, of_paths(f"/reports/limits/{it}" for it in captains))
        found[WITH] = times_of(clerks, of_paths(f"/reports/limits/{it}/R0" for it in captains))
        found[PAIRINGS] = times_of(clerks, of_paths(["/reports/pairings"] * LISTS))
        found[OPEN] = times_of(clerks, of_paths(["/reports/open"] * LISTS))
    return found


def place_of(file):
    return int(file.name.split(" ")[0])


def told(milliseconds):
    if milliseconds is None:
        return ""
    return f"{milliseconds:,.0f}" if milliseconds >= 100 else f"{milliseconds:.1f}" if milliseconds >= 10 else f"{milliseconds:.2f}"


def growth(first, last):
    return "" if first is None or not first else f"{last / first:.1f}"


def time_all(room, years, *programs):
    years = years.split()
    columns = [column(Path(room) / of, programs) for of in years]
    heads = [*(programs if len(programs) > 1 else ["program"]), "plain Python"]
    titles = [title for head in heads for title in (f"{head}: years {years[0]}", *years[1:], "growth")]
    print(f"| Milliseconds of a processor | {' | '.join(titles)} |")
    print("|---" * (len(titles) + 1) + "|")
    for what in ROWS:
        cells = []
        for place in range(len(heads)):
            its = [of[what][place] for of in columns]
            cells += [*map(told, its), growth(its[0], its[-1])]
        print(f"| {what} | {' | '.join(cells)} |")


if __name__ == "__main__":
    {"fill": fill, "time": time_all}[sys.argv[1]](*sys.argv[2:])
