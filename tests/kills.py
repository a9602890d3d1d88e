#!/usr/bin/env python3
"""Kills `rosterbook serve` 500 times while clients ask it, and looks at what ten books have kept.

    tests/kills.py [SEED]

A client sends commands one after the other, each under its number. Each command adds a pairing of two periods, so it puts rows into
four tables. The server is killed by SIGKILL at a random moment after the last byte of a request, and started anew. A command whose
answer came before that is kept. One without an answer is kept whole or not at all, which is read from a copy of the files before the
program sees them again. Asked again under its number it is accepted, and done once. Some of the commands without an answer have to be
kept and some not. So every second moment is drawn up to twice the time that an answer takes, and the others near a moment that moves
until as many are answered as are lost: between these two lies what is kept without an answer. That is longer on a disk than in memory,
where every second book is. The seed is printed, and the numbers.
What differs is printed on standard error. The last line is 'N passed, M failed', and the exit status 1 where M isn't 0.
"""

import random
import shutil
import sqlite3
import sys
import tempfile
import time
from contextlib import closing
from dataclasses import dataclass, field
from pathlib import Path

from exchanges import ACCEPTED, refused, request_of, response
from office import Book, build
from refusing import folder
from server import receive, serving

BOOKS, KILLS = 10, 50  # of each book, so that none takes long to open
ANSWER = response(200, ACCEPTED)
TABLES = {"pairing": 1, "period": 2, "segment": 3}  # with the rows of a command
KEPT, LOST, ANSWERED = "kept without an answer", "lost", "answered"


def command(number):
    """A request under this number, with its pairing."""
    return request_of(f"{number} plan P{number} 10: 11:00 | 12:00-14:00, 15:00-17:00 | 20:00; 12: 16:00 | 17:00-18:00 | 18:30")


def other(number):
    """Another request under this number."""
    return request_of(f"{number} cancel P{number}")


@dataclass
class Moments:
    """The seconds after a request when a server is killed."""

    draw: random.Random
    usual: float = 0.005  # what an answer takes
    edge: float = 0.005  # before it most commands are lost, after it most are answered

    def drawn(self):
        return self.draw.uniform(0, 2 * self.usual) if self.draw.random() < 0.5 else self.edge * self.draw.uniform(0.8, 1.2)

    def learn(self, seen):
        self.edge *= {KEPT: 1, LOST: 1 / 0.93, ANSWERED: 0.93}[seen]


@dataclass
class Trial:
    """A book that is killed again and again, and what was seen of it."""

    book: Book
    moments: Moments
    number: int = 0  # of the last command
    kept: set = field(default_factory=set)  # the numbers of the commands that are known to be kept
    seen: list = field(default_factory=list)  # what became of each command within which the server was killed
    wrong: list = field(default_factory=list)

    def note(self, is_well, what):
        if not is_well:
            self.wrong.append(f"kill {len(self.seen)}: {what}")

    def live(self):
        """A server from its start to its kill: the last command again, a new one, and one within which it is killed."""
        with serving(self.book) as server:
            if self.number:
                # (whether it was kept or not, it is kept from here on)
                self.note(server.exchange(command(self.number)) == ANSWER, f"{self.number} again")
                self.kept.add(self.number)
                if self.number % 10 == 0:
                    used = response(409, refused(1, "NumberUsed"))
                    self.note(server.exchange(other(self.number)) == used, f"another under {self.number}")
            self.number += 1
            begin = time.monotonic()
            self.note(server.exchange(command(self.number)) == ANSWER, f"{self.number}")
            self.moments.usual += (time.monotonic() - begin - self.moments.usual) / 10
            self.kept.add(self.number)
            self.number += 1
            return self.is_answered_before_the_kill(server)

    def is_answered_before_the_kill(self, server):
        """Asks the next command, and kills the server at a moment after that."""
        delay = self.moments.drawn()
        with server.connect() as client:
            client.sendall(command(self.number))
            until = time.monotonic() + delay
            while time.monotonic() < until:
                pass
            server.kill()
            try:
                got = receive(client)
            except ConnectionError:
                got = b""
        self.note(got in (b"", ANSWER), f"{self.number} is answered {got}")
        return got == ANSWER

    def look(self, is_answered):
        """Looks at the rows that the kill left, in a copy."""
        copied = Path(tempfile.mkdtemp(dir=self.book.folder.parent))
        for file in self.book.folder.iterdir():
            if not file.name.endswith("-shm"):
                shutil.copyfile(file, copied / file.name)
        with closing(sqlite3.connect(copied / self.book.file.name)) as tables:
            requests = [number for (number,) in tables.execute("SELECT number FROM request ORDER BY number")]
            counts = {name: tables.execute(f"SELECT count(*) FROM {name}").fetchone()[0] for name in TABLES}
        shutil.rmtree(copied)
        is_kept = self.number in requests
        self.note(is_kept or not is_answered, f"{self.number} was answered, and isn't kept")
        self.note(set(requests) == self.kept | ({self.number} if is_kept else set()), f"the requests {requests[-3:]}")
        self.note(counts == {name: rows * len(requests) for name, rows in TABLES.items()}, f"the rows {counts}")
        self.seen.append(ANSWERED if is_answered else KEPT if is_kept else LOST)
        self.moments.learn(self.seen[-1])

    def failures(self):
        """How many of the kills, and of the looks at what is left in the end, found something wrong, which is printed."""
        failed = 0
        for step in [lambda: self.look(self.live())] * KILLS + [self.end]:
            before = len(self.wrong)
            step()
            failed += len(self.wrong) > before
        for what in self.wrong[:20]:
            print(f"tests/kills.py: {what}", file=sys.stderr)
        return failed

    def end(self):
        """What is left once the last command is asked again: each command once."""
        with serving(self.book, 1) as server:
            self.note(server.exchange(command(self.number)) == ANSWER, "the last one again")
            self.note(server.end() == server.served(), "the end")
        numbers = list(range(1, self.number + 1))
        self.note([row[:2] for row in self.book.requests()] == [(number, 0) for number in numbers], "the requests in the end")
        for name, rows in TABLES.items():
            column = "id" if name == "pairing" else "pairing"
            found = self.book.rows(f"SELECT {column}, count(*) FROM {name} GROUP BY {column}")
            self.note(sorted(found) == sorted((f"P{number}", rows) for number in numbers), f"the rows of {name} in the end")


def main(seed=None):
    seed = int(seed) if seed else random.SystemRandom().randrange(10**6)
    print(f"seed {seed}")
    if not build():
        return 3
    draw, seen, failed = random.Random(seed), [], 0
    moments = [Moments(draw), Moments(draw)]
    with folder("kills-") as memory, tempfile.TemporaryDirectory(prefix="kills-") as disk:
        for room in [memory, disk] * (BOOKS // 2):
            trial = Trial(Book.made(room), moments[room == disk])
            failed += trial.failures()
            seen += trial.seen
    for kind in (KEPT, LOST, ANSWERED):
        print(f"{seen.count(kind)} of the killed commands were {kind}")
        if kind not in seen:
            failed += 1
            print(f"tests/kills.py: none of {len(seen)} was {kind}", file=sys.stderr)
    print(f"{BOOKS * (KILLS + 1) + 3 - failed} passed, {failed} failed")
    return 1 if failed else 0


if __name__ == "__main__":
    sys.exit(main(*sys.argv[1:]))
