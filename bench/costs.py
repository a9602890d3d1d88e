#!/usr/bin/env python3
"""Measures what a request of HTTP costs one or two programs, in turn on this machine, and what memory open connections take.

    costs.py PORT PROGRAM [OTHER]

Each program serves an empty book of one member. It is asked for a path that names nothing, for a roster and for a command that is
refused, 5,000 times each over a connection of its own, one after the other, in seven rounds in which the programs take turns. The
medians are printed: requests a second, and microseconds of a processor for a request, as user and as system time (`/proc`), by which
programs can be compared on a machine that has other work. Then what memory a server holds beside 64 connections over which nothing has
come, and beside 64 requests of 1 MiB of which the last byte is missing: the most of it in the first second.
"""

import os
import select
import socket
import subprocess
import sys
import tempfile
import time
from contextlib import ExitStack, contextmanager
from pathlib import Path
from statistics import median

ROUNDS, COUNT, PLACES, LONGEST = 7, 5_000, 64, 1_048_576
TICKS = os.sysconf("SC_CLK_TCK")  # a second
MEMBER = b'{"number":1,"do":"add-crew","crew":"C1","seat":"captain","name":"Ada Ray"}'
REFUSED = b'{"number":2,"do":"cancel-pairing","pairing":"NOBODY"}'


def post(body, length=None):
    return b"POST /requests HTTP/1.1\r\nHost: x\r\nContent-Length: %d\r\n\r\n%b" % (length or len(body), body)


ASKED = {
    "a path that names nothing": b"GET /nothing HTTP/1.1\r\nHost: x\r\n\r\n",
    "a roster": b"GET /crew/C1 HTTP/1.1\r\nHost: x\r\n\r\n",
    "a refused command": post(REFUSED),
}


@contextmanager
def serving(program, port):
    """The id of the process of a server, of a new book."""
    with tempfile.TemporaryDirectory() as room:
        file = Path(room) / "book"
        subprocess.run([program, "init", file, "UTC0"], check=True, stdout=subprocess.DEVNULL)
        subprocess.run([program, "do", file], input=MEMBER, check=True, stdout=subprocess.DEVNULL)
        words = [program, "serve", file, str(port), "--connections", "1000000"]
        with subprocess.Popen(words, stdout=subprocess.PIPE, stderr=subprocess.DEVNULL) as process:
            try:
                if not process.stdout.readline():
                    sys.exit(f"costs.py: {program} did not start on port {port}")
                yield process.pid
            finally:
                process.kill()


def connected(port):
    return socket.create_connection(("127.0.0.1", port), timeout=60)


def ask(port, given):
    with connected(port) as client:
        client.sendall(given)
        while client.recv(65_536):
            pass


def processor_time(process):
    """The seconds that a process has run, in user and in system mode."""
    fields = Path(f"/proc/{process}/stat").read_text().rpartition(")")[2].split()
    return int(fields[11]) / TICKS, int(fields[12]) / TICKS


def memory(process):
    """The kilobytes that a process holds, and held at most."""
    lines = (line.split() for line in Path(f"/proc/{process}/status").read_text().splitlines())
    found = {words[0]: int(words[1]) for words in lines if words[0] in ("VmRSS:", "VmHWM:")}
    return found["VmRSS:"], found["VmHWM:"]


def round_of(program, port):
    """For each request: how many are answered a second, and what one takes of a processor."""
    costs = {}
    with serving(program, port) as process:
        for what, given in ASKED.items():
            ask(port, given)
            before, begin = processor_time(process), time.perf_counter()
            for _ in range(COUNT):
                ask(port, given)
            seconds, after = time.perf_counter() - begin, processor_time(process)
            costs[what] = [COUNT / seconds, *((late - early) * 1e6 / COUNT for early, late in zip(before, after))]
    return costs


def beside(program, port, given):
    """The memory of a server beside open connections that have sent this: the most that is seen in a second, and by the system."""
    with serving(program, port) as process, ExitStack() as clients:
        opened = [clients.enter_context(connected(port)) for _ in range(PLACES)]
        for client in opened:
            client.setblocking(False)
        left = {client: memoryview(given) for client in opened if given}
        until = time.monotonic() + 1
        held = 0
        while time.monotonic() < until:
            for client in select.select([], list(left), [], 0.05)[1]:
                left[client] = left[client][client.send(left[client]) :]
                if not left[client]:
                    del left[client]
            held = max(held, memory(process)[0])
        return held, memory(process)[1]


def main(port, *programs):
    rounds = {program: [] for program in programs}
    for _ in range(ROUNDS):
        for program in programs:
            rounds[program].append(round_of(program, int(port)))
    print("| a request | program | requests a second | microseconds, user | system | both |")
    print("|---|---|---|---|---|---|")
    for what in ASKED:
        for program, found in rounds.items():
            rate, user, system = (median(costs[what][column] for costs in found) for column in range(3))
            both = median(sum(costs[what][1:]) for costs in found)
            print(f"| {what} | {program} | {rate:,.0f} | {user:.1f} | {system:.1f} | {both:.1f} |")
    print("\n| kilobytes beside 64 connections | program | held | at most |\n|---|---|---|---|")
    for what, given in (("nothing came", b""), ("1 MiB came, without its last byte", post(b"x" * (LONGEST - 1), LONGEST))):
        for program in programs:
            print("| {} | {} | {:,} | {:,} |".format(what, program, *beside(program, int(port), given)))


if len(sys.argv) < 3:
    sys.exit(__doc__)
main(*sys.argv[1:])
