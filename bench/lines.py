#!/usr/bin/env python3
"""Asks a server on 127.0.0.1 the requests of a file, a line each, each by a connection of its own, and prints what they are answered.

    lines.py PORT LINES

Standard error gets the milliseconds that one took.
"""

import socket
import sys
import time
from pathlib import Path

from rows import reported


def ask(port, given):
    with socket.create_connection(("127.0.0.1", port), timeout=60) as client:
        client.sendall(given)
        answer = b""
        while more := client.recv(65_536):
            answer += more
    return answer


def main(port, lines):
    bodies = Path(lines).read_bytes().splitlines()
    requests = [b"POST /requests HTTP/1.1\r\nHost: x\r\nContent-Length: %d\r\n\r\n%s" % (len(body), body) for body in bodies]
    started = time.perf_counter()
    answers = [ask(int(port), given) for given in requests]
    reported(started, len(answers))
    sys.stdout.buffer.write(b"".join(it.partition(b"\r\n\r\n")[2] + b"\n" for it in answers))


main(*sys.argv[1:])
