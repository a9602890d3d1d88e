#!/usr/bin/env python3
"""Asks a server on 127.0.0.1 in turn, each time by a connection of its own, and prints how many milliseconds a request takes.

    ask.py PORT COUNT STATUS PATH [BODY]

With BODY it is a POST, in which %d stands for the turn, from 1 on. Another status than this one ends it.
"""

import socket
import sys
import time


def request_of(path, body, turn):
    if body is None:
        return f"GET {path} HTTP/1.1\r\nHost: x\r\n\r\n".encode()
    content = body.replace("%d", str(turn)).encode()
    return f"POST {path} HTTP/1.1\r\nHost: x\r\nContent-Length: {len(content)}\r\n\r\n".encode() + content


def ask(port, given):
    with socket.create_connection(("127.0.0.1", port), timeout=60) as client:
        client.sendall(given)
        answer = b""
        while more := client.recv(65_536):
            answer += more
    return answer


def main(port, count, status, path, body=None):
    requests = [request_of(path, body, turn) for turn in range(1, int(count) + 1)]
    begin = time.perf_counter()
    for given in requests:
        answer = ask(int(port), given)
        if not answer.startswith(f"HTTP/1.1 {status} ".encode()):
            sys.exit(f"ask.py: {given[:200]} is answered {answer[:200]}")
    print(f"{(time.perf_counter() - begin) * 1000 / len(requests):.3f}")


main(*sys.argv[1:])
