"""The program's server for the script serve.py beside this one, and its clients on raw sockets.

    with serving(book, 2) as server:            `rosterbook serve` for two connections, on a free port of 127.0.0.1
        server.exchange(get("/exceedances"))    what it writes to a client that sends these bytes
        server.exchange(get("/crew/C1"))        the same of the second
        server.end()                            how it ended after that
"""

import os
import select
import signal
import socket
import struct
import subprocess
import tempfile
import time
from contextlib import contextmanager
from dataclasses import dataclass, field

from office import PROGRAM, Ran

LOOPBACK = "127.0.0.1"
OTHER_ADDRESS = "127.0.0.2"  # of the same machine
PATIENCE = 20  # seconds that a client waits for a byte, and the script for the server


# ---- Clients.


def receive(client, count=None):
    """The next bytes, this many, or all up to the end."""
    got = b""
    while count is None or len(got) < count:
        more = client.recv(65_536 if count is None else count - len(got))
        if not more:
            break
        got += more
    return got


def reset(client):
    """Closes a connection by a reset, with no farewell."""
    client.setsockopt(socket.SOL_SOCKET, socket.SO_LINGER, struct.pack("ii", 1, 0))
    client.close()


# ---- The server.


def free_port():
    """A port that nobody listens on, below those that the system hands to clients."""
    for port in range(20_000 + time.time_ns() % 10_000, 32_000):
        with socket.socket() as trial:
            try:
                trial.bind((LOOPBACK, port))
            except OSError:
                continue
            return port
    raise RuntimeError("no port is free")


@dataclass
class Server:
    """The program as it serves, and what it has written."""

    process: subprocess.Popen
    port: int
    errors: object  # the file of its standard error
    out: bytes = field(default=b"")

    def listens(self):
        """Waits for the first line of its standard output, and answers whether there is one."""
        until = time.monotonic() + PATIENCE
        while not self.out.endswith(b"\n"):
            ready, _, _ = select.select([self.process.stdout], [], [], max(0, until - time.monotonic()))
            more = self.process.stdout.read1(100) if ready else b""
            if not more:
                return False
            self.out += more
        return True

    def connect(self, patience=PATIENCE, address=LOOPBACK, room=None):
        """A client, for which the system keeps about this many bytes that it hasn't read."""
        client = socket.socket()
        client.settimeout(patience)
        client.setsockopt(socket.IPPROTO_TCP, socket.TCP_NODELAY, 1)
        if room is not None:
            client.setsockopt(socket.SOL_SOCKET, socket.SO_RCVBUF, room)
        try:
            client.connect((address, self.port))
        except OSError:
            client.close()
            raise
        return client

    def exchange(self, given, is_cut=False, address=LOOPBACK, patience=PATIENCE):
        """All that it writes to a client that sends these bytes, and then ends its side if they are cut; or why that one got nothing."""
        try:
            with self.connect(patience, address) as client:
                client.sendall(given)
                if is_cut:
                    client.shutdown(socket.SHUT_WR)
                return receive(client)
        except OSError as fault:
            return repr(fault)

    @contextmanager
    def held(self):
        """It does nothing in the block: what clients do there has come when it goes on."""
        self.process.send_signal(signal.SIGSTOP)
        os.waitid(os.P_PID, self.process.pid, os.WSTOPPED | os.WEXITED | os.WNOWAIT)
        try:
            yield
        finally:
            self.process.send_signal(signal.SIGCONT)

    def error_lines(self):
        """What it has written to standard error."""
        self.errors.seek(0)
        return self.errors.read().decode(errors="replace")

    def memory(self):
        """The kilobytes of memory that it holds, or None where the system doesn't say."""
        try:
            with open(f"/proc/{self.process.pid}/status") as status:
                return next((int(line.split()[1]) for line in status if line.startswith("VmRSS:")), None)
        except OSError:
            return None

    def open_files(self):
        """How many files and sockets it has open, or None where the system doesn't say."""
        try:
            return len(os.listdir(f"/proc/{self.process.pid}/fd"))
        except OSError:
            return None

    def file_reads(self):
        """How often it has read files (what comes of a socket isn't among it), or None where the system doesn't say."""
        try:
            with open(f"/proc/{self.process.pid}/io") as counts:
                return next((int(line.split()[1]) for line in counts if line.startswith("syscr:")), None)
        except OSError:
            return None

    def end(self):
        """How it ended; one that goes on is killed, and has no status."""
        try:
            self.out += self.process.communicate(timeout=PATIENCE)[0]
        except subprocess.TimeoutExpired:
            self.kill()
            return Ran(None, self.out.decode(), self.error_lines())
        return Ran(self.process.returncode, self.out.decode(), self.error_lines())

    def kill(self):
        self.process.kill()
        self.out += self.process.communicate()[0]

    def served(self, errors=""):
        """How it ends after the last connection."""
        return Ran(0, f"listening {self.port}\n", errors)


def serve(file, port, connections=None, **options):
    """The program as it serves a book, with its standard output in a pipe."""
    words = [PROGRAM, "serve", file, str(port)]
    if connections is not None:
        words += ["--connections", str(connections)]
    return subprocess.Popen(words, stdin=subprocess.DEVNULL, **{"stdout": subprocess.PIPE, **options})


def run(file, port, connections=1, **options):
    """How a server ends that nobody asks; one that goes on is killed, and has no status."""
    process = serve(file, port, connections, stderr=subprocess.PIPE, **options)
    try:
        out, err = process.communicate(timeout=PATIENCE)
        status = process.returncode
    except subprocess.TimeoutExpired:
        process.kill()
        out, err = process.communicate()
        status = None
    return Ran(status, (out or b"").decode(), err.decode())


@contextmanager
def serving(book, connections=None, **options):
    """A server of a book that listens; it doesn't outlive the block."""
    with started(book, connections, **options) as server:
        if not server.listens():
            raise RuntimeError(f"no server listens: {server.end()}")
        yield server


@contextmanager
def started(book, connections=None, **options):
    """A server of a book, which may come to listen; it doesn't outlive the block."""
    with tempfile.TemporaryFile() as errors:
        port = free_port()
        process = serve(book.file, port, connections, **{"stderr": errors, **options})
        server = Server(process, port, errors)
        try:
            yield server
        finally:
            if process.poll() is None:
                server.kill()
            process.stdout.close()
