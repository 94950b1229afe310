"""A `vetd serve` that ends by itself after a number of connections that is given when it starts. Or it accepts as many
as there may be, and is killed."""

import contextlib
import itertools
import os
import random
import select
import socket
import sqlite3
import subprocess
import sys
import threading
from concurrent.futures import ThreadPoolExecutor

ROOT = os.path.dirname(os.path.dirname(os.path.dirname(os.path.abspath(__file__))))
PROGRAM = os.environ.get("VETD") or os.path.join(ROOT, "crates", "vetd", "out", "vetd")
FAULTS = (AssertionError, OSError, ValueError, LookupError, subprocess.SubprocessError, sqlite3.Error)
DAY = "2024-05-01"
MOST_CONNECTIONS = 1_000_000
PHRASES = {
    200: "OK",
    400: "Bad Request",
    404: "Not Found",
    405: "Method Not Allowed",
    409: "Conflict",
    413: "Content Too Large",
    501: "Not Implemented",
    503: "Service Unavailable",
}
# the status of each refusal that has another than 409, by its number
STATUSES = dict.fromkeys((1, 2, 3, 4, 5, 26, 27, 28), 400) | {18: 413, 29: 503, 30: 503}
TEXT, CSV, TOML = "text/plain; charset=utf-8", "text/csv; charset=utf-8", "application/toml"
# Ports that the system gives to no client, in blocks. A port that one script has probed is free for any other until its
# program listens, so each process probes in blocks of its own.
FIRST_PORT, BLOCK_SIZE, BLOCK_COUNT, MOST_BLOCKS = 10_000, 100, 220, 20


def claim(block):
    """Claims a block by a name that is free again when this process ends. Returns whether no other process has it."""
    name = socket.socket(socket.AF_UNIX)
    try:
        name.bind(f"\0vetd-tests-{block}")
    except OSError:
        name.close()
        return False
    CLAIMS.append(name)
    return True


def own_ports():
    """The ports of the blocks that this process claims when it needs them, and then the same ports again."""
    own = []
    for block in random.sample(range(BLOCK_COUNT), BLOCK_COUNT):
        if len(own) < MOST_BLOCKS * BLOCK_SIZE and claim(block):
            first = FIRST_PORT + block * BLOCK_SIZE
            own += range(first, first + BLOCK_SIZE)
            yield from own[-BLOCK_SIZE:]
    if not own:
        raise OSError("other processes have all ports of the tests")
    yield from itertools.cycle(own)


def begin_ports():
    """Gives this process, which another one may have forked, ports of its own."""
    global CLAIMS, PORTS, DRAWING
    CLAIMS, PORTS, DRAWING = [], own_ports(), threading.Lock()


begin_ports()
os.register_at_fork(after_in_child=begin_ports)


def compare(what, found, expected):
    if found != expected:
        raise AssertionError(f"{what}: {found!r}, not {expected!r}")


def status_of(line):
    """The status of the answer to a command."""
    word, *words = line.split(" ")
    return STATUSES.get(int(words[0]), 409) if word == "refused" else 200


def reply_of(status, body, kind=TEXT, allow=None):
    """All bytes of a reply."""
    allowed = f"Allow: {allow}\r\n" if allow else ""
    head = f"HTTP/1.1 {status} {PHRASES[status]}\r\nContent-Type: {kind}\r\nContent-Length: {len(body)}\r\n"
    return f"{head}{allowed}Connection: close\r\n\r\n".encode() + body


def head_of(*lines):
    """The bytes of a head. A byte that is no text stands in a line as Python escapes it."""
    return "".join(f"{line}\r\n" for line in lines).encode("utf-8", "surrogateescape") + b"\r\n"


def request_of(method, target, body=None, fields=()):
    """All bytes of a request; one without a body has no Content-Length."""
    length = [] if body is None else [f"Content-Length: {len(body)}"]
    return head_of(f"{method} {target} HTTP/1.1", "Host: a", *fields, *length) + (body or b"")


def free_port():
    """A port at which nobody listens, and which no other process draws."""
    while True:
        with DRAWING:
            port = next(PORTS)
        with socket.socket() as probe, contextlib.suppress(OSError):
            probe.bind(("127.0.0.1", port))
            return port


class NotListening(AssertionError):
    """What a program answered that served nobody: its status, its output and its errors."""

    def __init__(self, *answer):
        super().__init__(f"nobody was served: {answer}")
        self.answer = answer


class Server:
    """The program, from its first line to its end. What opens a connection says so by `opened`, which counts it.
    `program` is another one that takes the same words and prints the same lines."""

    def __init__(self, connections, *words, day=DAY, seconds=60, program=(PROGRAM,), **how):
        self.port, self.connections, self.used, self.faulted = free_port(), connections, 0, 0
        self.seconds = seconds
        given = ["serve", "--port", str(self.port), "--connections", str(connections), *words]
        given += ["--day", day] if day else []
        streams = {"stdin": subprocess.DEVNULL, "stdout": subprocess.PIPE, "stderr": subprocess.PIPE}
        self.process = subprocess.Popen([*program, *given], **streams, **how)

    def __enter__(self):
        ready, _, _ = select.select([self.process.stdout], [], [], self.seconds)
        line = self.process.stdout.readline() if ready else b""
        if line != f"listening on 127.0.0.1:{self.port}\n".encode():
            # an output that has ended is that of a program which ends by itself
            more, errors = self.killed() if line or not ready else self.process.communicate()
            raise NotListening(self.process.returncode, line + more, errors)
        return self

    def __exit__(self, kind, fault, trace):
        """All connections were used, and those that had no whole reply aren't counted at the end."""
        if fault:
            self.killed()
            return
        try:
            printed, errors = self.process.communicate(timeout=self.seconds)
        except subprocess.TimeoutExpired:
            self.killed()
            raise AssertionError(f"it did not end: {self.used} of {self.connections} connections") from None
        compare("connections", self.used, self.connections)
        served = f"served {self.used - self.faulted}\n".encode()
        compare("the end", (self.process.returncode, printed, errors), (0, served, b""))

    def killed(self):
        self.process.kill()
        return self.process.communicate()

    def opened(self, faulted=False):
        self.used += 1
        self.faulted += faulted
        return self.port

    def connect(self, faulted=False, seconds=60):
        """A connection. `faulted` says that no whole reply will be written to it."""
        return socket.create_connection(("127.0.0.1", self.opened(faulted)), timeout=seconds)

    def exchange(self, given, half_closed=False):
        """All bytes of the reply to these. A connection that is reset before its end is an error."""
        with self.connect(seconds=self.seconds) as client:
            client.sendall(given)
            if half_closed:
                client.shutdown(socket.SHUT_WR)
            return read_to_end(client)

    def reply_or_end(self, given):
        """All that a client gets until its connection ends, if need be by a reset."""
        with self.connect() as client:
            reply = reply_or_end(client, given)
        self.faulted += not reply
        return reply

    def told(self, method, target, status, body, kind=TEXT, given=None, fields=(), allow=None):
        """Sends a request, and compares each byte of the reply."""
        found = self.exchange(request_of(method, target, given, fields))
        compare(f"{method} {target} {fields} {given!r}"[:200], found, reply_of(status, body, kind, allow))

    def answers(self, line, method, target, given=None, fields=()):
        """Sends a command, and compares each byte of the reply: the line, with the status that belongs to it."""
        self.told(method, target, status_of(line), line.encode() + b"\n", given=given, fields=fields)

    def posted(self, text, line, fields=()):
        """Posts a command document, and compares each byte of the reply."""
        self.answers(line, "POST", "/commands", text, fields)


@contextlib.contextmanager
def until_killed(*words):
    """A server that is killed at the end, if not before."""
    server = Server(MOST_CONNECTIONS, *words)
    server.__enter__()
    try:
        yield server
    finally:
        server.killed()


def reply_or_end(client, given):
    """What a connection gets for these bytes until it ends, if need be by a reset."""
    chunks = []
    try:
        client.sendall(given)
        while chunk := client.recv(65_536):
            chunks.append(chunk)
    except (BrokenPipeError, ConnectionResetError):
        pass
    return b"".join(chunks)


def read_to_end(client):
    chunks = []
    while chunk := client.recv(65_536):
        chunks.append(chunk)
    return b"".join(chunks)


def run(named, workers=1):
    """Runs tests, as many at a time as there are workers, and prints which failed: all tests, or those whose names have
    one of the words of the command line. Returns the status of the script."""
    words = sys.argv[1:]
    chosen = [(name, test) for name, test in named if not words or any(word in name for word in words)]
    with ThreadPoolExecutor(workers) as pool:
        faults = list(pool.map(fault_of, (test for _, test in chosen)))
    for (name, _), fault in zip(chosen, faults):
        if fault:
            print(f"FAILED {name}: {fault[:1000]}")
    failed = sum(fault is not None for fault in faults)
    print(f"{len(chosen) - failed} passed, {failed} failed")
    # if no test was chosen, nothing was shown
    return 1 if failed or not chosen else 0


def fault_of(test):
    try:
        test()
        return None
    except FAULTS as fault:
        return f"{type(fault).__name__} {fault}"


def lacking(*programs):
    """What is needed and isn't there."""
    folders = os.environ.get("PATH", "").split(os.pathsep)
    found = [name for name in programs if any(os.access(os.path.join(it, name), os.X_OK) for it in folders)]
    missing = [name for name in programs if name not in found]
    return missing if os.access(PROGRAM, os.X_OK) else [*missing, f"{PROGRAM}, built"]
