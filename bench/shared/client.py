"""The client in C of servers that are timed, and what a server took for what it asked."""

import os
import subprocess
from typing import NamedTuple

from shared.registers import compare

CLIENT = os.path.join(os.path.dirname(os.path.dirname(os.path.abspath(__file__))), "client.c")


class Unanswered(RuntimeError):
    """A request had no reply: a connection lasts 30 seconds."""


class Answers(NamedTuple):
    """What a server took for a request, in us: of a processor, and by the client's clock. How long a processor had
    worked for it before, in ms. Then the status and the body of each reply."""

    processor: float
    wall: float
    before: float
    told: list


class Client:
    def __init__(self, folder):
        self.program = os.path.join(folder, "client")
        subprocess.run(["cc", "-O2", "-o", self.program, CLIENT], check=True, timeout=60)

    def ask(self, server, requests):
        """Asks a server, one connection after the other, which it waits for."""
        for _ in requests:
            server.opened()
        text = b"".join(b"%d\n%b" % (len(request), request) for request in requests)
        words = [self.program, str(server.port), str(server.process.pid)]
        done = subprocess.run(words, input=text, capture_output=True, timeout=400)
        if done.returncode != 0:
            raise Unanswered(f"no reply: status {done.returncode}: {done.stderr.decode().strip()}")
        times, _, rest = done.stdout.partition(b"\n")
        wall, before, after = map(int, times.split())
        replies = list(replies_in(rest))
        compare("replies", len(replies), len(requests))
        if not all(replies):
            raise Unanswered("no reply")
        told = [(reply[9:12], reply.partition(b"\r\n\r\n")[2]) for reply in replies]
        return Answers((after - before) / 1e3 / len(told), wall / 1e3 / len(told), before / 1e6, told)


def replies_in(text):
    """The replies, each of which stands behind a line with the count of its bytes."""
    at = 0
    while at < len(text):
        begin = text.index(b"\n", at) + 1
        at = begin + int(text[at : begin - 1])
        yield text[begin:at]
