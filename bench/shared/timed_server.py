"""A server whose requests are timed one by one, and which is ended when enough was asked of it."""

from served.server import Server
from shared.client import Client
from shared.registers import DAY, compare

# more than a bench asks for
MOST_CONNECTIONS = 100_000
LONGEST_START = 600


class TimedServer(Server):
    """A program that serves, in memory or by these words a file. It is killed at the end."""

    def __init__(self, vetd, *words):
        super().__init__(MOST_CONNECTIONS, *words, day=DAY, program=[vetd], seconds=LONGEST_START)

    def __exit__(self, kind, fault, trace):
        self.killed()


def asked(client: Client, server, requests):
    """The answers to requests, each of which must be taken."""
    answers = client.ask(server, requests)
    compare("refused", [body for status, body in answers.told if status != b"200"], [])
    return answers


def most_memory(server):
    """The most memory that a server has had until now, in MB."""
    return memory_of(server, "VmHWM")


def memory_of(server, name):
    """The figure of this name that the system reports about a server's memory, in MB."""
    with open(f"/proc/{server.process.pid}/status", encoding="utf-8") as status:
        (line,) = (line for line in status if line.startswith(f"{name}:"))
    return int(line.split()[1]) / 1024


def forget_most_memory(server):
    """Makes the system count the most memory of a server from now on."""
    with open(f"/proc/{server.process.pid}/clear_refs", "w", encoding="utf-8") as file:
        file.write("5")
