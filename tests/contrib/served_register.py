"""A register in memory that the program serves, to be asked by any number of clients until the tests end."""

import csv
import random

from models.tables import version_order
from product.documents import document
from served.server import Server, compare, request_of

MOST_CONNECTIONS = 1_000_000
FILES = {"audits": "audits.toml", "config": "config.toml", "imports": "imports.lock"}
PROJECT = "all"


class ServedRegister(Server):
    def __init__(self, program):
        super().__init__(MOST_CONNECTIONS, program=(program,), seconds=600)

    def __exit__(self, *_):
        self.killed()

    def url(self):
        return f"http://127.0.0.1:{self.port}"

    def ask(self, method, target, body=None):
        """The body of a reply with the status 200."""
        head, _, text = self.exchange(request_of(method, target, body)).partition(b"\r\n\r\n")
        compare(f"{method} {target}: {text!a}", head.split(b" ")[1:2], [b"200"])
        return text.decode()

    def give(self, command, **keys):
        return self.ask("POST", "/commands", document(command, **keys))

    def hold(self, files, table):
        """Holds what three files say, and a project of this table alone."""
        self.give("replace-files", **dict(zip(FILES, files)))
        self.ask("PUT", f"/projects/{PROJECT}", table.encode())

    def files(self):
        return [self.ask("GET", f"/files/{name}") for name in FILES.values()]

    def standing(self):
        rows = list(csv.reader(self.ask("GET", "/standing.csv").splitlines()))
        return {tuple(pair): word for *pair, word in rows[1:]}

    def class_of(self, pair):
        return self.ask("GET", f"/class/{'/'.join(pair)}").strip()


def in_order(versions):
    return sorted(versions, key=version_order)


def sampled(seed, things, count):
    return random.Random(seed).sample(things, min(count, len(things)))
