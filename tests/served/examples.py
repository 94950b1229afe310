"""The examples of `run_register` over HTTP."""

import itertools
import os
import tempfile

from product.register import FOLDER, Register
from served.server import CSV, DAY, PROGRAM, TEXT, Server

# where each report is, and of what type
REPORTS = {
    "counts": ("/counts", TEXT),
    "standing": ("/standing", TEXT),
    "standing-csv": ("/standing.csv", CSV),
    "moves": ("/moves", TEXT),
    "desk": ("/desk", TEXT),
    "lapses": ("/lapses", TEXT),
}


def with_days(lines):
    """The lines of an example, each behind its day. A report has the day of the document before it."""
    last = DAY
    for given, expected, *how in lines:
        if isinstance(given, bytes):
            last = how[0] if how else DAY
        yield last, (given, expected, *how)


def asked(server, given, expected, _day=None, member=None):
    """Posts a document, or asks for a report."""
    if isinstance(given, bytes):
        server.posted(given, expected, [] if member is None else [f"Vet-Member: {member}"])
    else:
        target, kind = REPORTS[given]
        server.told("GET", target, 200, expected.encode(), kind)


def example(limit, lines):
    """A run of the server has one day, so a register in a file goes on in the next one where the day is another."""
    with tempfile.TemporaryDirectory(dir=FOLDER) as folder:
        path = os.path.join(folder, "register.db")
        Register(PROGRAM, path).make(limit)
        for day, of_day in itertools.groupby(with_days(lines), key=lambda it: it[0]):
            given = [line for _, line in of_day]
            with Server(len(given), "--db", path, day=day) as server:
                for line in given:
                    asked(server, *line)
