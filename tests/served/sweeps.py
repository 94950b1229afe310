"""Requests with allocations refused in turn. A client gets the reply that it would get otherwise, or 503, or its
connection ends. After 503, or no reply, the tables are as before, and a register in memory shows what it showed. A
command of the next client is done, unless the store is shut. It may be shut only if a commit failed: the request wrote
to the register's file or its log, or memory ran out at one of its last allocations. If memory runs out before the
program listens, it ends with 29, or with 30 if the files of a register in memory cannot grow."""

import os
import tempfile
from concurrent.futures import ThreadPoolExecutor
from typing import NamedTuple

from models.rows import rows_in
from product.disk import counting, met_at
from product.documents import document
from product.refusals import NO_MEMORY
from product.register import FOLDER
from product.sweeps import AT_ONCE
from served.server import NotListening, Server, compare, reply_of, request_of
from served.swept import LOOK

# more than any of these requests takes, with the start of the program
MOST_ALLOCATIONS = 1 << 20
# how many are refused at the start, when a request is read and its route is found, and at the end, when a command is
# written and answered
AT_THE_START, AT_THE_END = 10, 12
# how often a run is tried if it does not meet its refusal
TRIES = 5
REFUSED, ENDED = reply_of(503, b"refused 29 NoMemory\n"), b""
OF_SHUT = reply_of(503, b"refused 30 StoreRefused\n")
# how the program ends if the files of a register in memory could not grow: to its database that is a fault of a disk
NO_ROOM = (1, b"", b"refused 30 StoreRefused\n")
# what the next client of a register in a file posts
NEXT = request_of("POST", "/commands", document("add-member", member="next"))


class Run(NamedTuple):
    """A run of a request: whether it met its refusal, and whether it wrote to the register's file or its log. Then what
    it left: its answer, the reply to the next client, and the rows at the end, if there is a file."""

    met: bool
    wrote: bool
    left: tuple


class Sweep:
    """The runs of a request, each on a copy of a register in a file, if the request has one. `environment` makes the
    environment of a run: from the number of the allocation that is refused, the file that marks the refusal, whether
    allocations are counted from the connection on, and the variables by which writes are counted."""

    def __init__(self, request, files, environment):
        self.request, self.files, self.environment = request, files, environment
        self.before = self.rows_before() if request.in_file else None

    def copy(self, folder):
        path = os.path.join(folder, "register.db")
        for end, content in self.files.items():
            with open(path + end, "wb") as file:
                file.write(content)
        return path

    def rows_before(self):
        with tempfile.TemporaryDirectory(dir=FOLDER) as folder:
            return rows_in(self.copy(folder))

    def run(self, refused):
        """Refuses the allocation of this number, or none if it is 0."""
        with tempfile.TemporaryDirectory(dir=FOLDER) as folder:
            mark, synced, counts = (os.path.join(folder, name) for name in ("met", "synced.db", "counts"))
            path = self.copy(folder) if self.request.in_file else None
            variables = counting(path, synced, counts) if path else {}
            how = {"env": self.environment(refused, mark, self.request.once_accepted, variables)}
            try:
                with Server(2, *(["--db", path] if path else []), **how) as server:
                    written = met_at(counts).writes if path else 0
                    reply, met = server.reply_or_end(self.request.given), os.path.exists(mark)
                    wrote = bool(path) and met_at(counts).writes > written
                    later = server.reply_or_end(NEXT if path else self.request.look)
            except NotListening as ended:
                reply, met, wrote, later = ended.answer, os.path.exists(mark), False, ENDED
            return Run(met, wrote, (reply, later, rows_in(path) if path else None))

    def run_that_meets(self, refused):
        """A run that has met its refusal by the time of the reply, or the last of a few tries. On a busy machine the
        program may come to one of the last allocations only after the reply."""
        for _ in range(TRIES):
            run = self.run(refused)
            if run.met:
                break
        return run

    def own(self):
        """What the request leaves with enough memory."""
        request, run = self.request, self.run(0)
        reply, later, _ = run.left
        found = run.met, reply.split(b" ")[1], reply.partition(b"\r\n\r\n")[2][: len(request.told)], later
        expected = False, b"%d" % request.status, request.told, request.next_reply(request.commits())
        compare("with ample memory", found, expected)
        return run.left

    def unchanged(self):
        """The reply to the next client and the rows at the end, if the request did nothing."""
        expected = self.request.next_reply(False)
        if not self.request.in_file:
            return expected, None
        with tempfile.TemporaryDirectory(dir=FOLDER) as folder:
            path = self.copy(folder)
            with Server(1, "--db", path) as server:
                compare("the next client", server.exchange(NEXT), expected)
            return expected, rows_in(path)

    def without_memory(self, unchanged):
        """What the request may leave if memory ran out: it did nothing, or the program ended before it listened."""
        yield from ((reply, *unchanged) for reply in (REFUSED, ENDED))
        if not self.request.once_accepted:
            yield NO_MEMORY, ENDED, self.before
            if not self.request.in_file:
                yield NO_ROOM, ENDED, self.before

    def shut(self):
        """What the request may leave if its commit failed: the store is shut, and the command is not in the tables. A
        client that only reads gets the same reply as before."""
        if self.request.commits() and (self.request.in_file or self.request.look != LOOK):
            yield REFUSED, OF_SHUT, self.before

    def fault_at(self, refused, last, own, unchanged):
        run = self.run_that_meets(refused)
        if not run.met:
            return f"allocation {refused} was not met"
        # a commit takes memory before it writes, and nothing outside shows that it has begun
        may_be_shut = run.wrote or refused > last - AT_THE_END or not self.request.in_file
        if run.left in (own, *self.without_memory(unchanged), *(self.shut() if may_be_shut else ())):
            return None
        reply, later, rows = run.left
        kept = "the rows before it" if rows == self.before else "other rows"
        return f"allocation {refused}, wrote {run.wrote}: {reply!r}, then {later!r}, and {kept}"

    def last(self):
        """The number of the last allocation that a run meets by the time of its reply."""
        met, more = 0, MOST_ALLOCATIONS
        while more - met > 1:
            middle = min((met + more) // 2, 4 * met + 64)
            met, more = (middle, more) if self.run(middle).met else (met, middle)
        return met


def numbers_up_to(last, between):
    """The numbers of the allocations that are refused: the first and last ones, and some between."""
    step = max(1, last // between)
    chosen = [*range(1, AT_THE_START + 1), *range(1, last, step), *range(last - AT_THE_END + 1, last + 1)]
    return sorted({number for number in chosen if 1 <= number <= last})


def sweep(request, files, environment):
    """How many refusals a request met. Raises an error for a wrong answer."""
    runs = Sweep(request, files, environment)
    own, unchanged, last = runs.own(), runs.unchanged(), runs.last()
    if not request.commits():
        compare("what changes nothing", own[1:], unchanged)
    numbers = numbers_up_to(last, request.between)
    with ThreadPoolExecutor(AT_ONCE) as pool:
        faults = [it for it in pool.map(lambda at: runs.fault_at(at, last, own, unchanged), numbers) if it]
    if faults or not numbers:
        raise AssertionError(f"{len(faults)} of {len(numbers)}, of {last}: {faults[:1]}")
    return len(numbers)
