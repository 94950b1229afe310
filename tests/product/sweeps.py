"""Commands to a register in a file, each with its allocations refused in turn. A run gives its own answer and leaves
its own rows, or it answers that memory ran out and leaves the rows that were there before, in tables of either version
if those of the first were there."""

import contextlib
import itertools
import os
import tempfile
from concurrent.futures import ThreadPoolExecutor
from typing import NamedTuple

from models.versions import FIRST, SECOND, rows_of_either, to_first_version
from product.documents import Given, demand_of, document, entry
from product.refusals import NO_MEMORY
from product.register import DAY, FILES, FOLDER, REPORTS, Register

# more than any of these commands takes
MOST_ALLOCATIONS = 1 << 20
# how many are refused one by one at the front, where words, input and tables are read, and at the end, where a command
# is kept and told; and about how many between
AT_THE_START, AT_THE_END, BETWEEN = 150, 250, 250
# how many runs of a sweep are made at a time; the sweeps themselves are made side by side
AT_ONCE = 2


class Swept(NamedTuple):
    """A command: its words behind the path, its input, and how its answer begins."""

    name: str
    words: list
    given: bytes
    status: int
    told: bytes


def applied(name, given, told, *words):
    return Swept(f"apply_{name}", ["apply", "--day", DAY, *words], given, int(told.startswith(b"refused")), told)


PEER = '[criteria.c]\nimplies = "safe-to-run"\n[[audits.serde]]\ncriteria = "c"\nversion = "1.0.1"\n'
CONFIG = """[imports.p]
url = "u"
[policy.app]
notes = "N"
[[exemptions.log]]
version = "1.0.0"
criteria = "safe-to-run"
"""
IMPORTS = """[[publisher.log]]
version = "1.0.0"
when = "2024-01-01"
user-id = 5
[audits.p.criteria.c]
[[audits.p.audits.serde]]
criteria = "c"
version = "1.0.1"
"""
# documents by which the register that is swept was made
MADE = [
    demand_of("1.0.1"),
    document("set-peer", peer="p", url="u", criteria_map={"c": "safe-to-run"}),
    document("add-member", member="ann"),
    document("open-review", package="serde", version="1.0.1", criteria="safe-to-deploy"),
    document("assign-review", review=1, member="ann"),
    entry("exemption", version="1.0.1", criteria="safe-to-run"),
]
COMMANDS = [
    applied("an_entry", entry("full", version="1.0.1"), b"done 7 number 2 moves 2\n"),
    applied("a_project", demand_of("1.0.1", "1.0.2"), b"done 7 moves 2\n"),
    applied("a_peers_file", document("import-peer", peer="p", audits=PEER), b"done 7 moves 1\n"),
    applied("three_files", document("replace-files", audits="", config=CONFIG, imports=IMPORTS), b"done 7 moves "),
    applied(
        "a_finished_review",
        document("finish-review", review=1, version="1.0.1"),
        b"done 7 number 2 moves 2\n",
        "--member",
        "ann",
    ),
    applied("what_is_held", document("add-member", member="ann"), b"already\n"),
    applied("a_refused_command", document("drop-policy", policy="app"), b"refused 14 UnknownPolicy\n"),
    applied("a_refused_document", b"command = 5\n", b"refused 28 FieldRefused command command\n"),
    Swept("new_on_a_register", ["new"], b"", 1, b"refused 31 NotARegister\n"),
    *(Swept(f"report_{kind}", ["report", kind], b"", 0, b"") for kind in REPORTS),
    *(Swept(f"export_{kind}", ["export", kind], b"", 0, b"") for kind in FILES),
]
# one of each kind, which are also given to tables of the first version
OPENING = [it for it in COMMANDS if it.name in ("apply_an_entry", "report_counts", "export_config")]


def files_begun(program, documents, version=SECOND):
    """The files of a register that was given these documents, by the ends of their names, with tables of a version.
    Documents without a day come on the same one."""
    with tempfile.TemporaryDirectory(dir=FOLDER) as folder:
        register = Register(program, os.path.join(folder, "register.db")).make()
        for it in documents:
            given = it if isinstance(it, Given) else Given(DAY, it)
            status, _, errors = register.apply(given.document, given.day, given.member)
            if status != 0:
                raise AssertionError(f"{given}: {errors}")
        if version == FIRST:
            to_first_version(register.path)
        found = {}
        for name in sorted(os.listdir(folder)):
            with open(os.path.join(folder, name), "rb") as file:
                found[name.removeprefix("register.db")] = file.read()
        return found


class Sweep:
    """The runs of a command on copies of the register. `run` gives whether the program met its refusal, and what it
    answered, of words, an input, the number of the allocation, and a file that it makes where it is met."""

    def __init__(self, command, files, run):
        self.command, self.files, self.run = command, files, run

    @contextlib.contextmanager
    def copy(self):
        """The path of a copy of the register."""
        with tempfile.TemporaryDirectory(dir=FOLDER) as folder:
            path = os.path.join(folder, "register.db")
            for end, content in self.files.items():
                with open(path + end, "wb") as file:
                    file.write(content)
            yield path

    def answer(self, refused):
        """Whether a run met its refusal, what it answered, and the rows that are there then."""
        command = self.command
        with self.copy() as path:
            words = [command.words[0], "--db", path, *command.words[1:]]
            met, answer = self.run(words, command.given, refused, f"{path}-met")
            return met, answer, rows_of_either(path)

    def begun(self):
        """The rows before the command, and those that are there once a report has opened the register. They differ only
        if its tables are of the first version."""
        shown = self.command._replace(words=["report", "counts"], given=b"")
        with self.copy() as path:
            return [rows_of_either(path), Sweep(shown, self.files, self.run).answer(0)[2]]

    def last(self):
        """The number of the last allocation that is met."""
        met, more = 0, MOST_ALLOCATIONS
        while more - met > 1:
            middle = (met + more) // 2
            met, more = (middle, more) if self.answer(middle)[0] else (met, middle)
        return met

    def fault_at(self, refused, own, before):
        met, answer, rows = self.answer(refused)
        is_own, is_want = (answer, rows) == own, met and answer == NO_MEMORY and rows in before
        if not met:
            return f"allocation {refused} was not met"
        kept = "the rows before it" if rows in before else "other rows"
        return None if is_own or is_want else f"allocation {refused}: {answer}, {kept}"


def numbers_up_to(last):
    """The allocations that are refused: the first and the last ones, and some between."""
    step = max(1, last // BETWEEN)
    chosen = itertools.chain(range(1, AT_THE_START), range(1, last, step), range(last - AT_THE_END, last + 1))
    return sorted({number for number in chosen if 1 <= number <= last})


def sweep(command, files, run):
    """How many refusals a command met. A fault is raised."""
    runs = Sweep(command, files, run)
    met, answer, rows = runs.answer(0)
    told = answer[2] if command.status else answer[1]
    if met or answer[0] != command.status or not told.startswith(command.told):
        raise AssertionError(f"with ample memory: {answer}")
    before, last = runs.begun(), runs.last()
    numbers = numbers_up_to(last)
    with ThreadPoolExecutor(AT_ONCE) as pool:
        faults = [it for it in pool.map(lambda at: runs.fault_at(at, (answer, rows), before), numbers) if it]
    if faults or not numbers:
        raise AssertionError(f"{len(faults)} of {len(numbers)}, of {last}: {faults[:1]}")
    return len(numbers)
