"""Lines and commands for the program of trials, with its allocations refused in turn. A run gives its own answers; or
the answers before the refusal, then that memory ran out, and then what is held without the refused command. In a list,
a refused command is as if it had not been given. A register in a file has the rows of what is held. A register that was
shut by a commit holds the same after its file is opened again."""

import contextlib
import itertools
import os
import shutil
import sqlite3
import tempfile
from typing import NamedTuple

from models.machine import Machine
from models.versions import FIRST, in_version, rows_of_either, to_first_version
from product.examples import EXAMPLES, Example
from product.refusals import MOST_RUNS, NO_MEMORY_BEFORE_ALL, WANT, refused_in_turn, run
from product.register import FOLDER
from product.stream import BOTH_KEEPERS, is_command, streamed

TRIALS = os.path.join(os.path.dirname(os.path.dirname(EXAMPLES)), "crates", "trials", "out", "trials")
# more than a few commands to a register in a file take
MOST_OF_STORE = 100_000
# how many are refused one by one at the start, and how far apart the others are
AT_THE_START, APART = 400, 23
ANSWERS = (b"done ", b"already", b"refused ")
SETTING = b"limit "
TOLD = b"#> "
HELD = b"#> step "
# the answer to a command if the register is shut
SHUT = b"refused 30 StoreRefused\n"


# ---- lines, of which some give commands


def given_lines(text):
    """For each line, whether it is a command, and how many lines its answer has."""
    given, counts = [], True
    for line in text.splitlines():
        if line.startswith(TOLD):
            counts = counts and not line.startswith(HELD)
            given[-1][1] += counts
        elif line and not line.startswith((b"#", SETTING)):
            given.append([line[:1].isdigit(), 0])
    return given


def answers_and_contents(output, given):
    """For each line, what was held before it, if it is a command, and its answer; and what is held at the end."""
    lines, answers = output.splitlines(keepends=True), []
    for is_command, count in given:
        place = 0
        while is_command and not lines[place].startswith(ANSWERS):
            place += 1
        answers.append((is_command, b"".join(lines[:place]), b"".join(lines[place : place + count])))
        lines = lines[place + count :]
    return answers, b"".join(lines)


def told_before_want(own, text):
    """The possible outputs if memory runs out: for each line the outputs before it, then the refusal, and then what is
    held."""
    answers, last = answers_and_contents(own, given_lines(text))
    allowed, told = {NO_MEMORY_BEFORE_ALL}, b""
    for place, (_, before, answer) in enumerate(answers):
        held = next((held for is_command, held, _ in answers[place:] if is_command), last)
        allowed.add((1, told + before + WANT + held, b""))
        told += before + answer
    return allowed


def keepers_for(file):
    """The keepers to run a file's lines with: only commands need one."""
    with open(file, encoding="utf-8") as lines:
        return BOTH_KEEPERS if any(map(is_command, lines)) else BOTH_KEEPERS[:1]


def sweep_lines(keeper, file, library, mark, apart=1):
    """How many refusals the lines of a file met. After the start, allocations that are this far apart are refused. With
    enough memory the plain keeper gives the expected answers. Raises an error for a wrong one."""
    with open(file, "rb") as lines:
        text = lines.read()
    given = streamed(text.decode().split("\n"))
    _, own = run(TRIALS, ["plain", "--contents"], given, 0, library, mark)
    if own[0] != 0 or own[2] != b"":
        raise AssertionError(f"with ample memory: {own}")
    numbers = itertools.chain(range(1, AT_THE_START), range(AT_THE_START, MOST_RUNS, apart))
    words, allowed = [TRIALS, keeper, "--contents"], told_before_want(own[1], text)
    return refused_in_turn(words, given, own, allowed, library, mark, numbers)


def sweep_demands(file, library, mark):
    """How many refusals the lines met that ask what projects demand. Raises an error for a wrong answer."""
    with open(file, "rb") as lines:
        given = lines.read()
    _, own = run(TRIALS, ["demand"], given, 0, library, mark)
    told = [line[len(TOLD) :] for line in given.splitlines(keepends=True) if line.startswith(TOLD)]
    if own != (0, b"".join(told), b""):
        raise AssertionError(f"with ample memory: {own}")
    counts = itertools.accumulate((count for _, count in given_lines(given)), initial=0)
    allowed = {(1, b"".join(told[:count]) + WANT, b"") for count in counts}
    return refused_in_turn([TRIALS, "demand"], given, own, allowed, library, mark)


# ---- commands, with what the plain model says of them


def commands_of(name):
    """The lines of an example that are commands."""
    with open(os.path.join(EXAMPLES, f"{name}.txt"), encoding="utf-8") as given:
        return [line for line, _ in Example(given.read()).told]


class Course:
    """Commands: the answer to each, what is held before each and at the end, and its rows."""

    def __init__(self, lines):
        machine = Machine()
        self.answers, self.held, self.rows = [], [held_in(machine)], [machine.rows()]
        for line in lines:
            self.answers.append(f"{machine.told(line)}\n".encode())
            self.held.append(held_in(machine))
            self.rows.append(machine.rows())

    def told(self, begin=0, end=None):
        return b"".join(self.answers[begin:end])


def held_in(machine):
    return "".join(f"{line}\n" for line in machine.contents()).encode()


class Told(NamedTuple):
    """The answer of a run with enough memory, and the rows after each possible answer, that one included."""

    own: tuple
    allowed: dict

    def with_end(self, text, rows):
        """The same, with another possible output."""
        return self._replace(allowed=self.allowed | {(1, text, b""): rows})


def singly(lines, before=()):
    """For commands that are given one by one after others. A run ends at the one that is refused."""
    course, done = Course([*before, *lines]), len(before)
    own = (0, course.told(done) + course.held[-1], b"")
    allowed = {own: course.rows[-1], NO_MEMORY_BEFORE_ALL: course.rows[done] if before else None}
    for place in range(done, done + len(lines)):
        allowed[1, course.told(done, place) + WANT + course.held[place], b""] = course.rows[place]
    return Told(own, allowed)


def as_list(lines):
    """For commands that are given as a list: a refused one is as if it had not been given. The run ends if a document
    cannot be read, or if there is no room for the answers."""
    course = Course(lines)
    own = (0, course.told() + course.held[-1], b"")
    allowed = {own: course.rows[-1], NO_MEMORY_BEFORE_ALL: None, (1, course.held[0], b""): course.rows[0]}
    for place in range(len(lines)):
        allowed[1, course.told(0, place) + WANT + course.held[place], b""] = course.rows[place]
        others = Course(lines[:place] + lines[place + 1 :])
        told = others.told(0, place) + WANT + others.told(place)
        allowed[0, told + others.held[-1], b""] = others.rows[-1]
    return Told(own, allowed)


def told_ahead(lines):
    """The same if each command is prepared before the previous one is installed. The room for an answer is taken after
    its command."""
    told, course = as_list(lines), Course(lines)
    return told._replace(allowed=told.allowed | {(1, WANT + held, b""): None for held in course.held[1:]})


def shut_by_one(lines):
    """The possible answers to a list if the commit of a command fails and shuts the register, each with the rows."""
    course = Course(lines)
    for place, answer in enumerate(course.answers):
        if answer.startswith(b"done "):
            others = len(lines) - place - 1
            yield (0, course.told(0, place) + WANT + others * SHUT + course.held[place], b""), course.rows[place]


def sweep_list(words, told_of, name, library, mark):
    """How many refusals the commands of an example met as a list. Raises an error for a wrong answer."""
    lines = commands_of(name)
    own, allowed = told_of(lines)
    return refused_in_turn([TRIALS, *words], streamed(lines), own, allowed, library, mark)


# ---- commands to a register in a file


class InFile(NamedTuple):
    """A sweep: the words before the path, the commands, and those that the register was given before. After the start,
    allocations that are this far apart are refused. The tables that are opened may be of the first version."""

    words: list
    lines: list
    before: list = []
    apart: int = APART
    is_first: bool = False

    def told(self):
        """The possible answers. The last refusal comes while the file is closed, and the one before it while it is
        reopened."""
        told = as_list(self.lines) if "--together" in self.words else singly(self.lines, self.before)
        if "--together" in self.words:
            told = told._replace(allowed=told.allowed | dict(shut_by_one(self.lines)))
        if self.is_first:
            told.allowed[NO_MEMORY_BEFORE_ALL] = in_version(FIRST, told.allowed[NO_MEMORY_BEFORE_ALL])
        rows, course = told.allowed[told.own], Course([*self.before, *self.lines])
        if "--db-reopen" in self.words:
            told = told.with_end(course.told(len(self.before)) + WANT, rows)
        return told.with_end(told.own[1] + WANT, rows)

    def numbers(self):
        return itertools.chain(range(AT_THE_START), range(AT_THE_START, MOST_OF_STORE, self.apart))


def tables_in(path):
    """How many tables a database file has. If there is no file, it has none."""
    if not os.path.exists(path):
        return 0
    with contextlib.closing(sqlite3.connect(f"file:{path}?mode=ro", uri=True)) as tables:
        return tables.execute("SELECT count(*) FROM sqlite_schema WHERE type = 'table'").fetchone()[0]


def stored(in_file, begun, refused, library, mark):
    """Whether a run met its refusal, its answer, and the rows in the tables, if there are tables. The run gets a copy
    of the file that was begun, or makes one if there is none."""
    with tempfile.TemporaryDirectory(dir=FOLDER) as folder:
        path = os.path.join(folder, "register.db")
        for behind in ("", "-wal"):
            if os.path.exists(begun + behind):
                shutil.copy(begun + behind, path + behind)
        met, answer = run(TRIALS, [*in_file.words, path], streamed(in_file.lines), refused, library, mark)
        found = rows_of_either(path) if tables_in(path) else None
        if SHUT in answer[1]:
            check_opened(path, answer[1], library, mark)
        return met, answer, found


def check_opened(path, printed, library, mark):
    """Opens a register that was shut. It must hold what it held at the end."""
    _, answer = run(TRIALS, ["plain", "--db-open", path], b"", 0, library, mark)
    if answer[0] != 0 or not answer[1].startswith(b"step ") or not printed.endswith(answer[1]):
        raise AssertionError(f"opened again: {answer}, behind {printed}")


def sweep_stored(in_file, library, mark):
    """How many refusals are met while a register is made in a file and given commands, or is opened and given more.
    There are thousands of allocations, nearly all of them the database's own, so some are skipped."""
    own, allowed = in_file.told()
    with tempfile.TemporaryDirectory(dir=FOLDER) as folder:
        begun = os.path.join(folder, "begun.db")
        if in_file.before:
            run(TRIALS, ["plain", "--db", begun], streamed(in_file.before), 0, library, mark)
        if in_file.is_first:
            to_first_version(begun)
        for count, refused in enumerate(in_file.numbers()):
            met, answer, found = stored(in_file, begun, refused, library, mark)
            if answer not in allowed or found != allowed[answer] or (answer != own and not met):
                raise AssertionError(f"allocation {refused}: {answer}, {found}")
            if met != (refused > 0) and refused < 2:
                raise AssertionError(f"allocation {refused} was met: {met}")
            if refused and not met:
                return count - 1
    raise AssertionError(f"still refusing at allocation {MOST_OF_STORE}")
