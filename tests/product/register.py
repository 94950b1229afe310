"""A register in a file, as the users of `vetd` have it."""

import os
import subprocess

# a folder in memory, where writes need not reach a disk
FOLDER = "/dev/shm" if os.path.isdir("/dev/shm") else None
REPORTS = ("counts", "standing", "standing-csv", "moves", "desk", "lapses")
FILES = ("audits", "config", "imports")
DAY = "2024-05-01"
CREATED = (0, b"created\n", b"")


def compare(what, found, expected):
    if found != expected:
        raise AssertionError(f"{what}: {found!r}, not {expected!r}")


def answer_of(line):
    """The status, the output and the errors of a run that tells a line."""
    told = line.encode() + b"\n"
    return (1, b"", told) if line.startswith("refused ") else (0, told, b"")


class Register:
    """What a program answers about the register at a path, each time within so many seconds. It may have another
    environment than the script."""

    def __init__(self, program, path, seconds=60, environment=None):
        self.program, self.path, self.seconds, self.environment = program, path, seconds, environment

    def run(self, command, *words, text=b""):
        words = [self.program, command, "--db", self.path, *words]
        done = subprocess.run(words, input=text, capture_output=True, timeout=self.seconds, env=self.environment)
        return done.returncode, done.stdout, done.stderr

    def make(self, limit=None):
        compare("new", self.run("new", *([] if limit is None else [f"--moves-limit={limit}"])), CREATED)
        return self

    def apply(self, document, day=DAY, member=None):
        return self.run("apply", f"--day={day}", *([] if member is None else [f"--member={member}"]), text=document)

    def told(self, document, line, day=DAY, member=None):
        """Applies a document, and compares what it is told with a line: one that begins with `refused` is an error."""
        compare(document[:200], self.apply(document, day, member), answer_of(line))

    def shown(self, command, kind):
        status, text, errors = self.run(command, kind)
        compare(f"{command} {kind}", (status, errors), (0, b""))
        return text.decode()

    def report(self, kind):
        return self.shown("report", kind)

    def export(self, kind):
        return self.shown("export", kind)

    def reports(self):
        return {kind: self.report(kind) for kind in REPORTS}

    def exports(self):
        return {kind: self.export(kind) for kind in FILES}
