"""Registers in files, which the program makes and changes, and what its processes take."""

import argparse
import os
import resource
import subprocess
import sys
import tempfile
import time
from typing import NamedTuple

from shared.drawn import document, files, table
from shared.report import Report

ROOT = os.path.dirname(os.path.dirname(os.path.dirname(os.path.abspath(__file__))))
VETD = os.path.join(ROOT, "crates", "vetd", "out", "vetd")
FOLDER = os.path.join(ROOT, "out")
PYTHON = [os.path.realpath(sys.executable), "-I", "-S"]
DAY = "2024-05-01"


class Took(NamedTuple):
    """What a process took, in ms: by the clock, and of a processor."""

    wall: float
    processor: float


def of_children():
    used = resource.getrusage(resource.RUSAGE_CHILDREN)
    return used.ru_utime + used.ru_stime


def timed(words, text=""):
    """What a process printed, and what it took. Fails where its status is not 0."""
    before, begun = of_children(), time.perf_counter()
    done = subprocess.run(words, input=text.encode(), capture_output=True, check=True, timeout=600)
    wall = time.perf_counter() - begun
    return done.stdout.decode(), Took(wall * 1e3, (of_children() - before) * 1e3)


def compare(what, found, expected):
    if found != expected:
        raise RuntimeError(f"{what}: {str(found)[:200]}, and not {str(expected)[:200]}")


def given(size):
    """The documents that make a new register one of this size, each with what is told of it."""
    put = document("replace-files", **files(size)._asdict())
    load = document("load-project", project="app", csv=table(size))
    return [(put, "done 1 moves 0\n"), (load, f"done 2 moves {size.pairs()}\n")]


class Register:
    """A drawn register of this size in a file."""

    def __init__(self, vetd, path, size):
        self.vetd, self.path, self.size = vetd, path, size
        compare("new", self.run("new")[0], "created\n")
        for text, printed in given(size):
            compare("what is given", self.apply(text)[0], printed)

    def run(self, command, *words, text=""):
        return timed([self.vetd, command, "--db", self.path, *words], text)

    def apply(self, text):
        return self.run("apply", "--day", DAY, text=text)


def run(measure, description, parts=()):
    """Runs a bench of the program, in a folder of its own. If it has parts, it is given those that are asked for. The
    status of the script."""
    reader = argparse.ArgumentParser(description=description)
    reader.add_argument("--vetd", default=VETD, help="the program, if it is not the one of this repository")
    if parts:
        reader.add_argument("--only", action="append", choices=parts, help="a part; may be repeated")
    words = reader.parse_args()
    vetd, asked = words.vetd, [words.only or list(parts)] if parts else []
    if not os.path.exists(vetd):
        print(f"{os.path.relpath(vetd, ROOT)} is not built: `rt run` in its crate builds it")
        return 1
    report = Report()
    os.makedirs(FOLDER, exist_ok=True)
    with tempfile.TemporaryDirectory(dir=FOLDER) as folder:
        try:
            measure(report, os.path.abspath(vetd), folder, *asked)
        except (AssertionError, OSError, RuntimeError, ValueError, subprocess.SubprocessError) as fault:
            print(fault)
            return 1
    print(f"{report.missed} missed")
    return 1 if report.missed else 0
