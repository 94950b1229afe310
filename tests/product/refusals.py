"""Runs of a program in which one allocation is refused, by its number."""

import os
import subprocess

TESTS = os.path.dirname(os.path.dirname(os.path.abspath(__file__)))
SOURCE = os.path.join(TESTS, "program", "refusing_allocator.c")
LIBRARY = "refusing_allocator.so"
MOST_RUNS = 100_000
WANT = b"refused 29 NoMemory\n"
# the answers of `vetd`, and of the program of trials before it has a register
NO_MEMORY = (1, b"", WANT)
NO_MEMORY_BEFORE_ALL = (1, WANT, b"")


def build_allocator(folder):
    library = os.path.join(folder, LIBRARY)
    subprocess.run(["cc", "-O1", "-shared", "-fPIC", "-o", library, SOURCE, "-ldl"], check=True)


def refusing(refused, library, mark, **more):
    """The environment of a run in which an allocation is refused, which makes a file then."""
    return dict(os.environ, LD_PRELOAD=library, REFUSE_ALLOCATION=str(refused), REFUSED_MARK=mark, **more)


def run(program, words, given, refused, library, mark):
    """Whether the run met its refusal, and its answer."""
    environment = refusing(refused, library, mark)
    done = subprocess.run([program, *words], input=given, capture_output=True, env=environment, timeout=60)
    met = os.path.exists(mark)
    if met:
        os.remove(mark)
    return met, (done.returncode, done.stdout, done.stderr)


def refused_in_turn(words, given, own, allowed, library, mark, numbers=range(1, MOST_RUNS)):
    """How many refusals were met before a run met none, of the allocations with these numbers. A run gives its own
    answer, or meets its refusal and gives an answer that is allowed then. Otherwise an error is raised."""
    for count, refused in enumerate(numbers):
        met, answer = run(words[0], words[1:], given, refused, library, mark)
        if answer != own and not (met and answer in allowed):
            raise AssertionError(f"allocation {refused}: {answer}")
        if not met and refused == 1:
            raise AssertionError("no allocation was met")
        if not met:
            return count
    raise AssertionError(f"still refusing after {MOST_RUNS} runs")
