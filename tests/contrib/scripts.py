"""How the tests run a script of contrib/: alone, with nothing but the standard library."""

import os
import subprocess
import sys

TESTS = os.path.dirname(os.path.dirname(os.path.abspath(__file__)))
ROOT = os.path.dirname(TESTS)
CONTRIB, EXAMPLES = (os.path.join(ROOT, name) for name in ("contrib", "examples"))


def compare(what, found, expected):
    if found != expected:
        raise AssertionError(f"{what}: {found!a}, not {expected!a}")


def read(file):
    with open(file, "rb") as it:
        return it.read()


def run(script, *words, **how):
    how = {"stdout": subprocess.PIPE, "stderr": subprocess.PIPE, "timeout": 60} | how
    done = subprocess.run([sys.executable, "-I", "-S", os.path.join(CONTRIB, script), *words], **how)
    return done.returncode, done.stdout, done.stderr


def printed(script, *words, **how):
    """The output of a script that ends with status 0 and prints no errors."""
    status, text, errors = run(script, *words, **how)
    compare("status and errors", (status, errors), (0, b""))
    return text.decode()


def refused(script, *words, told, status=1, **how):
    """A run that prints nothing but errors: lines, each of which has certain words."""
    found, text, errors = run(script, *words, **how)
    compare("status and output", (found, text), (status, None if "stdout" in how else b""))
    lines = errors.decode().splitlines()
    compare("lines", len(lines), len(told))
    for line, parts in zip(lines, told):
        if not line.startswith(f"{script}: ") or not all(part in line for part in parts):
            raise AssertionError(f"{line!a} has not {parts!a}")


def bad_words(script, *words):
    status, text, errors = run(script, *words, input=b"")
    compare("status, output, and whether there are errors", (status, text, errors != b""), (2, b"", True))
