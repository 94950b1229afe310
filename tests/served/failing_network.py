"""Waits for clients that fail, and a clock that can't be read, by a library that is loaded before the C library."""

import contextlib
import os
import subprocess
import tempfile

SOURCE = os.path.join(os.path.dirname(os.path.abspath(__file__)), "failing_network.c")


@contextlib.contextmanager
def failing(first, last, with_error, **more):
    """The environment in which these waits for a client fail, or the clock `FAIL_CLOCK` for these clients."""
    with tempfile.TemporaryDirectory() as folder:
        library = os.path.join(folder, "failing_network.so")
        subprocess.run(["cc", "-O1", "-shared", "-fPIC", "-o", library, SOURCE, "-ldl"], check=True)
        told = {"FAIL_FROM": str(first), "FAIL_TO": str(last), "FAIL_WITH": str(with_error), **more}
        yield dict(os.environ, LD_PRELOAD=library, **told)
