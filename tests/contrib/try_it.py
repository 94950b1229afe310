"""The script `try`, with an `rt` that runs the built program in place of compiling one: the program is a child in
another session, as that of a real `rt` is."""

import os
import signal
import socket
import subprocess
import sys
import tempfile
import time
from functools import partial

from contrib.scripts import CONTRIB, compare, read
from served.server import free_port

SCRIPT = os.path.join(CONTRIB, "try")
SECONDS = 60
# what a real one gets is `try --seconds N -- serve ..`
RUNS_THE_PROGRAM = """#!/bin/sh
[ "$1 $2 $4 $5" = "try --seconds -- serve" ] && [ "$3" -ge 86400 ] && [ -e src/main.rt ] || exit 9
shift 4
setsid "{program}" "$@" &
touch "$TMPDIR/left"
wait
"""
ENDS = "#!/bin/sh\necho an error of the compiler\nexit 1\n"
NEVER_ENDS = "#!/bin/sh\nsetsid sleep 1000 & echo $! >\"$TMPDIR/../../process\"; wait\n"
COUNTS = "unvetted             0       161         0       161\n"
REASON = "serde 1.0.1 safe-to-deploy: unvetted\n    vetted for safe-to-run (full)\n"
# a review is added, the class is asked, and the last move shown
PRINTED = [b"done 3 number 1284 moves 1\n", b"full\n", b"unvetted    full\n"]


class Attempt:
    """The script with a program in place of `rt`, a port, and a folder for temporary files that is empty in the end."""

    def __init__(self, rt):
        self.folder, self.port = tempfile.TemporaryDirectory(), free_port()
        self.temporary, programs = (os.path.join(self.folder.name, it) for it in ("temporary", "programs"))
        os.mkdir(self.temporary)
        os.mkdir(programs)
        if rt:
            with open(os.path.join(programs, "rt"), "w", encoding="utf-8") as file:
                file.write(rt)
            os.chmod(os.path.join(programs, "rt"), 0o755)
        path = os.pathsep.join([programs, *(os.environ["PATH"].split(os.pathsep) if rt else [])])
        words = [sys.executable, "-I", "-S", SCRIPT, "--port", str(self.port)]
        how = {"stdout": subprocess.PIPE, "stderr": subprocess.PIPE, "stdin": subprocess.DEVNULL}
        self.process = subprocess.Popen(words, env=dict(os.environ, TMPDIR=self.temporary, PATH=path), **how)

    def __enter__(self):
        return self

    def __exit__(self, kind, *_):
        self.process.kill()
        self.process.communicate()
        left = os.listdir(self.temporary)
        self.folder.cleanup()
        if not kind:
            compare("temporary files", left, [])

    def ends(self, status, *errors):
        """Its output, once it has ended so, with these words among its errors."""
        printed, told = (text.decode() for text in self.process.communicate(timeout=SECONDS))
        compare(f"status of {printed} {told}", self.process.returncode, status)
        for text in errors:
            compare(f"{text} in {told}", text in told, True)
        return printed

    def has_ended(self):
        """The process whose number the program in place of `rt` wrote, if it came so far."""
        file = os.path.join(self.folder.name, "process")
        number = read(file).decode().strip() if os.path.exists(file) else ""
        try:
            # one that nobody has waited for yet is a zombie
            return not number or b") Z " in read(f"/proc/{number}/stat")
        except FileNotFoundError:
            return True

    def is_listening(self):
        with socket.socket() as probe:
            return probe.connect_ex(("127.0.0.1", self.port)) == 0

    def wait_for_the_end(self):
        end = time.monotonic() + SECONDS
        while (self.is_listening() or os.listdir(self.temporary)) and time.monotonic() < end:
            time.sleep(0.1)
        compare("the server has ended", self.is_listening(), False)


def shell(command):
    return subprocess.run(["sh", "-c", command], stdout=subprocess.PIPE, timeout=SECONDS, check=True).stdout


def the_examples_are_served(program):
    with Attempt(RUNS_THE_PROGRAM.format(program=os.path.abspath(program))) as it:
        printed = it.ends(0)
        said, _, after = printed.partition("Add the missing review")
        *commands, last = [line.strip() for line in after.splitlines() if line.startswith("    ")]
        try:
            for text in (": done 1 moves 0\n", ": done 2 moves 368\n", COUNTS, REASON):
                compare(f"{text} in {said}", text in said, True)
            compare("commands", len(commands), len(PRINTED))
            for command, expected in zip(commands, PRINTED):
                compare(command, shell(command)[-len(expected) :], expected)
        finally:
            compare("the last line", last.split(" ")[0], "kill")
            shell(last)
        it.wait_for_the_end()


def a_compiler_that_ends(_):
    with Attempt(ENDS) as it:
        it.ends(1, "try: the compiler ended", "an error of the compiler")


def no_compiler(_):
    with Attempt(None) as it:
        compare("output", it.ends(1, "try: `rt` is not on the path"), "")


def given_up(number, wait, _):
    """By a signal, once it has said what it does: at once, or while the compiler runs."""
    with Attempt(NEVER_ENDS) as it:
        compare("the first line", it.process.stdout.readline()[:15], b"compiling vetd ")
        time.sleep(wait)
        it.process.send_signal(number)
        it.ends(1, "try: given up")
        compare("the compiler has ended", it.has_ended(), True)


def a_port_in_use(_):
    with socket.socket() as taken:
        taken.bind(("127.0.0.1", 0))
        taken.listen()
        port = str(taken.getsockname()[1])
        with tempfile.TemporaryDirectory() as programs:
            os.symlink(sys.executable, os.path.join(programs, "rt"))
            words = [sys.executable, "-I", "-S", SCRIPT, "--port", port]
            done = subprocess.run(words, env={"PATH": programs}, capture_output=True, timeout=SECONDS)
    told = (done.returncode, done.stdout, done.stderr.startswith(f"try: port {port}: ".encode()))
    compare("status, output, errors", told, (1, b"", True))


def tests(program):
    alone = (the_examples_are_served, a_compiler_that_ends, no_compiler, a_port_in_use)
    named = {test.__name__: test for test in alone}
    for number in (signal.SIGINT, signal.SIGTERM, signal.SIGHUP):
        for wait in (0, 1):
            named[f"given up by {number.name} after {wait} s"] = partial(given_up, number, wait)
    for name, test in named.items():
        yield f"try: {name}", lambda test=test: test(program)
