"""The script `gate`: its statuses, what it prints, what it asks of `cargo`, and that it only reads."""

import os
import shutil
import subprocess
import sys
import tempfile
import threading
from http.server import BaseHTTPRequestHandler, HTTPServer

from contrib.scripts import CONTRIB, TESTS, compare, run
from contrib.served_register import ServedRegister
from product.documents import document, entry, table_of
from product.register import FOLDER, Register

SCRIPT = "gate"
SECONDS = 600
METADATA = os.path.join(TESTS, "metadata", "workspace.json")
AUDITS = """[[audits.serde]]
criteria = "safe-to-deploy"
version = "1.0.0"
[[audits.serde]]
criteria = "safe-to-deploy"
delta = "1.0.0 -> 1.1.0"
[[audits.serde]]
criteria = "safe-to-deploy"
violation = "=1.1.0"
who = "100% Ann"
"""
FILES = {"audits": AUDITS, "config": "", "imports": ""}
# two pairs each: vetted, unvetted, and conflicting
VETTED, UNVETTED, CONFLICTING = ("1.0.0",), ("1.0.0", "1.0.1"), ("1.0.0", "1.1.0")
VETTED_TEXT = "2 pairs were looked at: 2 vetted, 0 not\n"
UNVETTED_TEXT = """serde 1.0.1 safe-to-deploy: unvetted
    nearest vetted versions: 1.0.0 (full)
    would help: a review of 1.0.0 -> 1.0.1 for safe-to-deploy
    would help: a full review of 1.0.1 for safe-to-deploy
serde 1.0.1 safe-to-run: unvetted
    nearest vetted versions: 1.0.0 (full), 1.1.0 (full)
    would help: a review of 1.0.0 -> 1.0.1 for safe-to-run
    would help: a review of 1.1.0 -> 1.0.1 for safe-to-run
    would help: a full review of 1.0.1 for safe-to-run
4 pairs were looked at: 2 vetted, 2 not
"""
WITHOUT_REASONS = """serde 1.0.1 safe-to-deploy: unvetted
serde 1.0.1 safe-to-run: unvetted
4 pairs were looked at: 2 vetted, 2 not
"""
CONFLICT = [
    "serde 1.1.0 safe-to-deploy: conflicting",
    "    full review of 1.0.0, for safe-to-deploy",
    "    review of 1.0.0 -> 1.1.0, for safe-to-deploy",
    "    under a violation =1.1.0 by 100% Ann, for safe-to-deploy",
    "    vetted for safe-to-run (full)",
    "    nearest vetted versions: 1.0.0 (full)",
    "    no review helps while it is under a violation",
]
OF_CONFLICT = "4 pairs were looked at: 3 vetted, 1 not"
# nothing that a root depends on
EMPTY = "what,n,p,q,r\nnode,0,app,0.1.0,root\n"
NO_TABLE = "what,n,p,q,r\nnode,0,app,0.1.0,third\nnode,1,app,0.1.0,root\n"
# prints what a real one did, and fails if it is asked for something else or elsewhere
CARGO = """#!/bin/sh
[ "$*" = "metadata --format-version 1 --all-features --locked" ] && [ -e Cargo.toml ] || exit 101
exec cat '{metadata}'
"""


class Gate:
    """The script with a register that is served, and a folder for tables and programs."""

    def __init__(self, program, server, folder):
        self.program, self.server, self.folder = program, server, folder

    def written(self, name, text, mode=0o644):
        path = os.path.join(self.folder, name)
        with open(path, "w", encoding="utf-8") as file:
            file.write(text)
        os.chmod(path, mode)
        return path

    def run(self, *words, register=None, variables=(), path=None):
        env = {"PATH": path or os.environ["PATH"], **dict(variables)}
        words = [register or self.server.url(), f"--vetd={self.program}", *words]
        status, text, errors = run(SCRIPT, *words, env=env, timeout=SECONDS)
        return status, text.decode(), errors.decode()

    def judges(self, versions, status, text, *words, **how):
        table = self.written("table.csv", table_of(*versions))
        compare(f"{versions} {words}", self.run(f"--table={table}", *words, **how), (status, text, ""))

    def has_no_judgement(self, told, *words, **how):
        status, text, errors = self.run(*words, **how)
        compare("status and output", (status, text), (2, ""))
        if not errors.startswith("gate: ") or told not in errors:
            raise AssertionError(f"{errors!a} has not {told!a}")

    def with_cargo(self, text):
        """A path with a `cargo` of this text before all else, and the folder of a workspace."""
        os.makedirs(os.path.join(self.folder, "bin"), exist_ok=True)
        self.written(os.path.join("bin", "cargo"), text, 0o755)
        self.written("Cargo.toml", "")
        return os.pathsep.join([os.path.join(self.folder, "bin"), os.environ["PATH"]])


# ---- judgements


def vetted(gate):
    gate.judges(VETTED, 0, VETTED_TEXT)


def unvetted(gate):
    gate.judges(UNVETTED, 1, UNVETTED_TEXT)


def conflicting(gate):
    gate.judges(CONFLICTING, 1, "\n".join([*CONFLICT, OF_CONFLICT, ""]))


def errors_of_a_runner(gate):
    """Each failing pair is one line of its own besides, in which line feeds and `%` are escaped."""
    error = f"::error title=vetd::{'%0A'.join(CONFLICT).replace('100% Ann', '100%25 Ann')}"
    text = "\n".join([*CONFLICT, error, OF_CONFLICT, ""])
    gate.judges(CONFLICTING, 1, text, variables={"GITHUB_ACTIONS": "true"})


def a_register_file(gate):
    with tempfile.TemporaryDirectory(dir=FOLDER) as folder:
        register = Register(gate.program, os.path.join(folder, "register.db"), SECONDS).make()
        register.told(document("replace-files", **FILES), "done 1 moves 0")
        gate.judges(VETTED, 0, VETTED_TEXT, register=register.path)
        compare("counts", register.report("counts").splitlines()[-1].split(), ["demand", "0", "0", "0", "0"])


def an_exemption_with_a_last_day(gate):
    """It counts up to that day, although it is in no file, and not after it."""
    with tempfile.TemporaryDirectory(dir=FOLDER) as folder:
        register = Register(gate.program, os.path.join(folder, "register.db"), SECONDS).make()
        register.told(document("replace-files", **FILES), "done 1 moves 0")
        dated = entry("exemption", version="1.0.1", last_day="2024-05-31")
        register.told(dated, "done 2 number 4 moves 0")
        register.told(document("set-day"), "done 3 moves 0", "2024-05-31")
        gate.judges(UNVETTED, 0, "4 pairs were looked at: 4 vetted, 0 not\n", register=register.path)
        register.told(document("set-day"), "done 4 moves 0", "2024-06-01")
        gate.judges(UNVETTED, 1, UNVETTED_TEXT, register=register.path)


def one_of_a_served_register(gate):
    """An exemption that names no criterion vouches for nothing."""
    about = {"package": "serde", "kind": "exemption", "version": "1.0.1", "last_day": "2024-05-31"}
    criteria = ([], ["safe-to-run"])
    added = [gate.server.give("add-entry", criteria=names, **about).split()[3] for names in criteria]
    text = UNVETTED_TEXT.split("serde 1.0.1 safe-to-run: unvetted", 1)[0]
    text = text.replace("    nearest", "    vetted for safe-to-run (exempted)\n    nearest")
    gate.judges(UNVETTED, 1, f"{text}4 pairs were looked at: 3 vetted, 1 not\n")
    for number in added:
        gate.server.give("drop-entry", number=int(number))


def it_only_reads(gate):
    """Pairs of another project neither fail the gate nor are changed by it."""
    gate.server.ask("PUT", "/projects/other", table_of("9.9.9").encode())
    before = [gate.server.ask("GET", it) for it in ("/standing", "/moves", "/projects/other", "/files/config.toml")]
    gate.judges(VETTED, 0, VETTED_TEXT)
    after = [gate.server.ask("GET", it) for it in ("/standing", "/moves", "/projects/other", "/files/config.toml")]
    gate.server.give("drop-project", project="other")
    compare("the register", after, before)


def nothing_to_look_at(gate):
    table = gate.written("empty.csv", EMPTY)
    gate.has_no_judgement("--allow-empty", f"--table={table}")
    expected = (0, "0 pairs were looked at: 0 vetted, 0 not\n", "")
    compare("allowed", gate.run(f"--table={table}", "--allow-empty"), expected)


# ---- what the workspace needs


def pairs_of_cargo(gate, *words):
    """How many pairs are looked at in the recorded workspace, and how many of them come from git."""
    path = gate.with_cargo(CARGO.format(metadata=METADATA))
    status, text, errors = gate.run(gate.folder, *words, path=path)
    compare("status and errors", (status, errors), (1, ""))
    heads = [line for line in text.splitlines() if line.endswith(": unvetted")]
    count = int(text.splitlines()[-1].partition(" ")[0])
    compare("each fails", len(heads), count)
    return count, sum("@git:" in line for line in heads)


def what_cargo_says(gate):
    """All that a project of this table demands, which is more than what comes from git."""
    with open(METADATA, "rb") as file:
        words = [sys.executable, os.path.join(CONTRIB, "cargo-metadata-to-table")]
        table = subprocess.run(words, stdin=file, capture_output=True, check=True, timeout=60).stdout
    gate.server.ask("PUT", "/projects/other", table)
    demanded = sum(word == "unvetted" for word in gate.server.standing().values())
    gate.server.give("drop-project", project="other")
    compare("pairs", pairs_of_cargo(gate), (demanded, 4))
    compare("there are many", demanded > 30, True)


def options_are_handed_on(gate):
    count, _ = pairs_of_cargo(gate)
    compare("git first", pairs_of_cargo(gate, "--git=first"), (count - 4, 0))
    compare("one of ours", pairs_of_cargo(gate, "--ours=anchor-sys"), (count - 2, 2))


def the_folder_one_is_in(gate):
    """Without PROJECT, `cargo` runs where the script does: not in a workspace it fails."""
    path = gate.with_cargo(CARGO.format(metadata=METADATA))
    gate.has_no_judgement("cargo metadata: status 101", path=path)


def cargo_that_fails(gate):
    path = gate.with_cargo("#!/bin/sh\necho 'error: the lock file needs to be updated' >&2\nexit 101\n")
    gate.has_no_judgement("cargo metadata: error: the lock file needs to be updated", gate.folder, path=path)


def cargo_that_prints_nothing(gate):
    gate.has_no_judgement("this is no JSON", gate.folder, path=gate.with_cargo("#!/bin/sh\n"))


# ---- no judgement


def no_judgements(gate):
    table = f"--table={gate.written('vetted.csv', table_of(*VETTED))}"
    gate.has_no_judgement("refused", table, register="http://127.0.0.1:1")
    gate.has_no_judgement("404", table, register=f"{gate.server.url()}/more")
    gate.has_no_judgement("31 NotARegister", table, register=os.path.join(gate.folder, "nothing.db"))
    gate.has_no_judgement("17 TwoParties 3", f"--table={gate.written('parties.csv', NO_TABLE)}")
    gate.has_no_judgement("No such file", "--table=/nothing")
    gate.has_no_judgement("No such file", table, "--vetd=/nothing/vetd")


class Changing(BaseHTTPRequestHandler):
    """A register that is never twice the same."""

    count = 0

    def do_GET(self):
        Changing.count += 1
        text = b"" if self.path == "/lapses" else b"# %d\n" % Changing.count
        self.send_response(200)
        self.send_header("Content-Length", str(len(text)))
        self.end_headers()
        self.wfile.write(text)

    def log_message(self, *_):
        pass


def a_register_that_changes(gate):
    table = gate.written("vetted.csv", table_of(*VETTED))
    with HTTPServer(("127.0.0.1", 0), Changing) as server:
        threading.Thread(target=server.serve_forever, daemon=True).start()
        url = f"http://127.0.0.1:{server.server_port}"
        gate.has_no_judgement("the register changes while it is read", f"--table={table}", register=url)
        server.shutdown()


def without_the_other_scripts(gate):
    """Alone it judges a table too, and says that there are no reasons."""
    table = gate.written("unvetted.csv", table_of(*UNVETTED))
    alone = os.path.join(gate.folder, "alone")
    os.mkdir(alone)
    shutil.copy(os.path.join(CONTRIB, SCRIPT), alone)
    words = [sys.executable, os.path.join(alone, SCRIPT), gate.server.url(), f"--table={table}"]
    done = subprocess.run([*words, f"--vetd={gate.program}"], capture_output=True, timeout=SECONDS)
    compare("status and text", (done.returncode, done.stdout.decode()), (1, WITHOUT_REASONS))
    compare("errors", done.stderr.startswith(b"gate: there is not each reason: "), True)


def bad_command_lines(gate):
    for words in ((), (".", "more"), (".", "--table=x"), ("--table=x", "--git=first"), ("--folder",)):
        status, text, errors = run(SCRIPT, *(["http://127.0.0.1:1"] if words else []), *words)
        compare("status, output and errors", (status, text, errors != b""), (2, b"", True))


def the_program_is_needed(gate):
    table = gate.written("vetted.csv", table_of(*VETTED))
    with tempfile.TemporaryDirectory() as folder:
        shutil.copy(os.path.join(CONTRIB, SCRIPT), folder)
        words = [sys.executable, os.path.join(folder, SCRIPT), gate.server.url(), f"--table={table}"]
        done = subprocess.run(words, capture_output=True, timeout=SECONDS, env={"PATH": ""})
    expected = (2, b"", b"gate: vetd is neither on PATH nor named by --vetd\n")
    compare("status, output and errors", (done.returncode, done.stdout, done.stderr), expected)


def tests(program):
    judgements = (vetted, unvetted, conflicting, errors_of_a_runner, a_register_file, an_exemption_with_a_last_day)
    judgements += (one_of_a_served_register, it_only_reads, nothing_to_look_at)
    needs = (what_cargo_says, options_are_handed_on, the_folder_one_is_in, cargo_that_fails, cargo_that_prints_nothing)
    others = (no_judgements, a_register_that_changes, without_the_other_scripts, bad_command_lines)
    with ServedRegister(program) as server:
        server.give("replace-files", **FILES)
        for test in (*judgements, *needs, *others, the_program_is_needed):
            with tempfile.TemporaryDirectory() as folder:
                yield f"gate: {test.__name__}", lambda test=test, folder=folder: test(Gate(program, server, folder))
