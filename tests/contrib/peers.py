"""The script `sync-peers`, with peers that a server of this process answers for: what is imported and printed, what is
unchanged, and files that are not fetched."""

import os
import socketserver
import tempfile
import threading
import time
from functools import partial
from http.server import BaseHTTPRequestHandler

from contrib.scripts import bad_words, compare, run
from product.documents import document, table_of
from product.register import FOLDER, Register
from served.server import Server, request_of

SCRIPT, DAY = "sync-peers", "2024-05-01"
# so long that no other file takes it on a busy machine
LIMIT, SECONDS = 2_000, 5
FULL = '[[audits.serde]]\ncriteria = "{}"\nversion = "{}"\n'
REVIEWED = '[criteria.reviewed]\ndescription = "Read."\nimplies = "safe-to-deploy"\naggregated-from = "{}"\n'
DEPLOY, RUN = (FULL.format(criterion, "1.0.0") for criterion in ("safe-to-deploy", "safe-to-run"))
# texts that a merged file has to keep
HARD = 'notes = """\n\\"\\\\ \\u0000\\u007f \u00e9"""\nwho = ["Ann \\"A\\" <a>", "Bob"]\nimportable = true\n'
HARD += "extra = [1.5, {a = 2023-01-02}]\n"
WINDOW = '[[wildcard-audits.serde]]\ncriteria = "safe-to-run"\nuser-id = 5\nstart = 2023-01-01\nend = "2023-12-31"\n'
# what is not fetched, by the end of its url, and what is said of it
NOT_FETCHED = {
    "/none": "404",
    "/long": f"has more than {LIMIT} bytes",
    "/endless": f"has more than {LIMIT} bytes",
    "/slow": f"takes more than {SECONDS} seconds",
    "/cut": "cut short",
    "/to-a-file": "not allowed",
    "/to-ftp": "unknown url type",
    "/latin": "utf-8",
    "/no-toml": "refused 26 TomlRefused",
    "/bad-version": "refused 28 FieldRefused audits.serde[0] version",
}


class Answers(BaseHTTPRequestHandler):
    """Each path of the server's `texts` has that text, and others answer as they are named."""

    def log_message(self, *_):
        pass

    def head(self, status, **fields):
        self.send_response(status)
        for name, value in fields.items():
            self.send_header(name.replace("_", "-"), value)
        self.end_headers()

    def do_GET(self):
        redirects = {"/to-a-file": "file:///etc/passwd", "/to-ftp": "ftp://127.0.0.1/a", "/moved": "/whole"}
        text = self.server.texts.get(self.path)
        if self.path in redirects:
            self.head(302, Location=redirects[self.path])
        elif self.path in ("/slow", "/endless"):
            self.head(200)
            self.trickle(0.1 if self.path == "/slow" else 0)
        elif text is None:
            self.head(404)
        else:
            self.head(200, Content_Length=len(text) + (self.path == "/cut"))
            self.wfile.write(text)

    def trickle(self, seconds):
        try:
            while not self.server.is_over:
                self.wfile.write(b"#" * (1 if seconds else 1_000))
                time.sleep(seconds)
        except OSError:
            pass


class Peers(socketserver.ThreadingTCPServer):
    daemon_threads = True

    def __init__(self):
        super().__init__(("127.0.0.1", 0), Answers)
        self.is_over = False
        self.texts = {"/long": b"#" * (LIMIT + 1), "/longest": (DEPLOY + LIMIT * "#")[:LIMIT].encode()}
        self.texts |= {"/cut": DEPLOY.encode(), "/latin": b"# \xe9\n", "/no-toml": b"x ="}
        self.texts |= {"/bad-version": FULL.format("x", "1").encode(), "/whole": DEPLOY.encode()}
        threading.Thread(target=self.serve_forever, daemon=True).start()

    def __exit__(self, *fault):
        self.is_over = True
        self.shutdown()
        super().__exit__(*fault)

    def url(self, path):
        return f"http://127.0.0.1:{self.server_address[1]}{path}"


def synced(*words, status=0, errors=()):
    """What is printed. Each line of the errors has one of these texts, in their order."""
    found, text, told = run(SCRIPT, *words, env=dict(os.environ, no_proxy="*"), timeout=600)
    compare(f"status of {told.decode()}", found, status)
    lines = told.decode().splitlines()
    compare(f"errors {lines}", len(lines), len(errors))
    for line, expected in zip(lines, errors):
        compare(f"{expected} in {line}", expected in line, True)
    return text.decode()


class OfAFile:
    """A register in a file that demands serde 1.0.0, and what the script is given of it."""

    def __init__(self, program):
        self.folder = tempfile.TemporaryDirectory(dir=FOLDER)
        self.register = Register(program, os.path.join(self.folder.name, "register.db")).make()
        self.words = [self.register.path, "--vetd", program, "--day", DAY]

    def __enter__(self):
        self.give(document("load-project", project="app", csv=table_of("1.0.0")), "done 1 moves 2")
        return self

    def __exit__(self, *_):
        self.folder.cleanup()

    def give(self, text, line):
        self.register.told(text, line)

    def exported(self, kind):
        return self.register.export(kind)


class OfAServer:
    """The same of a register that is served."""

    FILES = {"config": "config.toml", "imports": "imports.lock"}

    def __init__(self, program):
        self.server = Server(1_000_000, program=(program,), day=DAY)
        self.words = [f"http://127.0.0.1:{self.server.port}/"]

    def __enter__(self):
        self.server.__enter__()
        self.give(document("load-project", project="app", csv=table_of("1.0.0")), "done 1 moves 2")
        return self

    def __exit__(self, *_):
        self.server.killed()

    def give(self, text, line):
        self.server.posted(text, line)

    def exported(self, kind):
        reply = self.server.exchange(request_of("GET", f"/files/{self.FILES[kind]}"))
        return reply.partition(b"\r\n\r\n")[2].decode()


def set_peer(peer, *urls):
    return document("set-peer", peer=peer, url=list(urls), criteria_map={"reviewed": "safe-to-deploy"})


def move(step, criterion, before, after):
    return f"{step:8} {DAY} {'serde':24} {'1.0.0':20} {criterion:20} {before:11} {after}\n"


def what_changes_is_imported(kind, program):
    """At first all of it, nothing the second time, and then what a peer has changed."""
    with Peers() as peers, kind(program) as it:
        it.give(set_peer("quarry", peers.url("/one")), "done 2 moves 0")
        it.give(set_peer("meadow", peers.url("/moved")), "done 3 moves 0")
        peers.texts["/one"] = RUN.encode()
        full = [move(4, criterion, "unvetted", "full") for criterion in ("safe-to-deploy", "safe-to-run")]
        compare("first", synced(*it.words), "".join(["meadow: done 4 moves 2\n", *full, "quarry: done 5 moves 0\n"]))
        compare("again", synced(*it.words), "meadow: already\nquarry: already\n")
        peers.texts["/whole"] = RUN.encode()
        changed = move(6, "safe-to-deploy", "full", "unvetted")
        compare("then", synced(*it.words, "meadow"), f"meadow: done 6 moves 1\n{changed}")


def others_are_imported_nevertheless(kind, program):
    with Peers() as peers, kind(program) as it:
        errors = []
        for place, (path, told) in enumerate(NOT_FETCHED.items()):
            it.give(set_peer(f"b{place}", peers.url(path)), f"done {place + 2} moves 0")
            errors.append(f"sync-peers: b{place}: ")
        count = len(NOT_FETCHED)
        it.give(set_peer("a", peers.url("/longest")), f"done {count + 2} moves 0")
        it.give(set_peer("c"), f"done {count + 3} moves 0")
        it.give(set_peer("d", "file:///etc/passwd"), f"done {count + 4} moves 0")
        names = ["a", *(f"b{place}" for place in range(count)), "c", "d"]
        errors = [*NOT_FETCHED.values(), "no url", "is not an address of http"]
        words = [*it.words, "--limit", str(LIMIT), "--seconds", str(SECONDS)]
        printed = synced(*words, *names, status=1, errors=errors)
        full = [move(count + 5, criterion, "unvetted", "full") for criterion in ("safe-to-deploy", "safe-to-run")]
        compare("output", printed, "".join([f"a: done {count + 5} moves 2\n", *full]))


def several_files_are_one(kind, program):
    """With the criteria, the entries of each kind, and what is hard to write."""
    with Peers() as peers, kind(program) as it:
        it.give(set_peer("quarry", peers.url("/one"), peers.url("/two")), "done 2 moves 0")
        reviewed = FULL.format("reviewed", "1.0.0")
        peers.texts["/one"] = (REVIEWED.format("one") + reviewed + HARD).encode()
        peers.texts["/two"] = (REVIEWED.format("two") + FULL.format("reviewed", "1.0.1") + WINDOW).encode()
        full = [move(3, criterion, "unvetted", "full") for criterion in ("safe-to-deploy", "safe-to-run")]
        compare("first", synced(*it.words), "".join(["quarry: done 3 moves 2\n", *full]))
        compare("again", synced(*it.words), "quarry: already\n")
        whole = REVIEWED.format("one") + reviewed + HARD + FULL.format("reviewed", "1.0.1") + WINDOW
        it.give(document("import-peer", peer="quarry", audits=whole), "already")
        peers.texts["/two"] = REVIEWED.format("one").replace("Read", "Not read").encode()
        synced(*it.words, status=1, errors=["do not agree on the criterion reviewed"])
        peers.texts["/two"] = b"audits.serde = 1"
        synced(*it.words, status=1, errors=["quarry: "])


def no_such_peer(kind, program):
    with kind(program) as it:
        synced(*it.words, "zed", status=1, errors=["the register has no peer zed"])
        compare("no peers", synced(*it.words), "")


def no_register(program):
    with tempfile.TemporaryDirectory() as folder:
        file = os.path.join(folder, "register.db")
        synced(file, "--vetd", program, status=1, errors=["refused 31 NotARegister"])
        compare("files", os.listdir(folder), [])
    synced("http://127.0.0.1:1", status=1, errors=["refused"])


def tests(program):
    program = os.path.abspath(program)
    for kind in (OfAFile, OfAServer):
        for test in (
            what_changes_is_imported,
            others_are_imported_nevertheless,
            several_files_are_one,
            no_such_peer,
        ):
            yield f"sync-peers: {test.__name__} {kind.__name__}", partial(test, kind, program)
    yield "sync-peers: no_register", partial(no_register, program)
    for words in ((), ("register.db", "--limit", "0"), ("register.db", "--seconds", "-1")):
        yield f"sync-peers: no words: {words}", partial(bad_words, SCRIPT, *words)
