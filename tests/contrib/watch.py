"""The script `watch`: over registers that accept commands, one that is shut and comes back by what the script runs, and
servers that answer something else, or nothing. What it runs here makes a file."""

import os
import resource
import socket
import subprocess
import tempfile
import threading
from functools import partial
from http.server import BaseHTTPRequestHandler, HTTPServer

from contrib.scripts import CONTRIB, compare
from product.documents import document, entry
from product.register import FOLDER, Register
from served.server import Server, free_port, request_of

SCRIPT = os.path.join(CONTRIB, "watch")
SECONDS = 60
# how much a shut register's file could still grow, how long the notes are that fill it, and how many it takes at most
ROOM, NOTES, ENTRIES = 300_000, 60_000, 24
SHUT = b"refused 30 StoreRefused\n"
POSTED = "/commands", b'command = "add-member"\nmember = "ann"\n'
# a status and a body, and whether the script runs something then
ANSWERS = [
    (200, b"already\n", 0, False),
    (503, SHUT, 1, True),
    (503, b"refused 29 NoMemory\n", 1, False),
    (503, b"<html><h1>503 Service Temporarily Unavailable</h1></html>\n", 1, False),
    (409, b"refused 30 StoreRefused\n", 1, False),
    (502, b"<html><h1>502 Bad Gateway</h1></html>\n", 1, False),
    (404, b"not found\n", 1, False),
]
# in place of `curl`, one that gives up waiting
GIVES_UP = '#!/bin/sh\necho "$*" >"$ASKED"\nexit 28\n'


class Watched:
    """A run of the script on a register, and the file that it makes if it runs something."""

    def __init__(self, folder):
        self.file = os.path.join(folder, "run for it")

    def found(self, url, member="ann", **how):
        """Its status, its errors, and whether it ran its command. It prints nothing else."""
        words = [SCRIPT, url, member, "touch", self.file]
        done = subprocess.run(words, stdin=subprocess.DEVNULL, capture_output=True, timeout=SECONDS, **how)
        compare("output", done.stdout, b"")
        return done.returncode, done.stderr.decode(), os.path.exists(self.file)


def url_of(server):
    return f"http://127.0.0.1:{server.opened()}"


def in_a_folder(test):
    def with_folder(program):
        with tempfile.TemporaryDirectory(dir=FOLDER) as folder:
            test(program, folder)

    with_folder.__name__ = test.__name__
    return with_folder


@in_a_folder
def a_register_that_accepts_commands(program, folder):
    """Nothing changes in it, but for a member who was missing."""
    watched = Watched(folder)
    with Server(5, program=(program,)) as server:
        server.posted(document("add-member", member="ann"), "done 1 moves 0")
        compare("who is there", watched.found(url_of(server)), (0, "", False))
        compare("a url with a slash", watched.found(url_of(server) + "/"), (0, "", False))
        compare("who is missing", watched.found(url_of(server), "bob"), (0, "", False))
        server.posted(document("add-member", member="cid"), "done 3 moves 0")


def fill(server):
    """Adds entries until the file can't hold more, so that the commit fails."""
    for place in range(ENTRIES):
        given = entry("full", criteria="safe-to-run", version=f"2.0.{place}", notes="n" * NOTES)
        if server.exchange(request_of("POST", "/commands", given)).endswith(SHUT):
            return
    raise AssertionError(f"{ENTRIES} entries were added to a file that can't grow")


@in_a_folder
def a_register_that_is_shut_is_restarted(program, folder):
    """It still answers reads, and what is run here ends the server. The next one on its file accepts commands."""
    watched = Watched(folder)
    register = Register(program, os.path.join(folder, "register.db")).make()
    register.told(document("add-member", member="ann"), "done 1 moves 0")
    most = ROOM + max(os.path.getsize(it.path) for it in os.scandir(folder))
    # Python ignores the signal of a file that is too long, and so the program does
    server = Server(ENTRIES + 9, "--db", register.path, program=(program,), restore_signals=False)
    try:
        server.__enter__()
        resource.prlimit(server.process.pid, resource.RLIMIT_FSIZE, (most, most))
        fill(server)
        reads = server.exchange(request_of("GET", "/counts"))
        compare("a read", reads.split(b"\r\n")[0], b"HTTP/1.1 200 OK")
        url = url_of(server)
        told = f"watch: {url} accepts no commands, so this is run: touch {watched.file}\n"
        compare("it is shut", watched.found(url), (1, told, True))
        killing = [SCRIPT, url, "ann", "kill", str(server.process.pid)]
        compare("status", subprocess.run(killing, capture_output=True, timeout=SECONDS).returncode, 1)
        server.process.wait(SECONDS)
    finally:
        server.killed()
    os.remove(watched.file)
    with Server(1, "--db", register.path, program=(program,)) as server:
        compare("once it is restarted", watched.found(url_of(server)), (0, "", False))


@in_a_folder
def a_member_that_is_no_name(program, folder):
    with Server(2, program=(program,)) as server:
        for member, told in (("a b", "refused 1 BadName"), ('a"', "refused 26 TomlRefused")):
            url = url_of(server)
            expected = f"watch: {url} answered: {told} 400\n"
            compare(member, Watched(folder).found(url, member), (1, expected, False))


class Answers(BaseHTTPRequestHandler):
    """Each request has the server's answer."""

    def log_message(self, *_):
        pass

    def do_POST(self):
        status, body = self.server.answer
        self.server.asked.append((self.path, self.rfile.read(int(self.headers["Content-Length"]))))
        self.send_response(status)
        self.send_header("Content-Length", str(len(body)))
        self.end_headers()
        self.wfile.write(body)


def another_answer(status, body, expected, runs, _):
    with tempfile.TemporaryDirectory() as folder, HTTPServer(("127.0.0.1", 0), Answers) as server:
        server.answer, server.asked = (status, body), []
        threading.Thread(target=server.handle_request, daemon=True).start()
        found, errors, has_run = Watched(folder).found(f"http://127.0.0.1:{server.server_address[1]}")
        compare(f"{status} {body}: {errors}", (found, has_run), (expected, runs))
        compare("errors", errors.startswith("watch: ") and errors.count("\n") == 1, expected != 0)
        compare("what is posted", server.asked, [POSTED])


@in_a_folder
def nobody_answers(_, folder):
    port = free_port()
    found, errors, has_run = Watched(folder).found(f"http://127.0.0.1:{port}")
    compare(errors, (found, has_run, errors.count("\n"), str(port) in errors), (1, False, 1, True))


@in_a_folder
def an_end_without_an_answer(_, folder):
    with socket.create_server(("127.0.0.1", 0)) as server:
        threading.Thread(target=lambda: server.accept()[0].close(), daemon=True).start()
        found, errors, has_run = Watched(folder).found(f"http://127.0.0.1:{server.getsockname()[1]}")
        compare(errors, (found, has_run, errors != ""), (1, False, True))


@in_a_folder
def no_answer_within_a_minute(_, folder):
    """`curl` is told to wait so long, and its giving up runs nothing."""
    asked = os.path.join(folder, "asked")
    with open(os.path.join(folder, "curl"), "w", encoding="utf-8") as file:
        file.write(GIVES_UP)
    os.chmod(file.name, 0o755)
    env = dict(os.environ, PATH=os.pathsep.join([folder, os.environ["PATH"]]), ASKED=asked)
    compare("status", Watched(folder).found("http://127.0.0.1:8080", env=env), (1, "", False))
    with open(asked, encoding="utf-8") as file:
        compare("how long it waits", " --max-time 60 " in file.read(), True)


def bad_words(words, _):
    done = subprocess.run([SCRIPT, *words], stdin=subprocess.DEVNULL, capture_output=True, timeout=SECONDS)
    compare(words, (done.returncode, done.stdout, done.stderr != b""), (2, b"", True))


def tests(program):
    program = os.path.abspath(program)
    alone = (
        a_register_that_accepts_commands,
        a_register_that_is_shut_is_restarted,
        a_member_that_is_no_name,
        nobody_answers,
        an_end_without_an_answer,
        no_answer_within_a_minute,
    )
    for test in alone:
        yield f"watch: {test.__name__}", partial(test, program)
    for status, body, expected, runs in ANSWERS:
        yield f"watch: {status} {body[:30]}", partial(another_answer, status, body, expected, runs, program)
    for words in ((), ("http://127.0.0.1:8080",), ("http://127.0.0.1:8080", "ann")):
        yield f"watch: no words: {words}", partial(bad_words, words, program)
