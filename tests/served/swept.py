"""The requests whose allocations are refused in turn: one to each route, some for the texts of worked examples, an
accepted one of each command word, and the documents of the example that shows each refusal."""

from typing import NamedTuple

from product.cases import COUNTS, LAPSED_LINE, MOVES, REVIEW, STANDING, STANDING_CSV
from product.cases import REFUSED as EXAMPLES_OF_REFUSALS
from product.documents import LINES, Given, demand_of, document, entry, given_of, table_of
from product.examples import examples
from product.sweeps import CONFIG, IMPORTS, MADE, PEER
from served.cases import ADD_ANN, ALREADY_ANN, DONE_ANN, FULL_RUN, TABLE
from served.server import CSV, head_of, reply_of, request_of, status_of

# about how many allocations are refused between the start and the end of a request; more for a few requests
BETWEEN, MANY_BETWEEN = 18, 50
# what the next client asks a register in memory for, and the reply if the project was not loaded, and if it was
LOOK, NOT_FOUND, FOUND = request_of("GET", "/projects/app"), reply_of(404, b"not found\n"), reply_of(200, TABLE, CSV)


class Swept(NamedTuple):
    """A request: its bytes, the status and the beginning of the body of its reply, and whether the register is in a
    file. Allocations are counted from its connection on, or from the start of the program. The register in the file was
    given the documents in `made`. Between the first and the last allocations about `between` are refused. If the
    register is in memory, the next client asks for `look`, and gets the reply `done` or `not_done`."""

    name: str
    given: bytes
    status: int
    told: bytes
    in_file: bool = True
    once_accepted: bool = True
    made: tuple = tuple(MADE)
    between: int = BETWEEN
    look: bytes = LOOK
    not_done: bytes = NOT_FOUND
    done: bytes = FOUND

    def commits(self):
        """Whether it changes the register, and so commits."""
        return self.told.startswith(b"done ")

    def next_reply(self, is_done):
        """The reply to the next client if the request was done, or if it changed nothing. If the register is in a file,
        that client's command is done."""
        if not self.in_file:
            return self.done if is_done else self.not_done
        return reply_of(200, b"done %d moves 0\n" % (len(self.made) + is_done + 1))


def swept(method, target, status, told, body=None, fields=(), name=None, **how):
    name = name or f"{method} {target}"
    return Swept(f"serve {name}, {status}", request_of(method, target, body, fields), status, told, **how)


def posted(name, text, status, told, fields=(), **how):
    return swept("POST", "/commands", status, told, text, fields, name, **how)


# for a register as `product/sweeps.py` makes it, after six commands
SHOWN = {
    "/counts": b"class ",
    "/standing": b"serde ",
    "/standing/serde": b"serde ",
    "/standing.csv": b"package,version,criterion,class\nserde,1.0.1,",
    "/moves": b"       1 2024-05-01 serde ",
    "/desk": b"       1 2024-05-01 serde ",
    "/lapses": b"",
    "/class/serde/1.0.1/safe-to-run": b"exempted\n",
    "/files/audits.toml": b"",
    "/files/config.toml": b"",
    "/files/imports.lock": b"",
    "/projects/app": TABLE,
}
MORE = table_of("1.0.1", "1.0.2").encode()
HELD = document("add-member", member="ann")
PEERS_FILE = document("import-peer", peer="p", audits=PEER)
THREE_FILES = document("replace-files", audits="", config=CONFIG, imports=IMPORTS)
UNKNOWN = '[[audits.serde]]\ncriteria = "nope"\nversion = "1.0.0"\n'
NO_CRITERION = document("replace-files", audits=UNKNOWN, config=CONFIG, imports=IMPORTS)
RECORDS = [{"version": "1.0.1", "when": "2024-01-01", "user-id": 5, "user-login": "ann"}]

# for each command word: a document that is accepted, the answer after its step, and the documents before it
X = document("set-criterion", name="x")
ONLY_RUN = document("set-policy", policy="app", criteria="safe-to-run")
BOB = document("add-member", member="bob")
# an exemption whose last day is over on the day of the server
DATED = Given("2024-04-30", entry("exemption", version="1.0.1", last_day="2024-04-30"))
ACCEPTED = {
    "set-criterion": (document("set-criterion", name="x", description="Read.", implies="safe-to-run"), "moves 0"),
    "remove-criterion": (document("remove-criterion", name="x"), "moves 0", X),
    "add-entry": (entry("full", version="1.0.1"), "number 2 moves 2"),
    "drop-entry": (document("drop-entry", number=1), "moves 1"),
    "set-policy": (ONLY_RUN, "moves 1"),
    "drop-policy": (document("drop-policy", policy="app"), "moves 1", ONLY_RUN),
    "set-peer": (document("set-peer", peer="p", url="u", criteria_map={"c": "safe-to-deploy"}), "moves 0"),
    "drop-peer": (document("drop-peer", peer="p"), "moves 0"),
    "import-peer": (PEERS_FILE, "moves 1"),
    "set-publishers": (document("set-publishers", package="serde", records=RECORDS), "moves 0"),
    "load-project": (demand_of("1.0.1", "1.0.2"), "moves 2"),
    "drop-project": (document("drop-project", project="app"), "moves 2"),
    "replace-files": (THREE_FILES, "moves 1"),
    "set-day": (document("set-day"), "moves 1", DATED),
    "close-period": (document("close-period"), "moves 0"),
    "add-member": (BOB, "moves 0"),
    "open-review": (
        document("open-review", package="serde", version="1.0.1", criteria="safe-to-run"), "number 2 moves 0"
    ),
    "assign-review": (document("assign-review", review=1, member="bob"), "moves 0", BOB),
    "finish-review": (document("finish-review", review=1, version="1.0.1"), "number 2 moves 2"),
    "withdraw-review": (document("withdraw-review", review=1), "moves 0"),
}
OF_A_MEMBER = ("finish-review", "withdraw-review")
# words in lines of examples that are not command words
OF_LINES = {"demand", "add-audit"}


def accepted():
    """A request for each command word."""
    for word in sorted(LINES.keys() - OF_LINES):
        given, told, *before = ACCEPTED[word]
        made = (*MADE, *before)
        fields = ["Vet-Member: ann"] if word in OF_A_MEMBER else []
        yield posted(word, given, 200, f"done {len(made) + 1} {told}\n".encode(), fields, made=made)


def documents_with_refusals():
    """The documents of the example with a line for each refusal, each after the accepted ones before it."""
    made = (demand_of("1.0.1"), FULL_RUN)
    for number, (given, line) in enumerate(EXAMPLES_OF_REFUSALS["each_refusal_has_its_line"], 1):
        yield posted(f"document {number}", given, status_of(line), f"{line}\n".encode(), made=made)
        if line.startswith("done "):
            made = (*made, given)


def made_by(name):
    """The commands of a worked example that are done."""
    return tuple(given_of(line) for line, told in dict(examples())[name].told if told.startswith("done "))


# the texts of worked examples, each with the commands that led to it
DROPPED, FINISHED = made_by("counts_after_a_dropped_project"), made_by("a_review_is_finished_by_its_member")
LAPSED = made_by("an_exemption_lapses")
TEXTS = {
    "/counts": (COUNTS, DROPPED),
    "/moves": (MOVES, DROPPED),
    "/standing": (STANDING, DROPPED[:2]),
    "/standing.csv": (STANDING_CSV, DROPPED[:2]),
    "/desk": (REVIEW, FINISHED),
    "/lapses": (LAPSED_LINE, LAPSED),
}

# a member who is posted to a register in memory that holds nothing, and then again
IN_MEMORY = {"in_file": False, "made": ()}
POSTED_TWICE = Swept(
    "serve a member posted twice, from the start", ADD_ANN, 200, b"done 1 moves 0\n", **IN_MEMORY,
    once_accepted=False, look=ADD_ANN, not_done=DONE_ANN, done=ALREADY_ANN,
)
REQUESTS = [
    *(swept("GET", target, 200, told) for target, told in SHOWN.items()),
    *(
        swept("GET", target, 200, text.encode(), name=f"a worked text, {target}", made=made)
        for target, (text, made) in TEXTS.items()
    ),
    swept("PUT", "/projects/app", 200, b"done 7 moves 2\n", MORE),
    swept("PUT", "/peers/p", 200, b"done 7 moves 1\n", PEER.encode()),
    *accepted(),
    posted("what is held", HELD, 200, b"already\n"),
    *(given._replace(between=MANY_BETWEEN) for given in (
        # what is compared with all that is held of its kind
        posted("three files that are held", THREE_FILES, 200, b"already\n", made=(*MADE, THREE_FILES)),
        swept("PUT", "/peers/p", 200, b"already\n", PEER.encode(), name="a held file", made=(*MADE, PEERS_FILE)),
        swept("PUT", "/projects/app", 200, b"already\n", TABLE, name="a held project"),
        # what is refused once its three files were read
        posted("files of no criterion", NO_CRITERION, 409, b"refused 6 UnknownCriterion nope\n"),
    )),
    *documents_with_refusals(),
    swept("PUT", "/projects/app", 400, b"refused 27 CsvRefused 1\n", b"a,b\n"),
    swept("PUT", "/peers/q", 409, b"refused 13 UnknownPeer\n", b""),
    swept("GET", "/standing/ser%20de", 400, b"refused 1 BadName\n"),
    swept("GET", "/projects/zed", 404, b"not found\n"),
    swept("GET", "/nowhere", 404, b"not found\n"),
    swept("DELETE", "/counts", 405, b"method not allowed\n"),
    swept("GET", "/counts", 400, b"bad request\n", None, ["Vet-Member: a", "Vet-Member: b"]),
    swept("HEAD", "/counts", 501, b""),
    Swept("serve too much, 413", head_of("GET / HTTP/1.1", "Content-Length: 8388609"), 413, b"too large\n"),
    swept("PUT", "/projects/app", 200, b"done 7 moves 2\n", MORE, name="from the start", once_accepted=False),
    # a register in memory, which holds nothing
    swept("PUT", "/projects/app", 200, b"done 1 moves 2\n", TABLE, name="in memory", **IN_MEMORY),
    swept(
        "PUT", "/projects/app", 200, b"done 1 moves 2\n", TABLE, name="in memory, from the start", **IN_MEMORY,
        once_accepted=False,
    ),
    POSTED_TWICE,
]
