"""What `run_serve` asks, with what is replied by the rules of HTTP, row by row."""

from typing import NamedTuple

from product.cases import EDGE, EDGES, LONG_TEXT, MORE_OF_A_PEER, NODES, PARTIES, STANDING, STANDING_CSV
from product.documents import document, entry
from served.server import CSV, TEXT, head_of, reply_of, request_of

NOT_FOUND, NOT_ALLOWED = b"not found\n", b"method not allowed\n"
BAD, LARGE, OTHER = reply_of(400, b"bad request\n"), reply_of(413, b"too large\n"), reply_of(501, b"")
# what is shown of no review
EMPTY = reply_of(200, b"")

# a table by which a root demands both built-in criteria of serde 1.0.1, as it is written again too
TABLE = b"what,n,p,q,r\nnode,0,app,0.1.0,root\nnode,1,serde,1.0.1,third\nedge,0,1,normal,\n"
FULL_RUN = entry("full", criteria="safe-to-run", version="1.0.1")
MOVES = b"""\
       1 2024-05-01 serde                    1.0.1                safe-to-deploy       none        unvetted
       1 2024-05-01 serde                    1.0.1                safe-to-run          none        unvetted
       2 2024-05-01 serde                    1.0.1                safe-to-run          unvetted    full
"""
ADD_ANN = b"""\
POST /commands HTTP/1.1\r
Host: a\r
Content-Length: 38\r
\r
command = "add-member"
member = "ann"
"""
DONE_ANN = b"""\
HTTP/1.1 200 OK\r
Content-Type: text/plain; charset=utf-8\r
Content-Length: 15\r
Connection: close\r
\r
done 1 moves 0
"""
ALREADY_ANN = b"""\
HTTP/1.1 200 OK\r
Content-Type: text/plain; charset=utf-8\r
Content-Length: 8\r
Connection: close\r
\r
already
"""


class HttpExchange(NamedTuple):
    """A request, and its reply."""

    method: str
    target: str
    status: int
    body: bytes
    kind: str = TEXT
    given: bytes | None = None
    fields: tuple = ()
    allow: str | None = None


# asked in turn of a register that holds nothing, each with the length of the body that is replied
IN_TURN = [
    (15, HttpExchange("PUT", "/projects/app", 200, b"done 1 moves 2\n", given=TABLE)),
    (8, HttpExchange("PUT", "/projects/app", 200, b"already\n", given=TABLE)),
    (77, HttpExchange("GET", "/projects/app", 200, TABLE, CSV)),
    (9, HttpExchange("GET", "/class/serde/1.0.1/safe-to-run", 200, b"unvetted\n")),
    (5, HttpExchange("GET", "/class/serde/1.0.2/safe-to-run", 200, b"none\n")),
    (10, HttpExchange("GET", "/nowhere", 404, NOT_FOUND)),
    (19, HttpExchange("DELETE", "/counts", 405, NOT_ALLOWED, allow="GET")),
    (19, HttpExchange("DELETE", "/projects/app", 405, NOT_ALLOWED, allow="GET, PUT")),
    (0, HttpExchange("HEAD", "/counts", 501, b"")),
    (12, HttpExchange("GET", "/counts", 400, b"bad request\n", fields=("Vet-Member: ann", "Vet-Member: ann"))),
]

# what is shown once a pair was demanded and one of its two criteria is met
SHOWN = [
    HttpExchange("GET", "/standing", 200, STANDING.encode()),
    HttpExchange("GET", "/standing/serde", 200, STANDING.encode()),
    HttpExchange("GET", "/standing/log", 200, b""),
    HttpExchange("GET", "/standing.csv", 200, STANDING_CSV.encode(), CSV),
    HttpExchange("GET", "/moves", 200, MOVES),
    HttpExchange("GET", "/desk", 200, b""),
    HttpExchange("GET", "/lapses", 200, b""),
    HttpExchange("GET", "/class/serde/1.0.1/safe-to-run", 200, b"full\n"),
    HttpExchange("GET", "/class/serde/1.0.1/safe-to-deploy", 200, b"unvetted\n"),
    HttpExchange("GET", "/class/serde/1.0.1/read", 200, b"none\n"),
    HttpExchange("GET", "/class/log/1.0.1/safe-to-run", 200, b"none\n"),
    HttpExchange("GET", "/projects/app", 200, TABLE, CSV),
    HttpExchange("GET", "/projects/zed", 404, NOT_FOUND),
]

# each route with its methods, as they are told where another is asked
ROUTES = {
    "/counts": "GET",
    "/standing": "GET",
    "/moves": "GET",
    "/desk": "GET",
    "/lapses": "GET",
    "/standing/serde": "GET",
    "/standing.csv": "GET",
    "/class/serde/1.0.1/safe-to-run": "GET",
    "/files/audits.toml": "GET",
    "/files/config.toml": "GET",
    "/files/imports.lock": "GET",
    "/files/audits": "GET",
    "/projects/app": "GET, PUT",
    "/projects/ser%20de": "GET, PUT",
    "/peers/p": "PUT",
    "/commands": "POST",
}
METHODS = ("GET", "PUT", "POST", "DELETE", "PATCH", "OPTIONS", "TRACE", "get", "X")
# targets without a route, as they stand: a parameter is never empty, and what is no path is none of ours
UNROUTED = [
    *("/", "//counts", "/Counts", "/count", "/counts/", "/counts?", "/counts?all", "/%63ounts", "counts", "*"),
    *("/standing/", "/standing/serde/", "/standing/serde/1.0.1", "/standing.csv/", "/standing.CSV"),
    *("/class", "/class/serde/1.0.1", "/class/serde/1.0.1/", "/class//1.0.1/safe-to-run"),
    *("/class/serde/1.0.1/safe-to-run/", "/files", "/files/", "/files/audits.toml/", "/projects", "/projects/"),
    *("/projects/app/", "/peers", "/peers/", "/peers/p/", "/commands/", "/lapses/", "/lapse", "/Lapses"),
    *("http://127.0.0.1/counts", "/é"),
]
# names of no file
UNNAMED = ("audits", "audits.TOML", "config.lock", "imports.toml", "audits.toml?")

LONG_NAME = "x" * 65
BAD_NAME, BAD_VERSION = b"refused 1 BadName\n", b"refused 2 BadVersion\n"
# parameters that are read as they stand. The first that is bad is told, before the body is looked at
PARAMETERS = [
    HttpExchange("GET", "/standing/ser%20de", 400, BAD_NAME),
    HttpExchange("GET", "/standing/serde?all", 400, BAD_NAME),
    HttpExchange("GET", "/standing/sérde", 400, BAD_NAME),
    HttpExchange("GET", f"/standing/{LONG_NAME}", 400, BAD_NAME),
    HttpExchange("GET", f"/class/a.b/1.0/{LONG_NAME}", 400, BAD_NAME),
    HttpExchange("GET", f"/class/serde/1.0/{LONG_NAME}", 400, BAD_VERSION),
    HttpExchange("GET", f"/class/serde/1.0.1/{LONG_NAME}", 400, BAD_NAME),
    HttpExchange("GET", "/class/serde/1.0.1/safe-to-run?", 200, b"none\n"),
    HttpExchange("GET", "/class/serde/1.0.1%2B1/safe-to-run", 400, BAD_VERSION),
    HttpExchange("GET", "/class/serde/1.0.1+1/safe-to-run", 200, b"none\n"),
    HttpExchange("GET", "/projects/a,b", 400, BAD_NAME),
    HttpExchange("PUT", "/projects/a,b", 400, BAD_NAME, given=b"a,b\n"),
    HttpExchange("PUT", "/projects/a,b", 400, BAD_NAME),
    HttpExchange("PUT", f"/peers/{LONG_NAME}", 400, BAD_NAME, given=b"x =\n"),
    HttpExchange("PUT", "/peers/é", 400, BAD_NAME, given=b"\xff"),
]

# bodies, by what they give a command: what is told of each
BODIES = [
    ("PUT", "/projects/app", EDGE.encode(), "refused 16 UnknownNode 4"),
    ("PUT", "/projects/app", PARTIES.encode(), "refused 17 TwoParties 3"),
    ("PUT", "/projects/app", b"a,b\n", "refused 27 CsvRefused 1"),
    ("PUT", "/projects/app", b"what,n,p,q,r\n", "refused 27 CsvRefused 2"),
    ("PUT", "/projects/app", b"what,n,p,q,r\n\xff\n", "refused 27 CsvRefused 2"),
    ("PUT", "/projects/app", b"", "refused 27 CsvRefused 1"),
    ("PUT", "/projects/app", None, "refused 27 CsvRefused 1"),
    ("PUT", "/projects/app", NODES.encode(), "refused 18 TooLarge nodes"),
    ("PUT", "/projects/app", EDGES.encode(), "refused 18 TooLarge edges"),
    ("PUT", "/projects/app", TABLE, "already"),
    ("PUT", "/peers/p", b"x =\n", "refused 26 TomlRefused"),
    ("PUT", "/peers/p", b"\xff", "refused 26 TomlRefused"),
    ("PUT", "/peers/p", b"audits = 1\n", "refused 28 FieldRefused top audits"),
    ("PUT", "/peers/p", b"[[audits.serde]]\nversion = 1\n", "refused 28 FieldRefused audits.serde[0] criteria"),
    ("PUT", "/peers/p", MORE_OF_A_PEER.encode(), "refused 18 TooLarge peer-criteria"),
    ("PUT", "/peers/p", b"", "refused 13 UnknownPeer"),
    ("PUT", "/peers/p", None, "refused 13 UnknownPeer"),
    ("POST", "/commands", None, "refused 28 FieldRefused command command"),
    ("POST", "/commands", b"\xff", "refused 26 TomlRefused"),
    ("POST", "/commands", LONG_TEXT[1][1], "refused 18 TooLarge text"),
]

# who finishes review 1, which ann has, in turn: the fields, what is reviewed, and what is told
BY_MEMBERS = [
    ([], {"version": "1.0.1"}, "refused 28 FieldRefused head vet-member"),
    (["Vet-Member:"], {"version": "1.0.1"}, "refused 1 BadName"),
    (["Vet-Member: b b"], {"version": "1.0.1"}, "refused 1 BadName"),
    (["Vet-Member: b\udcff"], {"version": "1.0.1"}, "refused 1 BadName"),
    ([f"Vet-Member: {LONG_NAME}"], {"version": "1.0"}, "refused 2 BadVersion"),
    (["Vet-Member: zed"], {"version": "1.0.1"}, "refused 19 UnknownMember"),
    (["Vet-Member: bob"], {"version": "1.0.1"}, "refused 22 NotYours"),
    (["Vet-Member: ann"], {"delta": "1.0.0 -> 1.0.2"}, "refused 23 WrongTarget"),
    (["Member: bob", "vet-MEMBER: \t ann "], {"version": "1.0.1"}, "done 6 number 1 moves 2"),
    (["VET-MEMBER: ann"], {"version": "1.0.1"}, "refused 21 ReviewClosed"),
]

DESK, COUNTS_LINE = "GET /desk HTTP/1.1", "GET /counts HTTP/1.1"
FIELDS = [f"F{number}: x" for number in range(65)]
TWICE = ("Vet-Member: a", "vet-member: a")
MEMBER = document("add-member", member="ann")


def padded(count, *lines):
    """A head of so many bytes."""
    return head_of(*lines, "A: " + "x" * (count - len(head_of(*lines, "A: "))))


# heads, and bodies that are not whole, each with its reply: no head, or too much of one
HEADS = [
    (b"nonsense\r\n\r\n", BAD),
    (b"\r\n\n" + head_of("GET /desk HTTP/1.0"), EMPTY),
    (b"GET /desk HTTP/1.1\nHost: a\n\n", EMPTY),
    (head_of("GET /desk HTTP/1.2"), BAD),
    (head_of("GET /desk HTTP/2.0"), BAD),
    (head_of("GET /desk"), BAD),
    (head_of("GET  /desk HTTP/1.1"), BAD),
    (head_of("GET /de\udcffsk HTTP/1.1"), BAD),
    (head_of("G(T /desk HTTP/1.1"), BAD),
    (head_of(DESK, "Bad name: x"), BAD),
    (head_of(DESK, ": x"), BAD),
    (head_of(DESK, "A: x", " folded"), BAD),
    (head_of(DESK, *FIELDS[:64]), EMPTY),
    (head_of(DESK, *FIELDS), LARGE),
    (head_of("HEAD /desk HTTP/1.1", *FIELDS), LARGE),
    (padded(16_384, DESK), EMPTY),
    (padded(16_385, DESK), LARGE),
    # fields that aren't looked at
    (head_of(DESK, "Expect: 100-continue", "Host: a", "Host: b", "Connection: keep-alive"), EMPTY),
    # what is not done comes before what is said of lengths and members, and before the body
    (head_of("HEAD /desk HTTP/1.1", "Content-Length: x", *TWICE), OTHER),
    (head_of("HEAD /nope HTTP/1.1", "Content-Length: 5"), OTHER),
    (head_of(DESK, "Transfer-Encoding: chunked", "Content-Length: x"), OTHER),
    (head_of("POST /commands HTTP/1.1", "tRANSFER-eNCODING:", "Content-Length: 8388609"), OTHER),
    # lengths, of any case
    (head_of(COUNTS_LINE, "Content-Length: 0", "content-length: 0"), BAD),
    (head_of(COUNTS_LINE, "CONTENT-LENGTH: 8388609", "content-LENGTH: 8388609"), BAD),
    *((head_of(COUNTS_LINE, f"Content-Length: {text}"), BAD) for text in ("", "+5", "-0", "5 5", "0x5", "5,", "５")),
    (head_of(COUNTS_LINE, "Content-Length: " + "0" * 20), BAD),
    (head_of(COUNTS_LINE, "Content-Length: " + "9" * 20), BAD),
    (head_of(COUNTS_LINE, "Content-Length: " + "9" * 19), LARGE),
    (head_of(COUNTS_LINE, "content-length: 8388609"), LARGE),
    (head_of(COUNTS_LINE, "Content-Length: 8388609", *TWICE), LARGE),
    (head_of(COUNTS_LINE, "Content-Length: 5", *TWICE), BAD),
    (head_of("GET /nope HTTP/1.1", *TWICE), BAD),
    (head_of("GET /nope HTTP/1.1", "Vet-Member:", "VET-MEMBER:"), BAD),
    (head_of(DESK, f"Content-Length: {5:019}") + b"12345", EMPTY),
    (head_of(DESK, "cONTENT-lENGTH:\t8388608 ") + b"x" * 8_388_608, EMPTY),
    (head_of("POST /commands HTTP/1.1", f"CONTENT-length: {len(MEMBER)}") + MEMBER, reply_of(200, b"done 1 moves 0\n")),
]

# what ends before it is whole: the head, or the body, which goes before the route, its method and its parameters
ENDED = [
    (b"", BAD),
    (b"\r\n", BAD),
    (head_of(DESK)[:-1], BAD),
    (padded(16_386, DESK)[:16_384], BAD),
    (padded(16_386, DESK)[:16_385], LARGE),
    (request_of("POST", "/nope", b"five")[:-1], BAD),
    (request_of("DELETE", "/counts", b"five")[:-1], BAD),
    (request_of("PUT", "/peers/ser%20de", b"five")[:-1], BAD),
    (request_of("PUT", "/projects/app", TABLE)[:-1], BAD),
    (request_of("POST", "/commands", MEMBER)[:-1], BAD),
]
