"""The script `page`: each pair that fails, its reason and the counts, as Python's `html.parser` reads them of the
program's own register, and of reports that were written by hand."""

import contextlib
import csv
import os
import re
import shutil
import socketserver
import subprocess
import sys
import tempfile
import threading
from functools import partial
from html.parser import HTMLParser
from http.server import BaseHTTPRequestHandler

from contrib.scripts import CONTRIB, EXAMPLES, bad_words, compare, printed, read, refused
from product.documents import document
from served.server import Server, request_of

CLASSES = ("conflicting", "unvetted", "exempted", "partial", "full")
FAILING = CLASSES[:2]
DAY = "2024-05-01"
# in place of the script that gives reasons: this one says of each pair who it is, in words that are marks of HTML
REASONS = """import csv, sys, urllib.request
with urllib.request.urlopen(sys.argv[1] + "/standing.csv") as reply:
    rows = list(csv.reader(reply.read().decode().splitlines()))
assert sys.argv[2:] == ["--failing"]
for package, version, criterion, word in rows[1:]:
    if word in ("conflicting", "unvetted"):
        print(f"{package} {version} {criterion}: {word}\\n    <of> {package}\\n    & {criterion} \\"{version}\\"")
"""
# a name that is HTML
ODD = "a<i>&amp;\"'</i>b"
# what is neither loaded nor run
ABSENT = re.compile(r"<(script|link|img|iframe|object|base|form)\b|\b(src|href|on\w+)=|url\(|@import|@font-face", re.I)
SECONDS = 60
# the second example of the reports in docs/definitions.md, with a violation more
BY_HAND = {
    "counts": """class            first   arrived  departed       now
conflicting          0         1         0         1
full                 1         1         2         0
partial              0         0         0         0
exempted             0         1         1         0
unvetted             2         1         3         0
demand               3         4         6         1
""",
    "standing.csv": 'package,version,criterion,class\nserde,1.0.1,"x,""<y>""",conflicting\n',
    "moves": """\
       1 2024-05-01 log                      0.4.0                safe-to-run          unvetted    exempted
       2 2024-05-01 log                      0.4.0                safe-to-run          exempted    none
       3 2024-05-03 serde                    1.0.1                x,"<y>"              unvetted    full
       4 2024-05-03 serde                    1.0.1                safe-to-run          none        unvetted
       5 2024-06-10 serde                    1.0.1                x,"<y>"              full        conflicting
       6 2024-06-10 serde                    1.0.1                safe-to-run          unvetted    none
       6 2024-06-10 log                      0.4.0                safe-to-deploy       full        none
""",
    "desk": """       1 2024-05-01 serde                    1.0.1                finished  -                       7 x,y
       2 2024-05-02 serde                    1.0.1                withdrawn -                       - x
       3 2024-05-03 serde                    1.0.1                assigned  m<&>                    - x,y
       4 2024-05-04 serde                    1.0.1                waiting   -                       - x
""",
}
EMPTY = {"standing.csv": "package,version,criterion,class\n", "moves": "", "desk": ""}
# at the end of each day, the latest first, in the order of the classes
BALANCE = [
    ["2024-06-10", "1", "0", "0", "0", "0"],
    ["2024-05-03", "0", "1", "0", "0", "2"],
    ["2024-05-01", "0", "1", "0", "0", "1"],
]
DESK = [
    ["3", "2024-05-03", "serde 1.0.1", "x, y", "assigned", "m<&>", "-"],
    ["4", "2024-05-04", "serde 1.0.1", "x", "waiting", "-", "-"],
    ["1", "2024-05-01", "serde 1.0.1", "x, y", "finished", "-", "7"],
    ["2", "2024-05-02", "serde 1.0.1", "x", "withdrawn", "-", "-"],
]


class Page(HTMLParser):
    """The rows of tables by the names of these, each cell as its text or as the texts of its items, and all texts."""

    def __init__(self, text):
        super().__init__()
        self.rows, self.texts, self.shapes, self.open, self.table = {}, [], [], [], None
        self.feed(text)
        self.close()
        compare("what was not closed", self.open, [])

    def handle_starttag(self, tag, attributes):
        named = dict(attributes)
        if tag == "table":
            self.table = self.rows.setdefault(named.get("id") or named["class"], [])
        elif tag == "tr":
            self.table.append([])
        elif tag in ("td", "th"):
            self.table[-1].append("")
        elif tag == "ul":
            self.table[-1][-1] = []
        elif tag in ("rect", "polygon"):
            self.shapes.append((tag, named))
        if tag not in ("meta", "line"):
            self.open.append(tag)

    def handle_startendtag(self, tag, attributes):
        pass

    def handle_endtag(self, tag):
        compare("what is closed", tag, self.open.pop())

    def handle_data(self, text):
        if self.open and "td" in self.open:
            cell = self.table[-1][-1]
            self.table[-1][-1] = [*cell, text] if isinstance(cell, list) else cell + text
        self.texts.append(text)

    def table_of(self, name):
        """Its rows without the heads."""
        return [row for row in self.rows.get(name, []) if any(row)]


class Reports(socketserver.ThreadingTCPServer):
    """A register whose reports are given."""

    daemon_threads = True

    def __init__(self, reports):
        self.reports = reports
        super().__init__(("127.0.0.1", 0), Answers)
        threading.Thread(target=self.serve_forever, daemon=True).start()

    def __exit__(self, *fault):
        self.shutdown()
        super().__exit__(*fault)

    def url(self):
        return f"http://127.0.0.1:{self.server_address[1]}"


class Answers(BaseHTTPRequestHandler):
    def log_message(self, *_):
        pass

    def do_GET(self):
        report = self.server.reports.get(self.path.strip("/"))
        self.send_response(200 if report is not None else 404)
        self.end_headers()
        report = report() if callable(report) else report
        for text in [report] if isinstance(report, str) else report or ():
            self.wfile.write(text.encode())


def run(url, reasons=REASONS):
    """The output and the peak of memory, in KiB, of the script beside one that gives reasons, or beside none."""
    with tempfile.TemporaryDirectory() as folder:
        shutil.copy(os.path.join(CONTRIB, "page"), folder)
        if reasons:
            with open(os.path.join(folder, "why"), "w", encoding="utf-8") as file:
                file.write(reasons)
        words = [sys.executable, "-I", "-S", os.path.join(folder, "page"), url]
        streams = {"stdout": subprocess.PIPE, "stderr": subprocess.PIPE}
        with subprocess.Popen(words, env=dict(os.environ, no_proxy="*"), **streams) as process:
            text, errors = process.stdout.read().decode(), process.stderr.read()
            _, status, usage = os.wait4(process.pid, 0)
            process.returncode = os.waitstatus_to_exitcode(status)
    compare("status and errors", (process.returncode, errors), (0, b""))
    compare("what is loaded or run", ABSENT.findall(text), [])
    return text, usage.ru_maxrss


def page_of(url, **how):
    return Page(run(url, **how)[0])


@contextlib.contextmanager
def served(program):
    server = Server(1_000_000, program=(program,), day=DAY, seconds=600)
    server.__enter__()
    try:
        yield server
    finally:
        server.killed()


def asked(server, route):
    return server.exchange(request_of("GET", f"/{route}")).partition(b"\r\n\r\n")[2].decode()


def given(server, *documents):
    """Each until there is a reply: a command that takes longer than a connection lasts has none."""
    for it in documents:
        while not (reply := server.exchange(request_of("POST", "/commands", it))):
            pass
        compare(reply, reply.startswith(b"HTTP/1.1 200 "), True)


def failing_of(standing, url):
    """The rows that the page has to have for a standing, the conflicting ones first, with the reasons of `why`."""
    explained = re.findall("^(\\S.*)\n((?: .*\n)*)", printed("why", url, "--failing"), re.M)
    reasons = {head: [line.strip() for line in lines.splitlines()] for head, lines in explained}
    rows = [row for row in csv.reader(standing.splitlines()) if row[3] in FAILING]
    for package, version, criterion, word in sorted(rows, key=lambda row: FAILING.index(row[3])):
        yield [f"{package} {version}", criterion, word, reasons[f"{package} {version} {criterion}: {word}"]]


def present(counts):
    """The present count of each class by the report of counts."""
    lines = [line.split() for line in counts.splitlines()[1:]]
    return {line[0]: int(line[4]) for line in lines}


def the_examples(program):
    with served(program) as server:
        texts = [read(os.path.join(EXAMPLES, it)).decode() for it in ("audits.toml", "config.toml", "imports.lock")]
        table = read(os.path.join(EXAMPLES, "table.csv")).decode()
        given(server, document("replace-files", **dict(zip(("audits", "config", "imports"), texts))))
        given(server, document("load-project", project="ferry", csv=table))
        standing, counts = asked(server, "standing.csv"), present(asked(server, "counts"))
        url = f"http://127.0.0.1:{server.port}"
        page = page_of(url, reasons=read(os.path.join(CONTRIB, "why")).decode())
        expected = list(failing_of(standing, url))
    found = page.table_of("failing")
    compare("failing pairs", found, expected)
    compare("how many", len(found), counts["conflicting"] + counts["unvetted"])
    compare("pairs without a reason", [row for row in found if not row[3]], [])
    compare("counts", [row[:2] for row in page.table_of("counts")], [[it, f"{counts[it]:,}"] for it in CLASSES])
    compare("the day", page.table_of("balance"), [[DAY, *(f"{counts[it]:,}" for it in CLASSES)]])
    bar = {named["class"].split()[1]: float(named["width"]) for tag, named in page.shapes if tag == "rect"}
    shares = {it: 960 * counts[it] / counts["demand"] for it in CLASSES}
    compare("bar", max(abs(bar[it] - shares[it]) for it in CLASSES) < 0.01, True)


def names_are_escaped(program):
    """A criterion and a member of the program's register whose names are HTML."""
    table = "what,n,p,q,r\nnode,0,app,0.1.0,root\nnode,1,serde,1.0.0,third\nedge,0,1,normal,\n"
    with served(program) as server:
        given(
            server,
            document("set-criterion", name=ODD),
            document("set-policy", policy="app", criteria=ODD),
            document("load-project", project="app", csv=table),
            document("add-member", member=ODD),
            document("open-review", package="serde", version="1.0.0", criteria=ODD),
            document("assign-review", review=1, member=ODD),
        )
        text, _ = run(f"http://127.0.0.1:{server.port}")
    page = Page(text)
    compare("failing", page.table_of("failing"), [["serde 1.0.0", ODD, "unvetted", ["<of> serde", f'& {ODD} "1.0.0"']]])
    compare("desk", page.table_of("desk"), [["1", DAY, "serde 1.0.0", ODD, "assigned", ODD, "-"]])
    compare("marks of HTML in it", "<i>" in text or "</i>" in text or "<of>" in text, False)


def reports_by_hand(_):
    with Reports(BY_HAND) as reports:
        page = page_of(reports.url())
    criterion = 'x,"<y>"'
    reasons = ["<of> serde", f'& {criterion} "1.0.1"']
    compare("failing", page.table_of("failing"), [["serde 1.0.1", criterion, "conflicting", reasons]])
    compare("balance", page.table_of("balance"), BALANCE)
    compare("desk", page.table_of("desk"), DESK)
    areas = [named["class"].split()[1] for tag, named in page.shapes if tag == "polygon"]
    compare("areas", areas, ["conflicting", "unvetted", "full"])


def without_reasons(_):
    with Reports(BY_HAND) as reports:
        page = page_of(reports.url(), reasons=None)
    compare("failing", page.table_of("failing"), [["serde 1.0.1", 'x,"<y>"', "conflicting", []]])


def counts_of(full):
    """The report of counts of which the class full alone has pairs, which no move has brought."""
    return "\n".join(["class", *(f"{it} 0 0 0 {full if it == 'full' else 0}" for it in CLASSES)])


def nothing_fails(_):
    for full, said in ((3, "Nothing stops a release: all of 3 pairs are vetted."), (0, "No project demands any pair.")):
        with Reports(EMPTY | {"counts": counts_of(full)}) as reports:
            page = page_of(reports.url())
        compare(said, page.texts.count(said), 1)
        compare("failing", page.table_of("failing"), [])


def the_last_moves_are_shown(_):
    """Of 300,000, which are some 30 MB. Those on the first of two days come before the last 10,000, and aren't held."""
    line = "{:8} {} serde                    1.0.1                x                    {:11} {}\n"

    def moves():
        for step in range(300_000):
            before, after = ("unvetted", "full") if step % 2 else ("full", "unvetted")
            yield line.format(step + 1, "2024-05-01" if step < 290_000 else "2024-05-02", before, after)

    few = EMPTY | {"counts": counts_of(1)}
    with Reports(few) as reports:
        _, usual = run(reports.url())
        reports.reports = few | {"moves": moves}
        text, most = run(reports.url())
    compare("balance", Page(text).table_of("balance"), [["2024-05-02", "0", "0", "0", "0", "1"]])
    compare("that it is said", "By the last 10,000 moves" in text, True)
    compare(f"memory of {most} KiB beside {usual}", most - usual < 20_000, True)


def a_register_that_changes(_):
    """It is read again until it rests, and not for ever."""
    texts = iter([BY_HAND["counts"].replace("2         0\n", f"{it}         0\n") for it in range(5)])
    with Reports(BY_HAND | {"counts": lambda: next(texts, BY_HAND["counts"])}) as reports:
        compare("balance", page_of(reports.url()).table_of("balance"), BALANCE)
    endless = iter(range(10**9))
    with Reports(BY_HAND | {"counts": lambda: BY_HAND["counts"].replace("3 ", f"{next(endless)} ")}) as reports:
        refused("page", reports.url(), told=[["changes while it is read"]], env=dict(os.environ, no_proxy="*"))


def no_register(_):
    refused("page", "http://127.0.0.1:1", told=[["refused"]], env=dict(os.environ, no_proxy="*"))
    with Reports({}) as reports:
        refused("page", reports.url(), told=[["404"]], env=dict(os.environ, no_proxy="*"))


def tests(program):
    for test in (
        the_examples,
        names_are_escaped,
        reports_by_hand,
        without_reasons,
        nothing_fails,
        the_last_moves_are_shown,
        a_register_that_changes,
        no_register,
    ):
        yield f"page: {test.__name__}", partial(test, os.path.abspath(program))
    for words in ((), ("register.db",)):
        yield f"page: no words: {words}", partial(bad_words, "page", *words)
