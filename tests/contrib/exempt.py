"""The script `exempt-rest`: that nothing is unvetted afterwards, in a register file and in one that is served, and the
documents that it prints."""

import os
import random
import tempfile

from contrib.drawn_registers import DrawnRegister
from contrib.scripts import EXAMPLES, compare, printed, read, refused, run
from contrib.served_register import FILES, ServedRegister
from product.documents import document, table_of
from product.register import FOLDER, Register

SCRIPT = "exempt-rest"
DRAWN = 20
SECONDS = 600
DAY = "2024-05-01"
# each implies the next, and the last two each other
CRITERIA = """[criteria.best]
implies = "good"
[criteria.good]
implies = ["safe-to-deploy", "twin"]
[criteria.other]
[criteria.twin]
implies = "brother"
[criteria.brother]
implies = "twin"
"""
POLICY = '[policy.app]\ndependency-criteria.serde = ["good", "other", "twin"]\n'
OF_ALL = """command = "add-entry"
package = "serde"
kind = "exemption"
version = "1.0.0"
criteria = ["good", "other"]

"""
REVIEWED = '[[audits.serde]]\nversion = "1.0.0"\ncriteria = ["safe-to-deploy", "other"]\n'
OF_THE_REST = OF_ALL.replace('["good", "other"]', '["good"]')
# of the pairs for both built-in criteria of two versions, one is under a violation
VIOLATION = '[[audits.serde]]\nviolation = "=1.1.0"\ncriteria = "safe-to-deploy"\n'
# a review of another package
OTHER = VIOLATION.replace("serde", "log").replace('violation = "=', 'version = "')
# what an exemption of it, and of others of its package, can make of a class
BECOMES = {
    "conflicting": ("conflicting",),
    "full": ("full",),
    "partial": ("partial",),
    "exempted": ("exempted", "partial"),
    "unvetted": ("exempted", "partial", "conflicting"),
}
CONFLICTING = "serde 1.1.0 safe-to-deploy: conflicting\nunvetted 0, conflicting 1, of 4 pairs\n"


def standing_after(server):
    """Exempts the rest, and holds what becomes of each pair, what is printed, and the report of counts."""
    before = server.standing()
    text = printed(SCRIPT, server.url(), "--apply", timeout=SECONDS)
    after = server.standing()
    wrong = [(pair, before[pair], word) for pair, word in after.items() if word not in BECOMES[before[pair]]]
    compare("classes", wrong, [])
    conflicting = [f"{' '.join(pair)}: conflicting" for pair, word in after.items() if word == "conflicting"]
    compare("lines", text.splitlines()[1:-1], conflicting)
    compare("sum", text.splitlines()[-1], f"unvetted 0, conflicting {len(conflicting)}, of {len(after)} pairs")
    counts = {line.split()[0]: line.split()[-1] for line in server.ask("GET", "/counts").splitlines()}
    compare("counts", (counts["unvetted"], counts["demand"]), ("0", str(len(before))))


def a_drawn_register(server, seed):
    drawn = DrawnRegister(random.Random(1000 + seed))
    server.hold(drawn.files, drawn.table())
    standing_after(server)
    compare("nothing is left", printed(SCRIPT, server.url(), timeout=SECONDS), "")


def the_examples(server):
    texts = [read(os.path.join(EXAMPLES, it)).decode() for it in [*FILES.values(), "table.csv"]]
    server.hold(texts[:3], texts[3])
    standing_after(server)


def is_printed(server, audits, text):
    server.hold([audits, POLICY, ""], table_of("1.0.0"))
    compare("documents", printed(SCRIPT, server.url(), timeout=SECONDS), text)


def notes_are_written(server):
    server.hold([CRITERIA, POLICY, ""], table_of("1.0.0"))
    notes = OF_ALL.rstrip("\n") + '\nnotes = "To \\"be\\" \\\\ reviewed"\n'
    words = [server.url(), '--notes=To "be" \\ reviewed']
    compare("document", printed(SCRIPT, *words, timeout=SECONDS), f"{notes}\n")
    text = printed(SCRIPT, *words, "--last-day=2024-05-31", timeout=SECONDS)
    compare("document", text, f'{notes}last-day = "2024-05-31"\n\n')


def made(program, folder, audits, limit=None):
    """A register file in which four pairs are demanded."""
    register = Register(program, os.path.join(folder, "register.db"), SECONDS).make(limit)
    register.told(document("replace-files", audits=audits, config="", imports=""), "done 1 moves 0")
    register.told(document("load-project", project="app", csv=table_of("1.0.0", "1.1.0")), "done 2 moves 4")
    return register


def a_register_file(program):
    with tempfile.TemporaryDirectory(dir=FOLDER) as folder:
        register = made(program, folder, VIOLATION)
        words = (register.path, "--apply", f"--day={DAY}", f"--vetd={program}")
        text = printed(SCRIPT, *words, timeout=SECONDS)
        compare("text", text, f"2 versions were exempted\n{CONFLICTING}")
        counts = {line.split()[0]: line.split()[-1] for line in register.report("counts").splitlines()}
        compare("counts", [counts[it] for it in ("unvetted", "conflicting", "exempted")], ["0", "1", "3"])
        compare("days", {line.split()[1] for line in register.report("moves").splitlines()}, {DAY})


def last_days(program):
    """Each exemption lapses after its last day. A last day before the day of the commands is refused."""
    with tempfile.TemporaryDirectory(dir=FOLDER) as folder:
        register = made(program, folder, OTHER)
        words = (register.path, "--apply", f"--day={DAY}", f"--vetd={program}")
        told = "0 of 2 are done, and then: refused 11 EmptyWindow"
        refused(SCRIPT, *words, "--last-day=2024-04-30", told=[[told]], timeout=SECONDS)
        text = printed(SCRIPT, *words, "--last-day=2024-05-31", timeout=SECONDS)
        compare("text", text, "2 versions were exempted\nunvetted 0, conflicting 0, of 4 pairs\n")
        lapses = [line.split()[1:5] for line in register.report("lapses").splitlines()]
        compare("lapses", lapses, [["2024-05-31", "serde", version, "held"] for version in ("1.0.0", "1.1.0")])
        register.told(document("set-day"), "done 5 moves 4", "2024-06-01")


def files_of_documents(program):
    """Each is a document that the program takes. A file that is there already is not written over."""
    with tempfile.TemporaryDirectory(dir=FOLDER) as folder:
        register, into = made(program, folder, OTHER), os.path.join(folder, "documents")
        words = (register.path, f"--into={into}", f"--vetd={program}")
        compare("text", printed(SCRIPT, *words, timeout=SECONDS), "")
        names = sorted(os.listdir(into))
        compare("names", names, ["000001.toml", "000002.toml"])
        for place, name in enumerate(names):
            register.told(read(os.path.join(into, name)), f"done {3 + place} number {2 + place} moves 2")
        os.remove(os.path.join(into, names[0]))
        compare("nothing is left", printed(SCRIPT, *words, timeout=SECONDS), "")
        compare("names", os.listdir(into), names[1:])


def a_command_that_is_refused(program):
    """Those before it stay: here there is room for the moves of one alone."""
    with tempfile.TemporaryDirectory(dir=FOLDER) as folder:
        register = made(program, folder, OTHER, limit=7)
        words = (register.path, "--apply", f"--day={DAY}", f"--vetd={program}")
        refused(SCRIPT, *words, told=[["1 of 2 are done, and then: refused 25 MovesFull"]], timeout=SECONDS)
        compare("counts", register.report("counts").splitlines()[-2].split()[-1], "2")


def a_command_that_is_refused_over_http(server):
    server.hold([CRITERIA, POLICY, ""], table_of("1.0.0"))
    words = (server.url(), "--apply", f"--notes={'a' * 65_537}")
    refused(SCRIPT, *words, told=[["0 of 1 are done, and then: 413: refused 18 TooLarge text"]], timeout=SECONDS)


def faults(server, program):
    refused(SCRIPT, "http://127.0.0.1:1", told=[["refused"]])
    refused(SCRIPT, f"{server.url()}/more", told=[["404: not found"]])
    refused(SCRIPT, "/nothing/register.db", f"--vetd={program}", told=[["refused 31 NotARegister"]], timeout=SECONDS)
    refused(SCRIPT, "/nothing/register.db", "--vetd=/nothing/vetd", told=[["No such file"]])
    for words in ((), ("a", "b"), ("a", "--apply", "--into=b")):
        status, text, errors = run(SCRIPT, *words)
        compare("status, output and errors", (status, text, errors != b""), (2, b"", True))


def all_tests(program):
    with ServedRegister(program) as server:
        for seed in range(DRAWN):
            yield f"drawn register {seed}", lambda seed=seed: a_drawn_register(server, seed)
        yield the_examples.__name__, lambda: the_examples(server)
        yield "criteria that imply each other", lambda: is_printed(server, CRITERIA, OF_ALL)
        yield "criteria that are left", lambda: is_printed(server, CRITERIA + REVIEWED, OF_THE_REST)
        for test in (notes_are_written, a_command_that_is_refused_over_http):
            yield test.__name__, lambda test=test: test(server)
        for test in (a_register_file, last_days, files_of_documents, a_command_that_is_refused):
            yield test.__name__, lambda test=test: test(program)
        yield faults.__name__, lambda: faults(server, program)


def tests(program):
    for name, test in all_tests(program):
        yield f"exempt-rest: {name}", test
