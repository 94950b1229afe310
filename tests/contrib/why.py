"""The script `why`: its classes and what it proposes beside those of the program, on the examples and on drawn
registers. What it prints, by hand. And whether it says so if the register has another class."""

import functools
import importlib.machinery
import importlib.util
import os
import random
import re
import shutil
import tempfile
import time

from contrib.drawn_registers import DrawnRegister
from contrib.requirements import registers
from contrib.scripts import CONTRIB, EXAMPLES, compare, printed, read, run
from contrib.served_register import FILES, ServedRegister, in_order, sampled
from models.written import toml_text
from product.documents import document, entry
from product.register import FOLDER, Register

SCRIPT = "why"
DRAWN = 200
# of how many pairs of a drawn register each proposal is tried
TRIED = 3
VETTED = ("full", "partial", "exempted")
HELPS, NEAREST, OTHERS = "would help: ", "nearest vetted versions: ", "vetted for "
NO_HELP = "no review helps while it is under a violation"
REVIEW = re.compile(r"a (?:full review of (\S+)|review of (\S+ -> \S+)) for (\S+)")
# a version ends before what is said of who and for what
SUBJECTS = r"(exemption|full review) of ([^\s,]+)|review of (\S+) -> ([^\s,]+)|.* published (\S+) on \S+"
STEP = re.compile(f"(?:{SUBJECTS})(?: by .*|,.*)?", re.DOTALL)
WORD = re.compile(r"(\S+) \((\w+)\)")


@functools.cache
def script():
    """The script as a module, so that it need not be started for each pair."""
    loader = importlib.machinery.SourceFileLoader(SCRIPT, os.path.join(CONTRIB, SCRIPT))
    module = importlib.util.module_from_spec(importlib.util.spec_from_loader(SCRIPT, loader))
    loader.exec_module(module)
    return module


# ---- what is explained, beside the program


def the_rest(lines, front):
    return [line.removeprefix(front) for line in lines if line.startswith(front)]


def explained(server):
    """What the script has of each demanded pair, once its classes are found to be the program's."""
    standing, files = server.standing(), script().Files(server.files())
    found = {pair: script().explain(files, *pair) for pair in standing}
    compare("classes", {pair: word for pair, (word, _) in found.items()}, standing)
    return {pair: lines for pair, (_, lines) in found.items()}, standing


def a_chain_leads_there(pair, word, lines):
    """The steps go on from one another and arrive at the version, with exemptions where the class has them."""
    kinds, at = [], None
    for line in lines:
        kind, whole, origin, target, published = STEP.fullmatch(line).groups()
        compare(f"{line}: where it begins", origin, at)
        kinds, at = [*kinds, kind], whole or target or published
    compare(f"{pair}: where {lines} leads", at, pair[1])
    places = [at for at, kind in enumerate(kinds) if kind == "exemption"]
    expected = {"full": [], "partial": [0], "exempted": [0]}[word]
    compare(f"{pair}: {word} by {lines}", (places, word == "exempted" and len(kinds) > 1), (expected, False))


def what_is_near_and_what_else(pair, lines, standing):
    """The next vetted versions on both sides, and the other criteria, are those of the standing."""
    package, version, criterion = pair
    vetted = {it[1]: word for it, word in standing.items() if it[::2] == (package, criterion) and word in VETTED}
    versions = in_order([*vetted, version])
    at = versions.index(version)
    near = [(it, vetted[it]) for it in versions[max(0, at - 1) : at] + versions[at + 1 : at + 2]]
    compare(f"{pair}: nearest", WORD.findall(" ".join(the_rest(lines, NEAREST))), near)
    others = sorted((it[2], word) for it, word in standing.items() if it[:2] == pair[:2] and word in VETTED)
    compare(f"{pair}: other criteria", WORD.findall(" ".join(the_rest(lines, OTHERS))), others)


def each_review_helps(server, pair, lines):
    """Each proposal, made a command, gives a vetted class. Where none helps, a full review makes it conflicting."""
    package, version, criterion = pair
    helps = [REVIEW.fullmatch(it).groups() for it in the_rest(lines, HELPS)]
    compare(f"{pair}: whether something helps", helps == [], NO_HELP in lines)
    for full, delta, named in helps or [(version, None, criterion)]:
        about = {"kind": "full", "version": full} if full else {"kind": "delta", "delta": delta}
        done = server.give("add-entry", package=package, criteria=named, **about)
        word = server.class_of(pair)
        server.give("drop-entry", number=int(done.split()[3]))
        compare(f"{pair}: {word} by {about}", (word in VETTED, word == "conflicting"), (helps != [], helps == []))


def a_drawn_register(server, seed):
    drawn = DrawnRegister(random.Random(seed))
    server.hold(drawn.files, drawn.table())
    found, standing = explained(server)
    compare("pairs", sorted(standing), sorted(drawn.pairs()))
    for pair, lines in found.items():
        if standing[pair] in VETTED:
            a_chain_leads_there(pair, standing[pair], lines)
        else:
            what_is_near_and_what_else(pair, lines, standing)
    unvetted = [pair for pair, word in standing.items() if word == "unvetted"]
    for pair in sampled(seed, unvetted, TRIED):
        each_review_helps(server, pair, found[pair])


def each_requirement(server):
    found = set()
    for files, table in registers():
        server.hold(files, table)
        found |= {*explained(server)[1].values()}
    compare("classes", found, {"conflicting", "full"})


def the_examples(server):
    texts = [read(os.path.join(EXAMPLES, it)).decode() for it in [*FILES.values(), "table.csv"]]
    server.hold(texts[:3], texts[3])
    found, standing = explained(server)
    compare("pairs", len(standing), 368)
    for pair, word in standing.items():
        if word == "unvetted":
            each_review_helps(server, pair, found[pair])
        elif word in VETTED:
            a_chain_leads_there(pair, word, found[pair])


# ---- what is printed, by hand

AUDITS = """[criteria.read]
implies = "safe-to-run"
[[audits.a]]
criteria = "safe-to-deploy"
version = "1.0.0"
who = "Ann"
[[audits.a]]
criteria = "safe-to-deploy"
delta = "1.0.0 -> 1.0.1"
who = ["Ann", "Bob"]
[[audits.a]]
criteria = "safe-to-deploy"
delta = "1.0.1 -> 1.0.2"
[[audits.a]]
criteria = "read"
delta = "1.0.2 -> 1.1.0"
[[audits.a]]
criteria = "safe-to-deploy"
delta = "1.1.0 -> 1.2.0"
[[audits.a]]
criteria = "safe-to-run"
violation = "=1.1.0"
who = "\\u001b[31mBob\\n::error"
[[trusted.a]]
criteria = "read"
user-id = 7
start = "2023-01-01"
end = "2023-12-31"
[[wildcard-audits.a]]
criteria = "safe-to-deploy"
user-id = 8
start = "2023-01-01"
end = "2023-12-31"
who = "Ann"
"""
CONFIG = """default-criteria = "read"
[[exemptions.a]]
version = "2.0.0"
criteria = "safe-to-deploy"
[imports.p]
url = "https://p.example"
criteria-map.good = "safe-to-deploy"
[policy.root]
dependency-criteria.a = ["safe-to-deploy", "read"]
"""
IMPORTS = """[[audits.p.audits.a]]
criteria = "good"
delta = "1.0.0 -> 1.0.2"
who = "Pat"
[[audits.p.audits.a]]
criteria = "good"
delta = "2.0.0 -> 2.1.0"
[[publisher.a]]
version = "3.0.0"
when = "2023-12-31"
user-id = 7
[[publisher.a]]
version = "3.1.0"
when = "2023-01-01"
user-id = 8
user-login = "eve"
user-name = "Eve"
"""
TABLE = """what,n,p,q,r
node,0,root,0.1.0,root
node,1,a,1.0.2,third
node,2,a,1.1.0,third
node,3,a,1.2.0,third
node,4,a,2.0.0,third
node,5,a,2.1.0,third
node,6,a,3.0.0,third
node,7,a,3.1.0,third
edge,0,1,normal,
edge,0,2,normal,
edge,0,3,normal,
edge,0,4,normal,
edge,0,5,normal,
edge,0,6,normal,
edge,0,7,normal,
"""
TEXTS = dict(zip(FILES, (AUDITS, CONFIG, IMPORTS)))
SAFE, READ = "safe-to-deploy", "read"
# a version and a criterion, and what is printed of it
PRINTED = [
    (
        ("1.0.2", SAFE),
        """a 1.0.2 safe-to-deploy: full
    full review of 1.0.0 by Ann, for safe-to-deploy
    review of 1.0.0 -> 1.0.2 by Pat of peer p, for good
""",
    ),
    (
        ("1.1.0", SAFE),
        """a 1.1.0 safe-to-deploy: unvetted
    under a violation =1.1.0 by \\x1b[31mBob\\n::error, for safe-to-run
    nearest vetted versions: 1.0.2 (full), 2.0.0 (exempted)
    no review helps while it is under a violation
""",
    ),
    (
        ("1.1.0", READ),
        """a 1.1.0 read: unvetted
    under a violation =1.1.0 by \\x1b[31mBob\\n::error, for safe-to-run
    nearest vetted versions: 3.0.0 (full)
    no review helps while it is under a violation
""",
    ),
    (
        ("1.1.0", "safe-to-run"),
        """a 1.1.0 safe-to-run: conflicting
    full review of 1.0.0 by Ann, for safe-to-deploy
    review of 1.0.0 -> 1.0.2 by Pat of peer p, for good
    review of 1.0.2 -> 1.1.0, for read
    under a violation =1.1.0 by \\x1b[31mBob\\n::error, for safe-to-run
    nearest vetted versions: 1.0.2 (full), 2.0.0 (exempted)
    no review helps while it is under a violation
""",
    ),
    (
        ("1.2.0", "safe-to-run"),
        """a 1.2.0 safe-to-run: unvetted
    nearest vetted versions: 1.0.2 (full), 2.0.0 (exempted)
    a chain is cut at 1.1.0, which is under a violation =1.1.0 by \\x1b[31mBob\\n::error, for safe-to-run
    would help: a review of 1.0.2 -> 1.2.0 for safe-to-run
    would help: a review of 2.0.0 -> 1.2.0 for safe-to-run
    would help: a full review of 1.2.0 for safe-to-run
""",
    ),
    (
        ("2.0.0", SAFE),
        """a 2.0.0 safe-to-deploy: exempted
    exemption of 2.0.0, for safe-to-deploy
""",
    ),
    (
        ("2.1.0", SAFE),
        """a 2.1.0 safe-to-deploy: partial
    exemption of 2.0.0, for safe-to-deploy
    review of 2.0.0 -> 2.1.0 of peer p, for good
""",
    ),
    (
        ("3.0.0", READ),
        """a 3.0.0 read: full
    trust in publisher 7 from 2023-01-01 to 2023-12-31, for read; this user published 3.0.0 on 2023-12-31
""",
    ),
    (
        ("3.0.0", SAFE),
        """a 3.0.0 safe-to-deploy: unvetted
    vetted for read (full), safe-to-run (full)
    nearest vetted versions: 2.1.0 (partial), 3.1.0 (full)
    would help: a review of 2.1.0 -> 3.0.0 for safe-to-deploy
    would help: a review of 3.1.0 -> 3.0.0 for safe-to-deploy
    would help: a full review of 3.0.0 for safe-to-deploy
""",
    ),
    (
        ("3.1.0", SAFE),
        """a 3.1.0 safe-to-deploy: full
    wildcard audit of publisher 8 from 2023-01-01 to 2023-12-31 by Ann, for safe-to-deploy; eve published 3.1.0 on \
2023-01-01
""",
    ),
]
# a chain that goes on from a version that nothing leads to, and a version that no project demands
NOT_DEMANDED = """a 1.3.0 read: unvetted
    no project demands it
    nearest vetted versions: 3.0.0 (full)
    would help: a review of 3.0.0 -> 1.3.0 for read
    would help: a full review of 1.3.0 for read
"""
ON_THE_WAY = """a 2.2.0 safe-to-deploy: unvetted
    nearest vetted versions: 2.1.0 (partial), 3.1.0 (full)
    would help: a review of 2.1.0 -> 2.2.0 for safe-to-deploy
    would help: a review of 3.1.0 -> 2.2.0 for safe-to-deploy
    would help: a review of 1.0.2 -> 1.5.0 for safe-to-deploy
    would help: a full review of 2.2.0 for safe-to-deploy
"""


def is_printed(server, version, criterion, text):
    compare("text", printed(SCRIPT, server.url(), "a", version, criterion), text)


def without_a_criterion(server):
    """What is printed of each criterion for which the version is demanded."""
    texts = [printed(SCRIPT, server.url(), "a", "2.1.0", it) for it in ("read", "safe-to-deploy", "safe-to-run")]
    compare("text", printed(SCRIPT, server.url(), "a", "2.1.0"), "".join(texts))


def each_failing_pair(server):
    failing = [pair for pair, word in server.standing().items() if word not in VETTED]
    compare("some are failing", len(failing) > 3, True)
    texts = [printed(SCRIPT, server.url(), *pair) for pair in failing]
    compare("text", printed(SCRIPT, server.url(), "--failing"), "".join(texts))


def a_review_on_the_way(server):
    """A delta leads to the version from one that is unvetted: a review of that one is proposed too."""
    delta = '[[audits.a]]\ncriteria = "safe-to-deploy"\ndelta = "1.5.0 -> 2.2.0"\n'
    server.hold([AUDITS + delta, CONFIG, IMPORTS], TABLE.replace("a,2.1.0", "a,2.2.0"))
    is_printed(server, "2.2.0", SAFE, ON_THE_WAY)


def made(program, folder):
    register = Register(program, os.path.join(folder, "register.db"), seconds=600).make()
    register.told(document("replace-files", **TEXTS), "done 1 moves 0")
    register.told(document("load-project", project="app", csv=TABLE), "done 2 moves 21")
    return register


def a_register_file(program):
    """The register is read by the program, also of a version that no project demands, and stays as it is."""
    with tempfile.TemporaryDirectory(dir=FOLDER) as folder:
        register = made(program, folder)
        before = register.report("counts")
        demanded, text = PRINTED[0]
        for words, expected in ((demanded, text), (["1.3.0"], NOT_DEMANDED)):
            found = printed(SCRIPT, register.path, f"--vetd={program}", "a", *words, timeout=600)
            compare("text", found, expected)
        compare("counts", register.report("counts"), before)


# a version with an exemption whose last day is 2024-05-31, on that day and after it
DATED = """a 3.0.0 safe-to-deploy: exempted
    exemption of 3.0.0, whose last day is 2024-05-31, for safe-to-deploy
"""


def an_exemption_with_a_last_day(program):
    """It is explained until it lapses, although it is in no file, also for a version that no project demands."""
    with tempfile.TemporaryDirectory(dir=FOLDER) as folder:
        register = made(program, folder)
        for version, told in (("3.0.0", "done 3 number 12 moves 1"), ("1.3.0", "done 4 number 13 moves 0")):
            register.told(entry("exemption", package="a", version=version, last_day="2024-05-31"), told)
        register.told(document("set-day"), "done 5 moves 0", "2024-05-31")
        words = (SCRIPT, register.path, f"--vetd={program}", "a")
        compare("held", printed(*words, "3.0.0", SAFE, timeout=600), DATED)
        of_copy = DATED.replace("3.0.0", "1.3.0").replace("exempted\n", "exempted\n    no project demands it\n")
        compare("in a copy", printed(*words, "1.3.0", SAFE, timeout=600), of_copy)
        register.told(document("set-day"), "done 6 moves 1", "2024-06-01")
        compare("lapsed", printed(*words, "3.0.0", SAFE, timeout=600), dict(PRINTED)["3.0.0", SAFE])


def a_folder(program):
    """A folder of the three files, of which the last one may be missing."""
    with tempfile.TemporaryDirectory() as folder:
        for kind, name in FILES.items():
            if kind != "imports":
                with open(os.path.join(folder, name), "w", encoding="utf-8") as file:
                    file.write(TEXTS[kind])
        text = printed(SCRIPT, folder, "a", "1.0.2", SAFE, f"--vetd={program}", timeout=600)
    expected = """a 1.0.2 safe-to-deploy: full
    no project demands it
    full review of 1.0.0 by Ann, for safe-to-deploy
    review of 1.0.0 -> 1.0.1 by Ann and Bob, for safe-to-deploy
    review of 1.0.1 -> 1.0.2, for safe-to-deploy
"""
    compare("text", text, expected)


def without_the_program(server):
    """The script alone, without a program: the register has no class for what no project demands."""
    with tempfile.TemporaryDirectory() as folder:
        alone = shutil.copy(os.path.join(CONTRIB, SCRIPT), folder)
        text = printed(alone, server.url(), "a", "1.3.0", env={"PATH": ""})
    told = "no project demands it, so the register has no class for it"
    compare("text", text, NOT_DEMANDED.replace("no project demands it", told))


# ---- no answer, and two


def another_class(program):
    """A register that says another word is not believed: both are printed."""
    with tempfile.TemporaryDirectory(dir=FOLDER) as folder:
        register, other = made(program, folder), os.path.join(folder, "vetd")
        with open(other, "w", encoding="utf-8") as file:
            file.write(f"#!/bin/sh\n'{program}' \"$@\" | sed '/^a,3.0.0,safe-to-deploy,/s/unvetted/full/'\n")
        os.chmod(other, 0o755)
        status, text, errors = run(SCRIPT, register.path, "a", "3.0.0", SAFE, f"--vetd={other}", timeout=600)
    first, *more = dict(PRINTED)["3.0.0", SAFE].splitlines(keepends=True)
    first = "a 3.0.0 safe-to-deploy: full by the register, but unvetted by this script\n"
    compare("status, text and errors", (status, text.decode(), errors), (3, "".join([first, *more]), b""))


def no_answer(told, *words, **how):
    status, text, errors = run(SCRIPT, *words, **how)
    compare("status, text and lines", (status, text, errors.count(b"\n")), (2, b"", 1))
    if not all(it in errors.decode() for it in ("why: ", told)):
        raise AssertionError(f"{errors} has not {told}")


def no_answers(server, program):
    url, vetd = server.url(), f"--vetd={program}"
    yield "an unknown criterion", ("'nope' is not one of the criteria read, ", url, "a", "1.0.0", "nope")
    yield "nobody at the port", ("refused", "http://127.0.0.1:1", "a", "1.0.0")
    yield "no such route", ("404", f"{url}/more", "a", "1.0.0")
    yield "no register", ("31 NotARegister", os.path.join(EXAMPLES, "nothing"), "a", "1.0.0", vetd)
    yield "a folder without files", ("audits.toml", os.path.dirname(EXAMPLES), "a", "1.0.0", vetd)
    yield "another program", ("No such file", EXAMPLES, "a", "1.0.0", "--vetd=/nothing")


# ---- at size

MANY = 4000
# of the processor: far more than it takes, and far less than what grows by the square
MOST_SECONDS = 60


def thousands_of_entries():
    """A chain of thousands of versions among thousands of violations, windows and publishers."""
    versions = [f"1.0.{at}" for at in range(MANY)]
    audits = [{"version": versions[0], "criteria": "safe-to-run"}]
    audits += [{"delta": " -> ".join(two), "criteria": "safe-to-run"} for two in zip(versions, versions[1:])]
    audits += [{"violation": f">=2.{at}, <2.{at}.7", "criteria": "safe-to-run"} for at in range(MANY)]
    days = [f"{2000 + at // 300:04}-{1 + at // 25 % 12:02}-{1 + at % 25:02}" for at in range(MANY)]
    windows = [{"user-id": 5, "start": day, "end": "9999-12-31", "criteria": "safe-to-run"} for day in days]
    records = [{"version": f"2.{at}.9", "user-id": 5, "when": day} for at, day in enumerate(days)]
    own, dice = {"audits": {"a": audits}, "wildcard-audits": {"a": windows}}, random.Random(0)
    imports = {"publisher": {"a": records}, "audits": {}}
    files, began = script().Files([toml_text(it, dice) for it in (own, {}, imports)]), time.process_time()
    judged = [script().explain(files, "a", it, "safe-to-run") for it in (versions[-1], "2.7.9", "2.7.6")]
    for at in range(MANY):
        judged.append(script().explain(files, "a", f"2.{at}.8", "safe-to-run"))
    compare("classes", [word for word, _ in judged[:4]], ["full", "full", "unvetted", "unvetted"])
    compare("chain and cuts", ([len(lines) for _, lines in judged[:3]]), [MANY, 1, 3])
    compare("in time", time.process_time() - began < MOST_SECONDS, True)


def tests_by_hand(server, program):
    server.hold(TEXTS.values(), TABLE)
    for at, text in PRINTED:
        yield f"{at}", lambda at=at, text=text: is_printed(server, *at, text)
    for test in (without_a_criterion, each_failing_pair, without_the_program):
        yield test.__name__, lambda test=test: test(server)
    for name, words in no_answers(server, program):
        yield name, lambda words=words: no_answer(*words, timeout=600)
    yield a_review_on_the_way.__name__, lambda: a_review_on_the_way(server)
    for test in (a_register_file, an_exemption_with_a_last_day, a_folder, another_class):
        yield test.__name__, lambda test=test: test(program)


def all_tests(program):
    yield thousands_of_entries.__name__, thousands_of_entries
    with ServedRegister(program) as server:
        for seed in range(DRAWN):
            yield f"drawn register {seed}", lambda seed=seed: a_drawn_register(server, seed)
        for test in (each_requirement, the_examples):
            yield test.__name__, lambda test=test: test(server)
        yield from tests_by_hand(server, program)


def tests(program):
    for name, test in all_tests(program):
        yield f"why: {name}", test
