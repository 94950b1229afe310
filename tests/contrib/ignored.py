"""The script `ignored`: its sums are those of `vetd read`, by the cases of tests/files, the examples and drawn files
that were spoiled, and it names what was spoiled, with the line on which that is."""

import glob
import importlib.machinery
import importlib.util
import os
import random
import re
import subprocess
import tempfile
import tomllib

from contrib.scripts import CONTRIB, EXAMPLES, TESTS, bad_words, compare, printed, read, refused
from models.drawn import Drawn
from models.words import text_of
from models.written import toml_text

SEED, DRAWN = 44, 30
FILES = {"audits": "audits.toml", "config": "config.toml", "imports": "imports.lock"}
COUNTED = ("keys", "skipped", "doubles")
# at least so many cases of tests/files are read
CASES = 98

# what the script says of files that it does not read
FAULTS = (
    ("audits.toml", b"x =", "Invalid value"),
    ("audits.toml", b"\xff", "utf-8"),
    ("audits.toml", b"audits = 1", "audits is no table"),
    ("audits.toml", b"[audits.serde]", "audits.serde is no list"),
    ("config.toml", b"exemptions.a = [1]", "exemptions.a[0] is no table"),
    ("imports.lock", b"[audits]\np = 1", "audits.p is no table"),
)


def places():
    """A file of each kind, by its kind, and what is printed of it."""
    for case in read(os.path.join(TESTS, "contrib", "places.txt")).decode().split("\n#= ")[1:]:
        kind, _, rest = case.partition("\n")
        text, *lines = rest.split("#> ")
        yield kind, text, [line.rstrip("\n") for line in lines]


def loaded():
    """The script as a module, so that many files are read quickly."""
    loader = importlib.machinery.SourceFileLoader("ignored_script", os.path.join(CONTRIB, "ignored"))
    module = importlib.util.module_from_spec(importlib.util.spec_from_loader(loader.name, loader))
    loader.exec_module(module)
    return module


SCRIPT = loaded()


def sums(kind, text):
    return list(SCRIPT.report("file", kind, text))[-1]


def sums_of_program(program, kind, text):
    done = subprocess.run([program, "read", kind], input=text.encode(), capture_output=True, timeout=60)
    compare("status and errors", (done.returncode, done.stderr), (0, b""))
    return done.stdout.decode().rstrip("\n")


def ending_of(line):
    """The end of a line that `vetd read` prints."""
    return line[line.index("keys ") :]


def cases():
    """Each case of tests/files that is read: its name, its kind, its text, and the line that is printed of it."""
    for file in sorted(glob.glob(os.path.join(TESTS, "files", "*.txt"))):
        for case in read(file).decode().split("\n#= ")[1:]:
            name, _, rest = case.partition("\n")
            text, _, told = rest.partition("#> ")
            yield name, name.split(" ")[0], text, told.split("\n")[0]


def cases_of_files(_):
    count = 0
    for name, kind, text, told in cases():
        if told.startswith("read "):
            compare(name, sums(kind, text), ending_of(told))
            count += 1
    compare("cases", count >= CASES, True)


def stands_on_its_line(lines, number, what):
    """A key does, and of an entry the header of its table."""
    kind, path = what.split()
    last = re.sub(r"\[[0-9]+\]", "", path).split(".")[-1]
    header, key = f"[[{path.rpartition('[')[0]}]]", re.compile(rf"(\[\[)?{re.escape(last)}[ .]")
    line = lines[int(number) - 1]
    compare(f"{what} in {line}", bool(key.match(line)) if kind == "key" else line == header, True)


def the_examples(program):
    for kind, name in FILES.items():
        file = os.path.join(EXAMPLES, name)
        expected = ending_of(sums_of_program(program, kind, read(file).decode()))
        *found, last = printed("ignored", file).splitlines()
        compare(name, last, expected)
        lines = read(file).decode().splitlines()
        for it in found:
            stands_on_its_line(lines, *it.removeprefix(f"{file}:").split(":")[:2])


# ---- drawn files


def tables_in(value):
    """All tables in a value, itself among them."""
    if isinstance(value, dict):
        yield value
    for it in value.values() if isinstance(value, dict) else value if isinstance(value, list) else ():
        yield from tables_in(it)


def lists_of_entries(value):
    lists = [it for table in tables_in(value) for it in table.values() if isinstance(it, list)]
    return [it for it in lists if it and isinstance(it[0], dict)]


def spoil(file, dice):
    """Changes a file at one place: a key more, an entry once more, or one without what its kind needs. A map is left as
    it is, since each of its keys has a meaning."""
    entries = lists_of_entries(file)
    of_rows = [file, *(it for listed in entries for it in listed), *file.get("policy", {}).values()]
    if not entries or dice.random() < 0.4:
        key = dice.choice(("extra", "violaton", "unpublished", "importable_"))
        dice.choice(of_rows)[key] = dice.choice((1, {}, "x"))
        return
    listed = dice.choice(entries)
    entry = dict(dice.choice(listed))
    if dice.random() < 0.5:
        for key in ("user-id", *(() if "suggest" in entry else ("delta", "violation"))):
            entry.pop(key, None)
    listed.append(entry)


def drawn_files():
    """Files of the three kinds, some of them spoiled. An entry of a peer may be one that it keeps to itself."""
    for number in range(DRAWN):
        dice = random.Random(SEED + number)
        for line in Drawn(dice).lines:
            _, command, *words = line.split(" ")
            if command == "replace-files":
                for kind, word in zip(FILES, words):
                    file = tomllib.loads(text_of(word))
                    for _ in range(dice.randrange(6)):
                        spoil(file, dice)
                    yield kind, toml_text(file, dice)


def of_drawn_files(program):
    found = set()
    for kind, text in drawn_files():
        expected = ending_of(sums_of_program(program, kind, text))
        compare(text, sums(kind, text), expected)
        words = expected.split(" ")
        found |= {(kind, word) for word, count in zip(words[::2], words[1::2]) if count != "0"}
    # no record or entry of a config file is skipped
    everything = {(kind, word) for kind in FILES for word in COUNTED} - {("config", "skipped")}
    compare("what was ignored", found, everything)


# ---- what is printed


def places_are_printed(program, kind, text, lines):
    with tempfile.TemporaryDirectory() as folder:
        file = os.path.join(folder, FILES[kind])
        with open(file, "w", encoding="utf-8") as it:
            it.write(text)
        compare("output", [line.removeprefix(file) for line in printed("ignored", file).splitlines()], lines)
    compare("sums", lines[-1], ending_of(sums_of_program(program, kind, text)))


def a_file_that_is_not_read(name, text, told):
    with tempfile.TemporaryDirectory() as folder:
        file = os.path.join(folder, name)
        with open(file, "wb") as it:
            it.write(text)
        refused("ignored", file, told=[[file, told]])


def no_file(_):
    refused("ignored", "/none/audits.toml", told=[["/none/audits.toml", "No such file"]])


def tests(program):
    for test in (cases_of_files, the_examples, of_drawn_files, no_file):
        yield f"ignored: {test.__name__}", lambda test=test: test(program)
    for place in places():
        yield f"ignored: places in a file of {place[0]}", lambda place=place: places_are_printed(program, *place)
    for words in ((), ("audits",), ("audits.toml", "--kind", "audit")):
        yield f"ignored: no words: {words}", lambda words=words: bad_words("ignored", *words)
    for fault in FAULTS:
        yield f"ignored: {fault[2]}", lambda fault=fault: a_file_that_is_not_read(*fault)
