"""The rows of a register's tables, worked out from the lines that `trials` prints of what it holds. Each table is a set
of tuples in the order of its columns, as a database gives them: numbers, texts and bytes."""

import contextlib
import datetime
import sqlite3
from urllib.parse import unquote_to_bytes

from models.columns import TABLES

BUILT_IN = ("safe-to-deploy", "safe-to-run")
CLASSES = ("conflicting", "full", "partial", "exempted", "unvetted", "undemanded")
KINDS = ("full", "delta", "violation", "wildcard", "trusted", "exemption")
PARTIES = ("root", "first", "third")
EDGES = ("normal", "build", "dev")
STATES = ("waiting", "assigned", "finished", "withdrawn")
FLAGS = {None: -1, "false": 0, "true": 1}
OPERATORS = ("<", ">", "=", "<=", ">=", "~", "^")
# of the tables, as `meta` tells it
VERSION = 2


@contextlib.contextmanager
def opened(path, mode="rw"):
    """A connection of Python's `sqlite3`, which is closed at the end."""
    tables = sqlite3.connect(f"file:{path}?mode={mode}", uri=True, isolation_level=None)
    try:
        yield tables
    finally:
        tables.close()


def rows_in(path, names=TABLES):
    """The rows of each of these tables in a database file, in their order, once its state is found to be whole."""
    with opened(path, "ro") as tables:
        state = tables.execute("PRAGMA integrity_check").fetchall()
        if state != [("ok",)]:
            raise AssertionError(f"the file's state is {state}")
        return {name: sorted(tables.execute(f"SELECT * FROM {name}").fetchall()) for name in names}


def rows_of(lines, limit, next_entry, next_review):
    """The rows of each table of what is held, in their order."""
    return {name: sorted(rows) for name, rows in Rows(lines, limit, next_entry, next_review).tables.items()}


def numbered(states):
    """What was held in turn, from the beginning, each with the next numbers of entries and of reviews. A number that is
    given is held at first, and never given again."""
    numbers = (1, 1)
    for held in states:
        numbers = tuple(map(after_all, ("entry", "review"), [held] * 2, numbers))
        yield held, numbers


def after_all(word, held, number):
    return max([number, *(int(line.split(" ")[1]) + 1 for line in held if line.startswith(f"{word} "))])


def text_of(word):
    """The bytes of a text that a word of a line writes."""
    return b"" if word == "%" else unquote_to_bytes(word)


def packed(items):
    return b"".join(b"%d:" % len(item) + item for item in items)


def names(words):
    return packed(word.encode() for word in words)


def listed(text):
    """The names of a list that is written with commas, as a packed list."""
    return names(text.split(",")) if text else b""


def optional(value):
    return packed([] if value is None else [value])


def text(fields, key):
    return optional(text_of(fields[key][0]) if key in fields else None)


def optional_list(fields, key):
    return optional(listed(fields[key][0]) if key in fields else None)


def flag(fields, key):
    return FLAGS[fields[key][0] if key in fields else None]


def day_number(day):
    return (datetime.date.fromisoformat(day) - datetime.date(1970, 1, 1)).days


def fields_of(words, keys):
    """The texts written as `KEY=TEXT`, by their keys, and the words before them."""
    fields, plain = {}, []
    for word in words:
        key, mark, said = word.partition("=")
        if mark and key in keys:
            fields.setdefault(key, []).append(said)
        else:
            plain.append(word)
    return fields, plain


class Rows:
    def __init__(self, lines, limit, next_entry, next_review):
        self.tables = {name: [] for name in TABLES}
        self.peer = self.project = None
        self.step, self.first, self.settings = 0, (), {}
        for line in lines:
            word, *words = line.split(" ")
            getattr(self, f"take_{word}")(words)
        self.end_peer()
        numbers = (1, VERSION, self.step, next_entry, next_review, limit, *self.first)
        said = (text(self.settings, "version"), optional_list(self.settings, "default-criteria"))
        self.tables["meta"].append((*numbers, *said))

    def put(self, table, *row):
        if len(row) != len(TABLES[table]) or row in self.tables[table]:
            raise AssertionError(f"{table}: {row} is there twice, or is not a row")
        self.tables[table].append(row)

    def take_step(self, words):
        self.step = int(words[0])

    def take_today(self, words):
        self.put("today", 1, day_number(words[0]))

    # ---- criteria and entries

    def criterion(self, peer, words):
        fields, (name, *implied) = fields_of(words, ("description", "description-url"))
        if name not in BUILT_IN:
            about, url = text(fields, "description"), text(fields, "description-url")
            self.put("criteria", peer, name, about, url, names(implied))

    def take_criterion(self, words):
        self.criterion("", words)

    def take_defined(self, words):
        self.criterion(self.peer[0], words)

    def take_entry(self, words):
        number, package, kind, *words = words
        keys = ("source", "who", "notes", "suggest", "renew", "importable", "last-day")
        fields, plain = fields_of(words, keys)
        a, b, user, first, last, criteria = subject(kind, plain)
        who = packed(text_of(word) for word in fields.get("who", ()))
        flags = (flag(fields, key) for key in ("suggest", "renew", "importable"))
        source = fields.get("source", [""])[0]
        said = (KINDS.index(kind), a, b, user, first, last, names(criteria), who, text(fields, "notes"))
        self.put("entries", int(number), source, package, *said, *flags)
        for day in fields.get("last-day", ()):
            self.put("lasts", int(number), day_number(day))

    # ---- peers and publishers

    def take_peer(self, words):
        self.end_peer()
        fields, (name,) = fields_of(words, ("url", "exclude"))
        url = packed(text_of(word) for word in fields.get("url", ()))
        self.peer = (name, url, names(fields.get("exclude", ())), [])

    def take_mapped(self, words):
        of, *to = words
        self.peer[3].extend((of.encode(), names(to)))

    def end_peer(self):
        if self.peer:
            name, url, exclude, items = self.peer
            self.put("peers", name, url, exclude, packed(items))
            self.peer = None

    def take_publisher(self, words):
        fields, (package, version, user, day) = fields_of(words, ("user-login", "user-name"))
        said = (text(fields, "user-login"), text(fields, "user-name"))
        self.put("publishers", package, version, int(user), day_number(day), *said)

    # ---- what a config file says, and projects

    def take_settings(self, words):
        self.settings, _ = fields_of(words, ("version", "default-criteria"))

    def take_policy(self, words):
        keys = ("criteria", "dev-criteria", "dependency-criteria", "audit-as-crates-io", "notes")
        fields, (key,) = fields_of(words, keys)
        items = fields["dependency-criteria"][0].split(";") if "dependency-criteria" in fields else []
        parted = (item.partition("=") for item in items)
        map_of = packed(part for package, _, to in parted for part in (package.encode(), listed(to)))
        lists = (optional_list(fields, "criteria"), optional_list(fields, "dev-criteria"))
        self.put("policies", key, flag(fields, "audit-as-crates-io"), *lists, map_of, text(fields, "notes"))

    def take_project(self, words):
        (self.project,) = words

    def take_node(self, words):
        package, version, party = words
        self.put("nodes", self.project, package, version, PARTIES.index(party))

    def take_edge(self, words):
        *ends, kind = words
        self.put("edges", self.project, *ends, EDGES.index(kind))

    # ---- the desk

    def take_member(self, words):
        self.put("members", *words)

    def take_review(self, words):
        number, day, package, version, state, *criteria = words
        word, _, said = state.partition("=")
        member, entry = said if word == "assigned" else "", int(said) if word == "finished" else 0
        shown = (STATES.index(word), member, entry)
        self.put("reviews", int(number), package, version, names(criteria), day_number(day), *shown)

    # ---- classes and moves

    def take_pair(self, words):
        *pair, word = words
        self.put("standing", *pair, CLASSES.index(word))

    def take_counts(self, words):
        classes = [row[3] for row in self.tables["standing"]]
        if [int(count) for count in words[1::2]] != [classes.count(place) for place in range(5)]:
            raise AssertionError(f"counts are {words}")

    def take_first(self, words):
        self.first = tuple(int(count) for count in words[1::2])

    def take_move(self, words):
        step, day, *pair, before, after = words
        classes = (CLASSES.index(before), CLASSES.index(after))
        self.put("moves", int(step), *pair, day_number(day), *classes)


def subject(kind, words):
    """What an entry is about: two texts, a user and two days, and then its criteria."""
    if kind in ("wildcard", "trusted"):
        user, first, last, *criteria = words
        return "", "", int(user), day_number(first), day_number(last), criteria
    if kind == "delta":
        origin, target, *criteria = words
        return origin, target, 0, 0, 0, criteria
    end = 1
    while kind == "violation" and (words[end - 1].endswith(",") or words[end - 1] in OPERATORS):
        end += 1
    return " ".join(words[:end]), "", 0, 0, 0, words[end:]
