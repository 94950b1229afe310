"""The machine that keeps the accepted commands, by a plain model, and the lines that `trials` prints of it."""

from models.commands import COMMANDS
from models.desk import DESK_COMMANDS, desk_lines
from models.held import BUILT_IN, CLASSES, Held
from models.files import Criterion
from models.refused import Refused
from models.rows import rows_of
from models.tables import version_order
from models.words import word_of

MOST_MOVES = 1_000_000


def held_after(held, line):
    """What is held after a command, and what the command is told if that was held already."""
    day, word, *words = line.split(" ")
    after = held.copy()
    return after, (COMMANDS | DESK_COMMANDS)[word](after, day, words)


class Machine:
    def __init__(self, limit=MOST_MOVES, held=None):
        self.held, self.limit, self.step, self.moves = held or Held(), limit, 0, []
        # the class of each pair that was demanded when the period began
        self.first = []

    def told(self, line):
        day, word, *words = line.split(" ")
        if word == "close-period":
            return self.closed()
        try:
            after, held_as = held_after(self.held, line)
        except Refused as refusal:
            return f"refused {refusal}"
        return held_as or self.done(day, word, words, after)

    def closed(self):
        self.step, self.first, self.moves = self.step + 1, list(self.held.standing().values()), []
        return f"done {self.step} moves 0"

    def done(self, day, word, words, after):
        old, new = self.held.standing(), after.standing()
        classes = [(pair, old.get(pair, "undemanded"), new.get(pair, "undemanded")) for pair in sorted({**old, **new})]
        moves = [f"{day} {' '.join(pair)} {a} {b}" for pair, a, b in classes if a != b]
        if len(self.moves) + len(moves) > self.limit:
            return "refused 25 MovesFull"
        self.step += 1
        number = self.number(word, words, after)
        self.held, self.moves = after, self.moves + [f"move {self.step} {move}" for move in moves]
        return f"done {self.step}{number} moves {len(moves)}"

    def number(self, word, words, after):
        """What is told of a number: that of an entry that was added, of a review, or of the entry of one."""
        if word in ("add-entry", "add-audit"):
            return f" number {self.held.next_entry}"
        if word == "open-review":
            return f" number {self.held.next_review}"
        return f" number {after.reviews[int(words[0])].by}" if word == "finish-review" else ""

    def contents(self):
        standing = self.held.standing()
        yield f"step {self.step}"
        yield from held_lines(self.held)
        yield from desk_lines(self.held)
        yield from (f"pair {' '.join(pair)} {word}" for pair, word in standing.items())
        yield counts_line("counts", list(standing.values()))
        yield counts_line("first", self.first)
        yield from self.moves

    def rows(self):
        """The rows of the tables, as `models/rows.py` has them."""
        return rows_of(self.contents(), self.limit, self.held.next_entry, self.held.next_review)


def held_lines(held):
    if held.today:
        yield f"today {held.today}"
    built_in = {name: Criterion(frozenset(implied)) for name, implied in BUILT_IN.items()}
    yield from criteria_lines("criterion", built_in | held.criteria)
    yield from entry_lines(held.entries)
    for name in sorted(held.settings):
        yield from peer_lines(name, held.settings[name], held.contents[name])
    for package in sorted(held.publishers):
        yield from (f"publisher {' '.join([package, *record])}" for record in held.publishers[package])
    yield from tool_lines(*held.tool)
    yield from (policy_line(key, held.policies[key]) for key in sorted(held.policies, key=policy_order))
    for name in sorted(held.projects):
        yield from (f"project {name}", *held.projects[name].lines())


def criteria_lines(word, criteria):
    for name in sorted(criteria):
        yield " ".join([word, name, *sorted(criteria[name].implies), *criteria[name].said])


def entry_lines(entries, *source):
    for number, entry in sorted(entries.items()):
        words = [entry.package, entry.kind, *entry.parts, *entry.criteria, *source, *entry.said]
        yield " ".join(["entry", str(number), *words])


def peer_lines(name, settings, content):
    urls = [f"url={word_of(url)}" for url in settings.urls]
    yield " ".join(["peer", name, *urls, *(f"exclude={package}" for package in settings.excluded)])
    yield from (" ".join(["mapped", of, *names]) for of, names in settings.map)
    yield from criteria_lines("defined", content.criteria)
    yield from entry_lines(content.entries, f"source={name}")


def tool_lines(version, defaults):
    words = [] if version is None else [f"version={word_of(version)}"]
    words += [] if defaults is None else [f"default-criteria={','.join(defaults)}"]
    if words:
        yield " ".join(["settings", *words])


def policy_order(key):
    package, mark, version = key.partition(":")
    return (package, version_order(version) if mark else ())


def policy_line(key, policy):
    told = dict(policy)
    for name in ("criteria", "dev-criteria"):
        if name in told:
            told[name] = ",".join(sorted(told[name]))
    if "dependency-criteria" in told:
        items = sorted(told["dependency-criteria"].items())
        told["dependency-criteria"] = ";".join(f"{package}={','.join(sorted(names))}" for package, names in items)
    order = ("criteria", "dev-criteria", "dependency-criteria", "audit-as-crates-io", "notes")
    return " ".join(["policy", key, *(f"{name}={told[name]}" for name in order if name in told)])


def counts_line(title, classes):
    return " ".join([title, *(f"{word} {classes.count(word)}" for word in CLASSES)])
