"""A register that is drawn: the three files and the dependency table that are given to it."""

import json
from typing import NamedTuple

from shared.dice import Dice

PEERS = {"foundry": "safe-to-deploy", "harbour": "safe-to-run", "meadow": None, "quarry": "safe-to-deploy"}
USERS = 300
CRITERIA = (["safe-to-deploy"], ["safe-to-run"], ["reviewed"], ["reviewed", "safe-to-run"])
NOTES = "Only tests and documents have changed; what unsafe code there is was read before."


class Size(NamedTuple):
    """How many packages there are; of how many a version is demanded, and of how many of these two. Then how many
    entries there are, own audits, exemptions, and audits of each peer, and how many packages have publisher records."""

    packages: int
    demanded: int
    twice: int
    own: int
    exemptions: int
    of_each_peer: int
    records: int

    def entries(self):
        return self.own + self.exemptions + len(PEERS) * self.of_each_peer

    def pairs(self):
        """Both built-in criteria are demanded of each version."""
        return 2 * (self.demanded + self.twice)


# a register of 20,000 entries and 5,000 pairs
LARGE = Size(4_000, 2_000, 500, own=8_000, exemptions=2_000, of_each_peer=2_500, records=2_000)


def value(names):
    return json.dumps(names[0] if len(names) == 1 else names)


def version(dice):
    return f"1.{dice.below(6)}.0"


def day(dice, year):
    return f"{year}-0{1 + dice.below(9)}-{10 + dice.below(18)}"


def subject(dice):
    """The list in which an audit stands, and what it is of: one in twenty is a violation or a window."""
    part = dice.below(40)
    if part == 0:
        return "audits", f'violation = "={version(dice)}"\n'
    if part == 1:
        window = f'start = "{day(dice, 2021)}"\nend = "{day(dice, 2022)}"\n'
        return "wildcard-audits", f"user-id = {dice.below(USERS)}\n{window}"
    if part < 18:
        return "audits", f'version = "{version(dice)}"\n'
    return "audits", f'delta = "{version(dice)} -> {version(dice)}"\n'


def drawn(dice, packages, count, front=""):
    """So many audits of so many packages, no two of them equal."""
    texts = {}
    while len(texts) < count:
        where, of = subject(dice)
        text = f"[[{front}{where}.package-{dice.below(packages)}]]\ncriteria = {value(dice.pick(CRITERIA))}\n{of}"
        text += f'who = "Reviewer {dice.below(40)} <reviewer@example.org>"\n'
        texts[text + (f'notes = "{NOTES}"\n' if dice.below(3) == 0 else "")] = None
    return list(texts)


def criterion(front=""):
    return f'[{front}criteria.reviewed]\nimplies = "safe-to-run"\n'


def config(dice, count):
    """Settings of the peers, and exemptions of a version of so many packages."""
    parts = ['[cargo-vet]\nversion = "0.10"\n']
    for peer, stands_for in PEERS.items():
        parts.append(f'[imports.{peer}]\nurl = "https://{peer}.example/audits.toml"\n')
        if stands_for:
            parts.append(f'[imports.{peer}.criteria-map]\nreviewed = "{stands_for}"\n')
    for place in range(count):
        criteria = value(dice.pick(CRITERIA[:2]))
        parts.append(f'[[exemptions.package-{place}]]\nversion = "{version(dice)}"\ncriteria = {criteria}\n')
    return parts


def records(dice, count):
    """Publisher records of so many packages, in the order in which they are held."""
    found = {}
    for place in range(count):
        package, user = f"package-{place}", dice.below(USERS)
        for minor in sorted({dice.below(6) for _ in range(2)}):
            found[package, minor] = f'version = "1.{minor}.0"\nwhen = "{day(dice, 2021)}"\nuser-id = {user}\n'
    return [f"[[publisher.{package}]]\n{text}" for (package, _minor), text in found.items()]


def imports(dice, size):
    parts = records(dice, size.records)
    for peer in PEERS:
        audits = drawn(dice, size.packages, size.of_each_peer, f"audits.{peer}.")
        parts += [criterion(f"audits.{peer}."), *audits]
    return parts


class Files(NamedTuple):
    audits: str
    config: str
    imports: str


def files(size):
    dice = Dice()
    audits = [criterion(), *drawn(dice, size.packages, size.own)]
    return Files(*("".join(parts) for parts in (audits, config(dice, size.exemptions), imports(dice, size))))


def demanded(size):
    """The versions that the project demands."""
    nodes = [(f"package-{place}", "1.2.0") for place in range(size.demanded)]
    return nodes + [(f"package-{place}", "1.4.0") for place in range(size.twice)]


def table(size):
    """A dependency table: a root, and a tree of packages below it, in which each is depended on by two."""
    lines = ["what,n,p,q,r", "node,0,app,0.1.0,root"]
    nodes = demanded(size)
    lines += [f"node,{place},{name},{of},third" for place, (name, of) in enumerate(nodes, 1)]
    for place in range(1, len(nodes) + 1):
        lines += [f"edge,{begin},{place},normal," for begin in sorted({place // 8, place // 3})]
    return "".join(line + "\n" for line in lines)


def document(command, **keys):
    return "".join(f"{key} = {toml_of(value)}\n" for key, value in {"command": command, **keys}.items())


def toml_of(value):
    """A value as TOML writes it: a text, number, flag or list as JSON, and a table with its keys and values."""
    if isinstance(value, dict):
        return "{" + ", ".join(f"{json.dumps(key)} = {toml_of(of_key)}" for key, of_key in value.items()) + "}"
    if isinstance(value, list):
        return "[" + ", ".join(map(toml_of, value)) + "]"
    return json.dumps(value)
