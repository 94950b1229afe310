"""What the three files hold, by a plain model: the tables of `tables`, as values that can be compared and printed. An
entry is of no source and has no number; files and registers that hold it give it these."""

import tomllib
from typing import NamedTuple

from models.tables import audits_table, config_table, imports_table, in_order, publisher_order
from models.words import word_of

# the lists of an audits file in the order of reading
LISTS = ("audits", "wildcard-audits", "trusted")
LAST_DAY = "last-day="
SUBJECTS = {"version": "full", "delta": "delta", "violation": "violation"}


class Entry(NamedTuple):
    kind: str
    package: str
    # what the kind holds, word by word
    parts: tuple
    criteria: tuple
    # what is said beside, each as `KEY=TEXT`
    said: tuple = ()

    def last_day(self):
        """The last day of an exemption, if it has one."""
        return next((it.removeprefix(LAST_DAY) for it in self.said if it.startswith(LAST_DAY)), None)


class Criterion(NamedTuple):
    implies: frozenset
    said: tuple = ()


class Settings(NamedTuple):
    """How a peer is imported."""

    urls: tuple
    excluded: tuple
    # for each of the peer's criteria that it has, its own
    map: tuple

    def targets(self):
        return {name for _, names in self.map for name in names}


class Content(NamedTuple):
    """What is imported from a peer."""

    criteria: dict
    entries: list


NOTHING = Content({}, [])


def listed(value):
    return tuple(in_order(value))


def said(table, *keys):
    """What a table says beside, each text as `KEY=TEXT`."""
    words = []
    for key in keys:
        value = table.get(key, [])
        for text in [value] if isinstance(value, (bool, str)) else value:
            words.append(f"{key}={str(text).lower() if isinstance(text, bool) else word_of(text)}")
    return tuple(words)


def audit(package, table):
    key = next(key for key in SUBJECTS if key in table)
    parts = table[key].split(" -> ") if key == "delta" else [table[key]]
    beside = said(table, "who", "importable", "notes")
    return Entry(SUBJECTS[key], package, tuple(parts), listed(table["criteria"]), beside)


def window(kind, package, table):
    parts = (str(table["user-id"]), table["start"], table["end"])
    return Entry(kind, package, parts, listed(table["criteria"]), said(table, "who", "renew", "notes"))


def exemption(package, table):
    return Entry("exemption", package, (table["version"],), listed(table["criteria"]), said(table, "suggest", "notes"))


MAKERS = {
    "audits": audit,
    "wildcard-audits": lambda package, table: window("wildcard", package, table),
    "trusted": lambda package, table: window("trusted", package, table),
    "exemptions": exemption,
}


def entries_at(file, key):
    """The entries of a list, in the order of reading."""
    packages = file.get(key, {})
    return [MAKERS[key](package, table) for package in in_order(packages) for table in packages[package]]


def content_of(table):
    """The content of an audits file by the table that is written of it."""
    criteria = {
        name: Criterion(frozenset(listed(of.get("implies", []))), said(of, "description", "description-url"))
        for name, of in table.get("criteria", {}).items()
    }
    return Content(criteria, [entry for key in LISTS for entry in entries_at(table, key)])


def record(table):
    return (table["version"], str(table["user-id"]), table["when"], *said(table, "user-login", "user-name"))


def settings_of(table):
    mapped = sorted((name, listed(names)) for name, names in table.get("criteria-map", {}).items())
    return Settings(listed(table["url"]), listed(table.get("exclude", [])), tuple(mapped))


def policy_of(table):
    policy = {key: set(listed(table[key])) for key in ("criteria", "dev-criteria") if key in table}
    if "dependency-criteria" in table:
        items = table["dependency-criteria"].items()
        policy["dependency-criteria"] = {package: set(listed(names)) for package, names in items}
    if "audit-as-crates-io" in table:
        policy["audit-as-crates-io"] = str(table["audit-as-crates-io"]).lower()
    if "notes" in table:
        policy["notes"] = word_of(table["notes"])
    return policy


class Files:
    """What the texts of three files hold, none of which is at fault."""

    def __init__(self, audits, config, imports):
        self.criteria, self.audits = content_of(audits_table(tomllib.loads(audits)))
        table = config_table(tomllib.loads(config))
        defaults = table.get("default-criteria")
        self.tool = (table.get("cargo-vet", {}).get("version"), None if defaults is None else listed(defaults))
        self.settings = {name: settings_of(of) for name, of in table.get("imports", {}).items()}
        self.policies = {key: policy_of(of) for key, of in table.get("policy", {}).items()}
        self.exemptions = entries_at(table, "exemptions")
        table = imports_table({}, tomllib.loads(imports))
        self.contents = {name: content_of(of) for name, of in table["audits"].items()}
        packages = table.get("publisher", {}).items()
        self.publishers = {package: [record(it) for it in sorted(of, key=publisher_order)] for package, of in packages}

    def content(self, name):
        return self.contents.get(name, NOTHING)

    def entries(self):
        """The own entries, in the order of reading."""
        return self.audits + self.exemptions

    def count(self):
        return len(self.entries()) + sum(len(self.content(name).entries) for name in self.settings)
