"""Command documents: of a word with its keys, and of a line of an example."""

import json
from typing import NamedTuple

from models.files import LAST_DAY
from models.projects import table_of
from models.words import text_of

# how many words of a line say what an entry of a kind is about
PARTS = {"full": 1, "exemption": 1, "delta": 2, "violation": 1, "wildcard": 3, "trusted": 3}
SUBJECTS = {"full": "version", "exemption": "version", "delta": "delta", "violation": "violation"}
NOTHING = "-"


class Given(NamedTuple):
    """A document as it is given: on a day, and by a member where one is told."""

    day: str
    document: bytes
    member: str | None = None


def string(text):
    """A text as a string of TOML on one line."""
    return json.dumps(text, ensure_ascii=False).replace("\x7f", "\\u007F")


def value_of(value):
    """A value as TOML writes it."""
    if isinstance(value, bool):
        return "true" if value else "false"
    if isinstance(value, str):
        return string(value)
    if isinstance(value, dict):
        return "{" + ", ".join(f"{string(key)} = {value_of(it)}" for key, it in value.items()) + "}"
    if isinstance(value, (list, tuple)):
        return "[" + ", ".join(map(value_of, value)) + "]"
    # numbers, days, and times of day
    return str(value)


def document_of(keys):
    """The document of a table."""
    return "".join(f"{string(key)} = {value_of(value)}\n" for key, value in keys.items()).encode()


def document(command, **keys):
    """The document of a command; an underscore in a key stands for a hyphen."""
    return document_of({"command": command} | {key.replace("_", "-"): value for key, value in keys.items()})


def entry(kind, package="serde", criteria="safe-to-deploy", **keys):
    return document("add-entry", package=package, kind=kind, criteria=criteria, **keys)


def demand_of(*versions):
    """The document of a project that demands both built-in criteria of these versions of serde."""
    return document("load-project", project="app", csv=table_of(*versions))


# ---- lines


def given_of(line):
    """What is given in place of a line. Who finishes or withdraws a review stands in the line, and here beside it."""
    day, word, *words = line.split(" ")
    words = [text_of(it) for it in words]
    member = words.pop(1) if word in ("finish-review", "withdraw-review") else None
    command, keys = LINES[word](words)
    return Given(day, document_of({"command": command} | keys), member)


def listed(text, between=","):
    return [] if text in ("", NOTHING) else text.split(between)


def mapped(text):
    """The map whose items stand in a text, as `KEY=NAME,..;..`."""
    items = (item.partition("=") for item in listed(text, ";"))
    return {key: listed(names) for key, _, names in items}


def set_criterion(words):
    name, *implied = words
    return "set-criterion", {"name": name} | ({"implies": implied} if implied else {})


def subject_of(kind, parts):
    if kind in ("wildcard", "trusted"):
        return {"user-id": int(parts[0]), "start": parts[1], "end": parts[2]}
    return {SUBJECTS[kind]: " -> ".join(parts)}


def add_entry(words):
    kind, package, *rest = words
    last = {"last-day": rest.pop().removeprefix(LAST_DAY)} if rest[-1].startswith(LAST_DAY) else {}
    about, criteria = rest[: PARTS[kind]], rest[PARTS[kind] :]
    return "add-entry", {"package": package, "kind": kind, **subject_of(kind, about), "criteria": criteria} | last


def add_audit(words):
    who, package, version, *criteria = words
    return "add-entry", {"package": package, "kind": "full", "version": version, "criteria": criteria, "who": who}


def set_policy(words):
    key, *said = words
    told = dict(word.split("=", 1) for word in said)
    for name in ("criteria", "dev-criteria"):
        if name in told:
            told[name] = listed(told[name])
    if "dependency-criteria" in told:
        told["dependency-criteria"] = mapped(told["dependency-criteria"])
    if "audit-as-crates-io" in told:
        told["audit-as-crates-io"] = told["audit-as-crates-io"] == "true"
    return "set-policy", {"policy": key} | told


def demand(words):
    """The project whose root demands versions of a package."""
    package, *versions = words
    return "load-project", {"project": "app", "csv": table_of(*versions, package=package)}


def set_peer(words):
    name, urls, excluded, items = words
    keys = {"peer": name, "url": listed(urls), "exclude": listed(excluded), "criteria-map": mapped(items)}
    return "set-peer", keys


def set_publishers(words):
    package, *records = words
    parted = (record.split(",") for record in records)
    tables = [{"version": version, "when": day, "user-id": int(user)} for version, user, day in parted]
    return "set-publishers", {"package": package, "records": tables}


def open_review(words):
    package, version, *criteria = words
    return "open-review", {"package": package, "version": version, "criteria": criteria}


def finish_review(words):
    number, *versions = words
    reviewed = {"version": versions[0]} if len(versions) == 1 else {"delta": " -> ".join(versions)}
    return "finish-review", {"review": int(number)} | reviewed


def numbered(command, key, *others):
    return lambda words: (command, {key: int(words[0])} | dict(zip(others, words[1:])))


def plain(command, *keys):
    return lambda words: (command, dict(zip(keys, words, strict=True)))


LINES = {
    "set-criterion": set_criterion,
    "remove-criterion": plain("remove-criterion", "name"),
    "add-entry": add_entry,
    "add-audit": add_audit,
    "drop-entry": numbered("drop-entry", "number"),
    "set-policy": set_policy,
    "drop-policy": plain("drop-policy", "policy"),
    "set-peer": set_peer,
    "drop-peer": plain("drop-peer", "peer"),
    "import-peer": plain("import-peer", "peer", "audits"),
    "set-publishers": set_publishers,
    "demand": demand,
    "load-project": plain("load-project", "project", "csv"),
    "drop-project": plain("drop-project", "project"),
    "replace-files": plain("replace-files", "audits", "config", "imports"),
    "set-day": plain("set-day"),
    "close-period": plain("close-period"),
    "add-member": plain("add-member", "member"),
    "open-review": open_review,
    "assign-review": numbered("assign-review", "review", "member"),
    "finish-review": finish_review,
    "withdraw-review": numbered("withdraw-review", "review"),
}
