"""What is written of a table that a reader of one of the three files takes, by a plain model of the rules: of the keys
that have a meaning, sets in order, each entry once, and nothing that is passed over."""

import datetime
import json

BUILT_IN = ("safe-to-deploy", "safe-to-run")
SUBJECTS = ("version", "delta", "violation")
AUDIT_KEYS = ("criteria", "version", "delta", "violation", "who", "notes", "importable")
WILDCARD_KEYS = ("criteria", "user-id", "start", "end", "who", "renew", "notes")
TRUSTED_KEYS = ("criteria", "user-id", "start", "end", "notes")
EXEMPTION_KEYS = ("version", "criteria", "suggest", "notes")
PUBLISHER_KEYS = ("version", "when", "user-id", "user-login", "user-name")
POLICY_KEYS = ("audit-as-crates-io", "criteria", "dev-criteria", "notes")
CRITERION_KEYS = ("description", "description-url", "implies")
REVISION = "@git:"


def version_text(text):
    """A version as it is printed: the letters of a revision are small ones."""
    number, mark, revision = text.partition(REVISION)
    return number + mark + revision.lower()


def delta_text(text):
    first, second = text.split("->")
    return f"{version_text(first.strip(' '))} -> {version_text(second.strip(' '))}"


def day_text(value):
    return value.isoformat() if isinstance(value, datetime.date) else value


def in_order(texts):
    """A set of texts: each once, by their bytes."""
    return sorted({texts} if isinstance(texts, str) else set(texts), key=str.encode)


def set_of(texts):
    """A set as it is written: one text is a string, and others are a list."""
    members = in_order(texts)
    return members[0] if len(members) == 1 else members


SETS = {"criteria", "who", "implies", "dev-criteria"}
FORMS = {"version": version_text, "delta": delta_text, "start": day_text, "end": day_text, "when": day_text}
LEFT_OUT_IF_EMPTY = {"who", "implies"}


def written(table, keys):
    """The keys of a table that have a meaning, each as it is written."""
    found = {}
    for key in keys:
        if key in table:
            value = set_of(table[key]) if key in SETS else FORMS.get(key, lambda v: v)(table[key])
            if value != [] or key not in LEFT_OUT_IF_EMPTY:
                found[key] = value
    return found


def each_once(items):
    found = []
    for item in items:
        if not any(same(item, other) for other in found):
            found.append(item)
    return found


def lists(table, keys, is_taken, excluded=()):
    """A table of lists by package: what is taken, each once. A package of which nothing is taken is left out."""
    found = {}
    for package, items in table.items():
        taken = each_once([written(item, keys) for item in items if is_taken(item)])
        if taken and package not in excluded:
            found[package] = taken
    return found


def unless_empty(**tables):
    return {key.replace("_", "-"): table for key, table in tables.items() if table}


def audits_table(file, is_peer=False, excluded=()):
    def is_audit(item):
        return any(key in item for key in SUBJECTS) and not (is_peer and item.get("importable") is False)

    def has_user(item):
        return "user-id" in item

    audits = lists(file.get("audits", {}), AUDIT_KEYS, is_audit, excluded)
    wildcards = lists(file.get("wildcard-audits", {}), WILDCARD_KEYS, has_user, excluded)
    trusted = {} if is_peer else lists(file.get("trusted", {}), TRUSTED_KEYS, has_user)
    criteria = {
        name: written(table, CRITERION_KEYS)
        for name, table in file.get("criteria", {}).items()
        if name not in BUILT_IN
    }
    return {"audits": audits} | unless_empty(criteria=criteria, trusted=trusted, wildcard_audits=wildcards)


def key_text(key):
    """The key of a policy as it is printed."""
    package, mark, version = key.partition(":")
    return package + mark + version_text(version)


def map_of(table):
    return {name: set_of(names) for name, names in table.items()}


def policy_table(table):
    return written(table, POLICY_KEYS) | unless_empty(
        dependency_criteria=map_of(table.get("dependency-criteria", {}))
    )


def peer_table(table):
    return {"url": set_of(table["url"])} | unless_empty(
        exclude=in_order(table.get("exclude", [])), criteria_map=map_of(table.get("criteria-map", {}))
    )


def config_table(file):
    found = {}
    if "version" in file.get("cargo-vet", {}):
        found["cargo-vet"] = {"version": file["cargo-vet"]["version"]}
    if "default-criteria" in file:
        found["default-criteria"] = set_of(file["default-criteria"])
    return found | unless_empty(
        imports={name: peer_table(table) for name, table in file.get("imports", {}).items()},
        policy={key_text(key): policy_table(table) for key, table in file.get("policy", {}).items()},
        exemptions=lists(file.get("exemptions", {}), EXEMPTION_KEYS, lambda item: True),
    )


def identifiers(text):
    """What precedence compares of a pre-release: numbers come before words, and none at all comes last."""
    if not text:
        return (1,)
    parts = [(0, int(part), "") if part.isdigit() else (1, 0, part) for part in text.split(".")]
    return (0, parts)


def version_order(text):
    number, _, revision = text.partition(REVISION)
    front, _, pre = number.partition("+")[0].partition("-")
    return ([int(part) for part in front.split(".")], identifiers(pre), number, revision)


def publisher_order(record):
    login, name = record.get("user-login"), record.get("user-name")
    return (
        version_order(record["version"]),
        record["when"],
        record["user-id"],
        (login is not None, login or ""),
        (name is not None, name or ""),
    )


def imports_table(config, file):
    publishers = lists(file.get("publisher", {}), PUBLISHER_KEYS, lambda item: "user-id" in item)
    settings = config.get("imports", {})
    peers = {
        name: audits_table(table, True, settings.get(name, {}).get("exclude", []))
        for name, table in file.get("audits", {}).items()
    }
    ordered = {package: sorted(records, key=publisher_order) for package, records in publishers.items()}
    return {"audits": peers} | unless_empty(publisher=ordered)


def sorted_text(table):
    return json.dumps(table, sort_keys=True, default=repr)


def same(first, second):
    """Whether two values are the same: a truth value is no number."""
    return sorted_text(first) == sorted_text(second)
