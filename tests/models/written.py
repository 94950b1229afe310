"""Files of what a register holds, by a plain model: as the tables that are to be written, and as texts in any order."""

import json

from models.files import SUBJECTS
from models.tables import in_order, set_of, unless_empty
from models.words import text_of

FLAGS = ("importable", "renew", "suggest")
LIST_OF = {"wildcard": "wildcard-audits", "trusted": "trusted", "exemption": "exemptions"}
KEY_OF = {kind: key for key, kind in SUBJECTS.items()} | {"exemption": "version"}


def said_table(said):
    """What is said beside, as a table."""
    found = {}
    for word in said:
        key, _, text = word.partition("=")
        if key in FLAGS:
            found[key] = text == "true"
        else:
            found.setdefault(key, []).append(text_of(text))
    return {key: set_of(value) if isinstance(value, list) else value for key, value in found.items()}


def entry_table(entry):
    told = {"criteria": set_of(entry.criteria), **said_table(entry.said)}
    if entry.kind in ("wildcard", "trusted"):
        user, first, last = entry.parts
        return told | {"user-id": int(user), "start": first, "end": last}
    return told | {KEY_OF[entry.kind]: " -> ".join(entry.parts)}


def lists_of_entries(entries):
    """Tables of lists by package, each list in the order of its entries."""
    found = {}
    for entry in entries:
        lists = found.setdefault(LIST_OF.get(entry.kind, "audits"), {})
        lists.setdefault(entry.package, []).append(entry_table(entry))
    return found


def criteria_table(criteria):
    return {
        name: said_table(it.said) | ({"implies": set_of(it.implies)} if it.implies else {})
        for name, it in criteria.items()
    }


def audits_of(criteria, entries):
    return {"audits": {}} | lists_of_entries(entries) | unless_empty(criteria=criteria_table(criteria))


def in_order_of_numbers(entries):
    return [entry for _, entry in sorted(entries.items())]


def held_audits(held):
    own = [entry for entry in in_order_of_numbers(held.entries) if entry.kind != "exemption"]
    return audits_of(held.criteria, own)


def settings_table(settings):
    mapped = {name: set_of(names) for name, names in settings.map}
    return {"url": set_of(settings.urls)} | unless_empty(exclude=list(settings.excluded), criteria_map=mapped)


def policy_table(policy):
    found = {key: set_of(policy[key]) for key in ("criteria", "dev-criteria") if key in policy}
    passed = {package: set_of(names) for package, names in policy.get("dependency-criteria", {}).items()}
    found |= unless_empty(dependency_criteria=passed)
    if "audit-as-crates-io" in policy:
        found["audit-as-crates-io"] = policy["audit-as-crates-io"] == "true"
    return found | ({"notes": text_of(policy["notes"])} if "notes" in policy else {})


def held_config(held):
    version, defaults = held.tool
    own = in_order_of_numbers(held.entries)
    exempt = [entry for entry in own if entry.kind == "exemption" and not entry.last_day()]
    found = {} if version is None else {"cargo-vet": {"version": version}}
    found |= {} if defaults is None else {"default-criteria": set_of(defaults)}
    return found | lists_of_entries(exempt) | unless_empty(
        imports={name: settings_table(settings) for name, settings in held.settings.items()},
        policy={key: policy_table(policy) for key, policy in held.policies.items()},
    )


def record_table(record):
    version, user, day, *said = record
    told = {"version": version, "when": day, "user-id": int(user), **said_table(said)}
    return told


def held_imports(held, excluding=True):
    """With the entries of excluded packages left out, as they are written, or not."""
    peers = {}
    for name, content in held.contents.items():
        out = held.settings[name].excluded if excluding else ()
        entries = [entry for entry in in_order_of_numbers(content.entries) if entry.package not in out]
        peers[name] = audits_of(content.criteria, entries)
    publishers = {package: list(map(record_table, records)) for package, records in held.publishers.items()}
    return {"audits": peers} | unless_empty(publisher=publishers)


# ---- texts


def key_text(key):
    return json.dumps(key)


def value_text(value, dice):
    """A value, with the tables and lists in it in an order that is drawn."""
    if isinstance(value, dict):
        items = dice.sample(sorted(value.items()), len(value))
        return f"{{ {', '.join(f'{key_text(key)} = {value_text(it, dice)}' for key, it in items)} }}"
    if isinstance(value, list):
        return f"[{', '.join(value_text(it, dice) for it in dice.sample(value, len(value)))}]"
    return json.dumps(value)


def toml_text(table, dice):
    """The text of a file, its tables and lists in an order that is drawn. What stands in a file has no control
    characters, so that its strings are TOML's as they are JSON's."""
    lines = [f"{key_text(key)} = {value_text(value, dice)}\n" for key, value in sorted(table.items())]
    return "".join(dice.sample(lines, len(lines)))
