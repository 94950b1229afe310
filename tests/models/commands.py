"""Commands, by a plain model: each changes a copy of what is held, or answers that this is held already. Beside the
words of its line it is given its day. All words of a line are good names, versions and days, and no file is at
fault."""

import tomllib
import urllib.parse

from models.files import LAST_DAY, Content, Criterion, Entry, Files, Settings, content_of, record
from models.held import BUILT_IN
from models.limits import FURTHER_CRITERIA, MOST_ENTRIES, MOST_PEERS, MOST_POLICIES, MOST_PUBLISHERS
from models.projects import read_project, table_of
from models.refused import Refused
from models.tables import audits_table, publisher_order
from models.words import text_of


def known(has, names):
    for name in sorted(names):
        if not has(name):
            raise Refused(f"6 UnknownCriterion {name}")


def within(what, count, most):
    if count > most:
        raise Refused(f"18 TooLarge {what}")


def lists_of(policy):
    listed = [policy[key] for key in ("criteria", "dev-criteria") if key in policy]
    return listed + list(policy.get("dependency-criteria", {}).values())


def names_listed(text):
    return set(filter(None, text.split(",")))


def items_listed(text):
    return () if text == "-" else tuple(sorted(set(text.split(","))))


# ---- criteria, own entries, publisher records


def set_criterion(held, _day, words):
    name, criterion = words[0], Criterion(frozenset(words[1:]))
    if held.criteria.get(name) == criterion:
        return "already"
    if name not in held.criteria and name not in BUILT_IN and len(held.criteria) == FURTHER_CRITERIA:
        raise Refused("9 TooManyCriteria")
    known(held.has, criterion.implies - {name})
    if name in BUILT_IN:
        raise Refused("7 BuiltInCriterion")
    held.criteria[name] = criterion


def remove_criterion(held, _day, words):
    name = words[0]
    known(held.has, {name})
    if name in BUILT_IN:
        raise Refused("7 BuiltInCriterion")
    naming = [it.implies for other, it in held.criteria.items() if other != name]
    naming += [entry.criteria for entry in held.entries.values()]
    naming += [names for policy in held.policies.values() for names in lists_of(policy)]
    naming += [settings.targets() for settings in held.settings.values()]
    if any(name in names for names in [*naming, held.in_review()]):
        raise Refused("8 CriterionInUse")
    del held.criteria[name]


def count_of(held):
    return len(held.entries) + sum(len(content.entries) for content in held.contents.values())


def read_entry(words):
    """An entry; a last day is the last word of its line."""
    kind, package, *rest = words
    said = [rest.pop()] if rest[-1].startswith(LAST_DAY) else []
    parts = {"delta": 2, "wildcard": 3, "trusted": 3}.get(kind, 1)
    return Entry(kind, package, tuple(rest[:parts]), tuple(sorted(set(rest[parts:]))), tuple(said))


def add_entry(held, day, words):
    entry = read_entry(words)
    for number, other in held.entries.items():
        if other == entry:
            return f"already {number}"
    within("entries", count_of(held) + 1, MOST_ENTRIES)
    known(held.has, entry.criteria)
    if entry.last_day() and entry.last_day() < day:
        raise Refused("11 EmptyWindow")
    held.entries[held.next_entry] = entry
    held.next_entry += 1


def drop_entry(held, _day, words):
    if int(words[0]) not in held.entries:
        raise Refused("10 UnknownEntry")
    del held.entries[int(words[0])]


def set_publishers(held, _day, words):
    package, *records = words
    tables = [dict(zip(("version", "user-id", "when"), it.split(","))) for it in set(records)]
    found = [record(table | {"user-id": int(table["user-id"])}) for table in sorted(tables, key=publisher_order)]
    if held.publishers.get(package, []) == found:
        return "already"
    held.publishers[package] = found
    if not found:
        del held.publishers[package]


# ---- policies and projects


def read_policy(words):
    policy = dict(word.split("=", 1) for word in words)
    for key in ("criteria", "dev-criteria"):
        if key in policy:
            policy[key] = names_listed(policy[key])
    if "dependency-criteria" in policy:
        items = (item.split("=") for item in policy["dependency-criteria"].split(";"))
        policy["dependency-criteria"] = {package: names_listed(names) for package, names in items}
    return policy


def set_policy(held, _day, words):
    policy = read_policy(words[1:])
    if held.policies.get(words[0]) == policy:
        return "already"
    known(held.has, set().union(*lists_of(policy)))
    held.policies[words[0]] = policy


def drop_policy(held, _day, words):
    if words[0] not in held.policies:
        raise Refused("14 UnknownPolicy")
    del held.policies[words[0]]


def load_project(held, _day, words):
    return hold_project(held, words[0], urllib.parse.unquote(words[1]))


def demand(held, _day, words):
    """The project whose root demands versions of a package."""
    package, *versions = words
    return hold_project(held, "app", table_of(*versions, package=package))


def hold_project(held, name, table):
    project = read_project(table)
    if name in held.projects and held.projects[name].lines() == project.lines():
        return "already"
    held.projects[name] = project


def drop_project(held, _day, words):
    if words[0] not in held.projects:
        raise Refused("15 UnknownProject")
    del held.projects[words[0]]


# ---- peers


def read_settings(words):
    urls, excluded, listed = words
    items = [] if listed == "-" else [item.split("=") for item in listed.split(";")]
    pairs = sorted((name, tuple(sorted(names_listed(names)))) for name, names in items)
    return Settings(items_listed(urls), items_listed(excluded), tuple(pairs))


def set_peer(held, _day, words):
    name, settings = words[0], read_settings(words[1:])
    if held.settings.get(name) == settings:
        return "already"
    within("peers", len(held.settings | {name: settings}), MOST_PEERS)
    known(held.has, settings.targets())
    held.settings[name] = settings
    held.contents.setdefault(name, Content({}, {}))


def peer_is_held(held, name):
    if name not in held.settings:
        raise Refused("13 UnknownPeer")


def drop_peer(held, _day, words):
    peer_is_held(held, words[0])
    del held.settings[words[0]], held.contents[words[0]]


def same_content(held, other):
    """Whether the content of a peer that is held is another's."""
    return held.criteria == other.criteria and set(held.entries.values()) == set(other.entries)


def numbered(held, entries, found):
    """Entries that were held keep their numbers, and others get theirs in the order of reading."""
    kept = {number: entry for number, entry in entries.items() if entry in found}
    for entry in found:
        if entry not in kept.values():
            kept[held.next_entry] = entry
            held.next_entry += 1
    return kept


def import_peer(held, _day, words):
    name, content = words[0], content_of(audits_table(tomllib.loads(text_of(words[1])), is_peer=True))
    if name in held.contents and same_content(held.contents[name], content):
        return "already"
    before = len(held.contents[name].entries) if name in held.contents else 0
    within("entries", count_of(held) - before + len(content.entries), MOST_ENTRIES)
    peer_is_held(held, name)
    entries = numbered(held, held.contents[name].entries, content.entries)
    held.contents[name] = Content(content.criteria, entries)


# ---- files


def are_held(files, held):
    """Whether all that files may say of what is held is what these say."""
    if not set(files.contents) <= set(files.settings):
        return False
    pairs = (
        (held.criteria, files.criteria),
        (set(held.entries.values()) - set(held.dated().values()), set(files.entries())),
        (held.settings, files.settings),
        (held.publishers, files.publishers),
        (held.policies, files.policies),
        (held.tool, files.tool),
    )
    same = all(before == after for before, after in pairs)
    return same and all(same_content(content, files.content(name)) for name, content in held.contents.items())


def limits(files, dated):
    if len(files.criteria) > FURTHER_CRITERIA:
        raise Refused("9 TooManyCriteria")
    within("peers", len(files.settings), MOST_PEERS)
    within("entries", len(dated) + files.count(), MOST_ENTRIES)
    within("publishers", sum(map(len, files.publishers.values())), MOST_PUBLISHERS)
    within("policies", len(files.policies), MOST_POLICIES)


def references(files):
    named = [it.implies for it in files.criteria.values()] + [entry.criteria for entry in files.entries()]
    named += [names for policy in files.policies.values() for names in lists_of(policy)]
    named += [settings.targets() for settings in files.settings.values()]
    known(lambda name: name in files.criteria or name in BUILT_IN, set().union(*named))
    if not set(files.contents) <= set(files.settings):
        raise Refused("13 UnknownPeer")


def replace_files(held, _day, words):
    files = Files(*map(text_of, words))
    if are_held(files, held):
        return "already"
    dated = held.dated()
    limits(files, dated)
    references(files)
    staying = held.in_review().union(*(entry.criteria for entry in dated.values()))
    if not staying <= {*files.criteria, *BUILT_IN}:
        raise Refused("8 CriterionInUse")
    held.criteria, held.publishers, held.policies = files.criteria, files.publishers, files.policies
    held.settings, held.tool = files.settings, files.tool
    held.entries = dated | numbered(held, held.entries, files.entries())
    before, held.contents = held.contents, {}
    for name in sorted(files.settings):
        content = files.content(name)
        entries = numbered(held, before[name].entries if name in before else {}, content.entries)
        held.contents[name] = Content(content.criteria, entries)


# ---- days and periods


def set_day(held, day, _words):
    if held.today == day:
        return "already"
    if held.today and day < held.today:
        raise Refused("32 DayGoesBack")
    held.today = day


def close_period(_held, _day, _words):
    """Changes nothing that is held."""


COMMANDS = {
    "set-criterion": set_criterion,
    "remove-criterion": remove_criterion,
    "add-entry": add_entry,
    "drop-entry": drop_entry,
    "set-publishers": set_publishers,
    "set-policy": set_policy,
    "drop-policy": drop_policy,
    "load-project": load_project,
    "demand": demand,
    "drop-project": drop_project,
    "set-peer": set_peer,
    "drop-peer": drop_peer,
    "import-peer": import_peer,
    "replace-files": replace_files,
    "set-day": set_day,
    "close-period": close_period,
}
