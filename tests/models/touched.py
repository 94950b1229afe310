"""Which packages a command touches, by a plain model of the rules: those whose steps, condemned versions or demanded
pairs it may change. They are found from what is held before the command and after it."""

from models.files import Content

EVERYTHING = "*"
EMPTY = Content({}, {})


def everything(_before, _after, _words):
    return {EVERYTHING}


def nothing(_before, _after, _words):
    return set()


def own_entries(before, after, _words):
    """The packages of own entries that are held only before or only after it."""
    return {entry.package for _, entry in before.entries.items() ^ after.entries.items()}


def package_named(_before, _after, words):
    return {words[0]}


def entries_of_peer(before, after, words):
    """The packages of all entries that are held of the peer, before or after it."""
    contents = [held.contents.get(words[0], EMPTY) for held in (before, after)]
    return {entry.package for content in contents for entry in content.entries.values()}


def demand(before, after, _words):
    """The packages of pairs that are demanded only before or only after it."""
    return {package for package, *_ in set(before.demand()) ^ set(after.demand())}


def lapsing(before, after, _words):
    """The packages of the exemptions that the command makes lapse."""
    return {it.package for it in after.entries.values() if after.has_lapsed(it) and not before.has_lapsed(it)}


TOUCHES = {
    "set-criterion": everything,
    "remove-criterion": everything,
    "replace-files": everything,
    "add-entry": own_entries,
    "add-audit": own_entries,
    "drop-entry": own_entries,
    "finish-review": own_entries,
    "set-publishers": package_named,
    "set-peer": entries_of_peer,
    "drop-peer": entries_of_peer,
    "import-peer": entries_of_peer,
    "set-policy": demand,
    "drop-policy": demand,
    "load-project": demand,
    "demand": demand,
    "drop-project": demand,
    "add-member": nothing,
    "open-review": nothing,
    "assign-review": nothing,
    "withdraw-review": nothing,
    "set-day": lapsing,
    "close-period": nothing,
}


def touched_by(line, before, after):
    """The packages that a command touches that was done, each once, in the order of their names."""
    _, word, *words = line.split(" ")
    return sorted(TOUCHES[word](before, after, words))
