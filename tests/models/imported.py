"""What a register holds of peers and publisher records, by the rules, and the imports file that is written of it."""

import tomllib

from models.tables import audits_table, in_order, publisher_order, same, unless_empty, version_text
from models.words import word_of

DAY = "2024-05-01"
LISTS = ("audits", "wildcard-audits")


def parsed(text):
    """A text as another reader sees it, which ignores a byte order mark as `toml` does."""
    return tomllib.loads(text.removeprefix("\ufeff"))


class Register:
    """What a register holds of peers and publisher records, by a plain model, and the lines that make it so."""

    def __init__(self):
        self.lines, self.answers = [], []
        self.settings, self.peers, self.publishers = {}, {}, {}
        self.steps, self.numbers = 0, 0

    def give(self, line, is_new, number=None):
        self.lines.append(f"{DAY} {line}")
        self.steps += is_new
        told = "" if number is None else f" number {number}"
        self.answers.append(f"done {self.steps}{told} moves 0" if is_new else "already")

    def set_peer(self, name, exclude=()):
        is_new = self.settings.get(name) != set(exclude)
        self.settings[name] = set(exclude)
        self.peers.setdefault(name, ({}, []))
        self.give(f"set-peer {word_of(name)} - {','.join(exclude) or '-'} -", is_new)

    def drop_peer(self, name):
        del self.settings[name], self.peers[name]
        self.give(f"drop-peer {word_of(name)}", True)

    def import_peer(self, name, text):
        """An entry that was held keeps its number, and others get theirs in the order of reading."""
        table = audits_table(parsed(text), is_peer=True)
        criteria, held = self.peers[name]
        found = [
            (kind, package, entry)
            for kind in LISTS
            for package in in_order(table.get(kind, {}))
            for entry in table.get(kind, {})[package]
        ]
        new = [it for it in found if not any(same(it, other) for _, other in held)]
        kept = [(number, it) for number, it in held if any(same(it, other) for other in found)]
        is_new = bool(new) or len(kept) < len(held) or not same(criteria, table.get("criteria", {}))
        self.peers[name] = (table.get("criteria", {}), kept + list(enumerate(new, self.numbers + 1)))
        self.numbers += len(new)
        self.give(f"import-peer {word_of(name)} {word_of(text)}", is_new)

    def add_entry(self, package):
        self.numbers += 1
        self.give(f"add-entry full {package} 1.0.0 safe-to-run", True, self.numbers)

    def set_publishers(self, package, *records):
        """Of each record the version, the user and the day."""
        found = {(version_text(version), user, day) for version, user, day in records}
        is_new = self.publishers.get(package, set()) != found
        self.publishers[package] = found
        told = "".join(f" {version},{user},{day}" for version, user, day in records)
        self.give(f"set-publishers {package}{told}", is_new)

    def peer_table(self, name):
        criteria, held = self.peers[name]
        found = {"audits": {}} | unless_empty(criteria=criteria)
        for _, (kind, package, entry) in sorted(held, key=lambda it: it[0]):
            if package not in self.settings[name]:
                found.setdefault(kind, {}).setdefault(package, []).append(entry)
        return found

    def imports_table(self):
        def record(version, user, day):
            return {"version": version, "when": day, "user-id": user}

        publishers = {
            package: sorted((record(*it) for it in found), key=publisher_order)
            for package, found in self.publishers.items()
            if found
        }
        peers = {name: self.peer_table(name) for name in self.peers}
        return {"audits": peers} | unless_empty(publisher=publishers)
