"""Finds the class of each pair of a register from rows of its tables, by a worklist.

A violation's requirement is taken to be `=` and a version, as `drawn` writes them."""

BUILT_IN = {b"safe-to-deploy": [b"safe-to-run"], b"safe-to-run": []}
FULL, DELTA, VIOLATION, WILDCARD, TRUSTED, EXEMPTION = range(6)
NONE = frozenset()


class Criteria:
    """Criteria with what they imply. The closure of each list of names is found once."""

    def __init__(self):
        self.implied, self.closures = dict(BUILT_IN), {}

    def closed(self, names):
        key = tuple(names)
        found = self.closures.get(key)
        if found is None:
            found, work = set(names), list(names)
            while work:
                for name in self.implied.get(work.pop(), ()):
                    if name not in found:
                        found.add(name)
                        work.append(name)
            self.closures[key] = found
        return found


class Peer:
    """What a peer's names stand for here. Each list of names is looked up once."""

    def __init__(self, row):
        _name, _url, exclude, pairs = row
        self.excluded = {name.decode() for name in exclude}
        self.map = dict(zip(pairs[::2], pairs[1::2]))
        self.criteria, self.mapped = Criteria(), {}

    def stands_for(self, names):
        key = tuple(names)
        found = self.mapped.get(key)
        if found is None:
            found = [to for name in names for to in self.map.get(name, [name] if name in BUILT_IN else [])]
            self.mapped[key] = found
        return found


class Words:
    """What the names of criteria mean, those of peers too, by the rows of both."""

    def __init__(self, criteria, peers):
        self.own = Criteria()
        self.peers = {row[0]: Peer(row) for row in peers}
        for peer, name, _about, _url, implies in criteria:
            (self.peers[peer].criteria if peer else self.own).implied[name.encode()] = implies

    def local(self, peer, kind, names):
        """The criteria of an entry as they count here: closed, or as they are named by a violation."""
        if not peer:
            return names if kind == VIOLATION else self.own.closed(names)
        peer = self.peers[peer]
        if kind == VIOLATION:
            return peer.stands_for(names)
        return self.own.closed(peer.stands_for(sorted(peer.criteria.closed(names))))


class Register:
    """Rows of entries, of publishers' records and of the standing, of all packages or of some."""

    def __init__(self, words, entries, publishers, standing):
        self.words = words
        self.entries = by_package(entries, 2)
        self.publishers = by_package(publishers, 0)
        self.pairs = by_package(standing, 0)
        # the numbers of exemptions that give no step
        self.lapsed = NONE

    def steps(self, package):
        """The steps of a package, each with its criteria, and its violations."""
        steps, violations = [], []
        for entry in self.entries.get(package, ()):
            number, peer, _package, kind, first, second, user, begins, ends, names, *_rest = entry
            if number in self.lapsed or peer and package in self.words.peers[peer].excluded:
                continue
            names = self.words.local(peer, kind, names)
            if kind == VIOLATION:
                violations.append((first.removeprefix("="), set(names)))
            elif kind == DELTA:
                steps.append((first, second, names, False))
            elif kind in (FULL, EXEMPTION):
                steps.append((None, first, names, kind == EXEMPTION))
            else:
                for _package, version, by, day, *_names in self.publishers.get(package, ()):
                    if by == user and begins <= day <= ends:
                        steps.append((None, version, names, False))
        return steps, violations

    def standing(self):
        """Each pair with the place of its class."""
        for package, pairs in self.pairs.items():
            steps, violations = self.steps(package)
            for criterion in {pair[2] for pair in pairs}:
                search = Search(steps, violations, self.words.own, criterion.encode())
                for _package, version, of, _class in pairs:
                    if of == criterion:
                        yield package, version, criterion, search.class_of(version)


def lapsed(today, lasts):
    """The numbers of the exemptions that have lapsed, from the rows of the tables `today` and `lasts`."""
    return {number for number, last in lasts for _one, day in today if last < day}


def by_package(rows, place):
    """Rows by the name of their package."""
    found = {}
    for row in rows:
        found.setdefault(row[place], []).append(row)
    return found


class Search:
    """The versions of a package to which chains lead for one criterion, found once for all of its pairs."""

    def __init__(self, steps, violations, criteria, criterion):
        closure = criteria.closed([criterion])
        self.condemned = {version for version, names in violations if names & closure}
        self.steps = {}
        for origin, target, names, exempt in steps:
            if criterion in names:
                self.steps.setdefault(origin, []).append((target, exempt))
        self.full = self.reached(self.condemned, lambda target, exempt: exempt)
        self.clean = self.reached(self.condemned, lambda target, exempt: False)

    def reached(self, barred, skips):
        found, work = set(), [None]
        while work:
            for target, exempt in self.steps.get(work.pop(), ()):
                if target not in found and target not in barred and not skips(target, exempt):
                    found.add(target)
                    work.append(target)
        return found

    def class_of(self, version):
        if version in self.condemned:
            return 0 if version in self.reached(NONE, lambda target, exempt: False) else 4
        if version in self.full:
            return 1
        if version not in self.clean:
            return 4
        return 2 if version in self.reached(self.condemned, lambda target, exempt: exempt and target == version) else 3
