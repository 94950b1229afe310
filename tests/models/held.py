"""What a register holds, and what follows from it, by a plain model: the demand by going round until nothing is needed
more, and a class by all chains. A violation is of one version, and a requirement's text is `=` and that version."""

from models.files import Settings
from models.projects import Project

BUILT_IN = {"safe-to-deploy": {"safe-to-run"}, "safe-to-run": set()}
CLASSES = ("conflicting", "full", "partial", "exempted", "unvetted")


def reached(implied, names):
    """Some names with all that they imply."""
    found = set(names)
    while more := {to for name in found for to in implied.get(name, ())} - found:
        found |= more
    return found


class Held:
    def __init__(self):
        # criteria beside the built-in ones; own entries by their numbers
        self.criteria, self.entries = {}, {}
        # of each peer its settings, and its criteria and entries as it speaks
        self.settings, self.contents = {}, {}
        self.publishers, self.policies, self.projects = {}, {}, {}
        # the version of cargo-vet, and the criteria for a new audit
        self.tool = (None, None)
        # members, and reviews by their numbers
        self.members, self.reviews = {}, {}
        self.next_entry = self.next_review = 1
        # the register's day
        self.today = None

    def copy(self):
        other = type(self)()
        for name, value in vars(self).items():
            setattr(other, name, dict(value) if isinstance(value, dict) else value)
        return other

    def has(self, name):
        return name in self.criteria or name in BUILT_IN

    def dated(self):
        """The exemptions with a last day, which are in no file, by their numbers."""
        return {number: entry for number, entry in self.entries.items() if entry.last_day()}

    def in_review(self):
        """The criteria of the reviews that aren't closed."""
        return set().union(*(review.criteria for review in self.reviews.values() if not review.is_closed()))

    def closed(self, names):
        return reached(BUILT_IN | {name: it.implies for name, it in self.criteria.items()}, names)

    # ---- demand

    def policy(self, node):
        return self.policies.get(":".join(node), self.policies.get(node[0], {}))

    def passed(self, project, edge, needs):
        origin, target, kind = edge
        policy = self.policy(origin)
        given = policy.get("dependency-criteria", {}).get(target[0])
        if kind != "dev":
            return needs[origin] if given is None else self.closed(given)
        if project.parties[origin] == "third":
            return set()
        return self.closed(policy.get("dev-criteria", {"safe-to-run"}) if given is None else given)

    def needed(self, project, node, needs):
        policy, party = self.policy(node), project.parties[node]
        if party != "third" and "criteria" in policy:
            return self.closed(policy["criteria"])
        given = [self.passed(project, edge, needs) for edge in project.edges if edge[1] == node]
        return set().union(*given, self.closed({"safe-to-deploy"}) if party == "root" else ())

    def needs(self, project: Project):
        needs = {node: set() for node in project.parties}
        while (more := {node: self.needed(project, node, needs) for node in needs}) != needs:
            needs = more
        return needs

    def demand(self):
        for project in self.projects.values():
            for node, names in self.needs(project).items():
                if project.parties[node] == "third" or self.policy(node).get("audit-as-crates-io") == "true":
                    yield from ((*node, name) for name in names)

    # ---- classes

    def spoken(self):
        """Each entry that counts, with the criteria that it names here, unclosed."""
        for entry in self.entries.values():
            yield entry, set(entry.criteria)
        for peer, (criteria, entries) in self.contents.items():
            settings, implied = self.settings[peer], BUILT_IN | {name: it.implies for name, it in criteria.items()}
            for entry in entries.values():
                if entry.package not in settings.excluded:
                    words = entry.criteria if entry.kind == "violation" else reached(implied, entry.criteria)
                    yield entry, mapped(settings, words)

    def steps(self, package, criterion):
        """The steps of a package that count for a criterion, and the versions condemned for it."""
        steps, condemned = set(), set()
        for entry, names in self.spoken():
            if entry.package != package:
                continue
            if entry.kind == "violation":
                if self.closed({criterion}) & names:
                    condemned.add(entry.parts[0].removeprefix("="))
            elif criterion in self.closed(names):
                steps |= set(self.steps_of(entry))
        return steps, condemned

    def has_lapsed(self, entry):
        """Whether the register's day is after the last day of an exemption."""
        return bool(self.today and entry.last_day() and entry.last_day() < self.today)

    def steps_of(self, entry):
        if self.has_lapsed(entry):
            return
        if entry.kind not in ("wildcard", "trusted"):
            origin = entry.parts[0] if entry.kind == "delta" else None
            yield (origin, entry.parts[-1], entry.kind == "exemption")
            return
        user, first, last = entry.parts
        for version, by, day, *_ in self.publishers.get(entry.package, []):
            if by == user and first <= day <= last:
                yield (None, version, False)

    def class_of(self, pair):
        package, version, criterion = pair
        steps, condemned = self.steps(package, criterion)
        chains = [chain for chain in chains_of(steps) if chain[-1][1] == version]
        clean = [chain for chain in chains if not condemned & {target for _, target, _ in chain}]
        if version in condemned and chains:
            return "conflicting"
        if any(not any(exempt for _, _, exempt in chain) for chain in clean):
            return "full"
        if any(not chain[-1][2] for chain in clean):
            return "partial"
        return "exempted" if clean else "unvetted"

    def standing(self):
        return {pair: self.class_of(pair) for pair in sorted(set(self.demand()))}


def mapped(settings: Settings, words):
    """What a peer's words stand for: a built-in one for itself, unless it is mapped."""
    told = dict(settings.map)
    return {name for word in words for name in told.get(word, {word} & set(BUILT_IN))}


def chains_of(steps, front=()):
    """All chains that go on from some steps and arrive nowhere twice."""
    at = front[-1][1] if front else None
    for step in steps:
        if step[0] == at and step[1] not in {target for _, target, _ in front}:
            yield (*front, step)
            yield from chains_of(steps, (*front, step))
