"""The class of each demanded pair by walking along steps, by a plain model of the definitions that is fast for packages
of many versions. A walk arrives at exactly the versions to which chains lead: without its rounds a walk is a chain,
which arrives nowhere twice."""

import functools

from models.held import Held
from models.tables import REVISION

BOUNDS = {"=": lambda it, bound: it == bound, ">=": lambda it, bound: it >= bound, "<": lambda it, bound: it < bound}


def arrived(steps):
    """The versions at which one arrives that sets out from nothing along these steps."""
    onward = {}
    for origin, target, _ in steps:
        onward.setdefault(origin, []).append(target)
    found, left = set(), [None]
    while left:
        for target in onward.get(left.pop(), ()):
            if target not in found:
                found.add(target)
                left.append(target)
    return found


class Walks:
    """What leads to the versions of a package for a criterion: the steps that count for it, and the versions condemned
    for it. A step is where it starts, where it leads, and whether it is exempt."""

    def __init__(self, steps, condemned):
        self.condemned = condemned
        self.clean = [step for step in steps if step[1] not in condemned]
        self.by_any, self.by_clean = arrived(steps), arrived(self.clean)
        self.by_reviews = arrived([step for step in self.clean if not step[2]])
        self.class_of = functools.cache(self.find_class)

    def find_class(self, version):
        """The topmost class that applies."""
        if version in self.condemned and version in self.by_any:
            return "conflicting"
        if version in self.by_reviews:
            return "full"
        if self.ends_in_review(version):
            return "partial"
        return "exempted" if version in self.by_clean else "unvetted"

    def ends_in_review(self, version):
        """Whether the last step of a clean chain to a version is not exempt. What precedes that step does not arrive at
        this version."""
        before = arrived([step for step in self.clean if step[1] != version]) | {None}
        return any(target == version and origin in before for origin, target, exempt in self.clean if not exempt)


# most packages are as they were before a command
walks_along = functools.lru_cache(10_000)(Walks)


def numbers(version):
    return [int(part) for part in version.partition(REVISION)[0].split(".")]


@functools.cache
def matches(requirement, version):
    """Whether a requirement matches: `*`, or one of the bounds before a version of three numbers."""
    if requirement == "*":
        return True
    bound = requirement.lstrip("=<>")
    return BOUNDS[requirement[: -len(bound)]](numbers(version), numbers(bound))


class Evidence:
    """The steps and the violations of each package of what is held, with the criteria of each."""

    def __init__(self, held):
        self.closed = functools.cache(held.closed)
        self.steps, self.violations = {}, {}
        for entry, names in held.spoken():
            if entry.kind == "violation":
                self.violations.setdefault(entry.package, []).append((entry.parts[0], names))
                continue
            for step in held.steps_of(entry):
                self.steps.setdefault(entry.package, []).append((step, self.closed(frozenset(names))))

    def condemned(self, package, criterion, versions):
        """The versions of these that are condemned for a criterion."""
        meeting = [text for text, names in self.violations.get(package, ()) if self.closed(criterion) & names]
        return frozenset(it for it in versions if any(matches(text, it) for text in meeting))

    def walks(self, package, criterion, versions):
        """The walks along the steps for a criterion, where so many versions are asked about."""
        steps = frozenset(step for step, names in self.steps.get(package, ()) if criterion in names)
        versions = versions | {target for _, target, _ in steps}
        return walks_along(steps, self.condemned(package, frozenset([criterion]), versions))


class WalkedHeld(Held):
    """What a register holds, with a standing that is found once and by walking. Requirements are those of `matches`."""

    def __init__(self):
        super().__init__()
        self.found = None

    def copy(self):
        other = super().copy()
        other.found = None
        return other

    def standing(self):
        if self.found is None:
            self.found = dict(self.found_pairs())
        return self.found

    def found_pairs(self):
        evidence, asked, pairs = Evidence(self), {}, sorted(set(self.demand()))
        for package, version, criterion in pairs:
            asked.setdefault((package, criterion), set()).add(version)
        walks = {of: evidence.walks(*of, versions) for of, versions in asked.items()}
        for package, version, criterion in pairs:
            yield (package, version, criterion), walks[package, criterion].class_of(version)
