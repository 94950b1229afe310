"""Registers with one package that is made to be slow, beside drawn ones."""

from typing import NamedTuple

from shared.drawn import files, table, value
from shared.rounds import command

PACKAGE, ROOT = "made", "made-root"
LEVELS = [f"level-{place}" for place in range(61)]
# 64, as many as a register could have when the times were measured with which `changes` compares; a drawn one has three
ALL_CRITERIA = ["safe-to-deploy", "safe-to-run", "reviewed", *LEVELS]


class Package(NamedTuple):
    """What one's own files hold of a package, which of its versions a project demands, the class that each of them has,
    and which criteria are demanded: the built-in ones, if none are named."""

    audits: list
    config: list
    versions: list
    class_of_each: str
    criteria: list

    def targets(self):
        """Where the class of each demanded version is told."""
        return [f"/class/{PACKAGE}/{of}/safe-to-deploy" for of in self.versions]


def version(place):
    return f"1.0.{place}"


def audit(of, criteria="safe-to-deploy"):
    return f"[[audits.{PACKAGE}]]\ncriteria = {value([criteria] if isinstance(criteria, str) else criteria)}\n{of}\n"


def full(place, *criteria):
    return audit(f'version = "{version(place)}"', *criteria)


def delta(place, *criteria):
    """From a version to the next."""
    return audit(f'delta = "{version(place)} -> {version(place + 1)}"', *criteria)


def exemption(place):
    return f'[[exemptions.{PACKAGE}]]\nversion = "{version(place)}"\ncriteria = "safe-to-deploy"\n'


def spread(count, demanded):
    """So many versions, the last of so many among them, at the same distances."""
    return [version(count - count // demanded * place) for place in range(demanded)]


def chain(count, demanded):
    """A review of a version, and so many deltas from each to the next."""
    audits = [full(0), *map(delta, range(count))]
    return Package(audits, [], spread(count, demanded), "full", [])


def exempted_chain(count, demanded):
    """Each of so many versions is exempted, and a delta leads from each to the next. So each is `partial`, by a chain
    that must not begin with its own exemption."""
    audits, exempted = map(delta, range(count)), map(exemption, range(count))
    return Package(list(audits), list(exempted), spread(count, demanded), "partial", [])


def chain_of_all_criteria(count, demanded):
    """A chain whose steps are each for 64 criteria. All of them are demanded."""
    levels = [f"[criteria.{name}]\n" for name in LEVELS]
    steps = [delta(place, ALL_CRITERIA) for place in range(count)]
    return Package([*levels, full(0, ALL_CRITERIA), *steps], [], spread(count, demanded), "full", ALL_CRITERIA)


def violations(count, demanded):
    """A review of each of so many versions, and as many violations, none of which matches any."""
    condemning = [audit(f'violation = "=2.0.{place}"') for place in range(count)]
    return Package([*map(full, range(1, count + 1)), *condemning], [], spread(count, demanded), "full", [])


def project(versions):
    """A dependency table of a root that needs these versions of the package."""
    lines = ["what,n,p,q,r", f"node,0,{ROOT},0.1.0,root"]
    lines += [f"node,{place},{PACKAGE},{of},third" for place, of in enumerate(versions, 1)]
    lines += [f"edge,0,{place},normal," for place in range(1, len(versions) + 1)]
    return "".join(line + "\n" for line in lines)


def beside(size, package):
    """The commands that make a new register one of this size, with this package beside the others."""
    audits, config, imports = files(size)
    config += "".join(package.config)
    yield command("replace-files", audits=audits + "".join(package.audits), config=config, imports=imports)
    yield command("load-project", project="app", csv=table(size))
    if package.criteria:
        yield command("set-policy", policy=ROOT, criteria=package.criteria)
    yield command("load-project", project=PACKAGE, csv=project(package.versions))
