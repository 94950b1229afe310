"""Registers with a package for each form of requirement: a violation of it, and a full review of each version, so that
a version is conflicting if the requirement matches it, and full otherwise."""

import itertools
import json

OPERATORS = ("", "=", ">", ">=", "<", "<=", "~", "^")
OPERANDS = ("1", "1.1", "1.1.0", "1.1.0-a.1", "1.*", "1.1.x", "0", "0.0", "0.0.3", "0.3", "0.3.1", "0.3.1-2", "0.0.0")
ALONE = [f"{operator}{operand}" for operator, operand in itertools.product(OPERATORS, OPERANDS)]
# with a comparator beside it that names a pre-release, and lets all later ones in
REQUIREMENTS = ["*", *ALONE, *(f"{it}, >=1.1.0-0" for it in ALONE), *(f">=0.3.1-0, {it}" for it in ALONE)]
VERSIONS = (
    *("0.0.0", "0.0.3", "0.0.4", "0.3.1", "0.3.1-2", "0.3.1-10", "0.3.1-a", "0.3.2-2", "1.0.9", "1.1.0", "1.1.0+b"),
    *("1.1.0-0", "1.1.0-a", "1.1.0-a.1", "1.1.0-a.1.1", "1.1.0-b", "1.1.1", "1.1.1-a", "1.2.0", "2.0.0-a", "2.0.0"),
)
CRITERION = "safe-to-run"
ROOT = "root"
# how many packages one register has
PACKAGES = 10


def entry(package, key, text):
    return f"[[audits.{package}]]\ncriteria = {json.dumps(CRITERION)}\n{key} = {json.dumps(text)}\n"


def registers():
    """The three files and the table of each."""
    for at in range(0, len(REQUIREMENTS), PACKAGES):
        yield files_and_table(REQUIREMENTS[at : at + PACKAGES])


def files_and_table(requirements):
    packages = [f"p{place}" for place in range(len(requirements))]
    audits = [entry(package, "violation", text) for package, text in zip(packages, requirements)]
    audits += [entry(package, "version", version) for package, version in itertools.product(packages, VERSIONS)]
    config = [f"[policy.{ROOT}.dependency-criteria]\n", *(f'{package} = "{CRITERION}"\n' for package in packages)]
    nodes = [f"{package},{version},third" for package, version in itertools.product(packages, VERSIONS)]
    table = ["what,n,p,q,r", f"node,0,{ROOT},0.1.0,root", *(f"node,{at},{it}" for at, it in enumerate(nodes, 1))]
    table += [f"edge,0,{at},normal," for at in range(1, len(nodes) + 1)]
    return ["".join(audits), "".join(config), ""], "".join(f"{line}\n" for line in table)
