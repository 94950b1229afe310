"""The public calls of the product's crates, read from their sources: which faults each may answer by the type of its
result, unless its contract or its documentation rules them out. Also reads the list of the runs that make them."""

import os
import re
import sys
from typing import NamedTuple

TESTS = os.path.dirname(os.path.dirname(os.path.abspath(__file__)))
ROOT = os.path.dirname(TESTS)
sys.path.insert(0, os.path.join(TESTS, "by-hand"))
from answers import answer_of  # noqa: E402
from planted import OWNER, head_of, owner_of, past_group, sources, tokens, without_generics  # noqa: E402

LIST = os.path.join(TESTS, "program", "public_calls.txt")
HEADING, STAR = "= ", "*"
README = os.path.join(TESTS, "README.md")
SECTION = "## What no run meets"
DECLARED = re.compile(r"^(pub(?:\(\w+\))? )?(?:struct|enum|trait|type) (\w+)", re.M)
MODULE = re.compile(r"^pub mod (\w+);", re.M)
CLAUSE = re.compile(r"\b(requires|ensures)\*?\s*\w*\*?\s*$")
# only whole sentences: if just some cases of a call take no memory, that is said within a longer sentence
TAKES_NO_MEMORY = re.compile(r"(?:^|\. )(?:It t|T)akes no memory\.")


class Call(NamedTuple):
    """A public call: its name in the prover, its signature, its clauses, and its documentation."""

    name: str
    signature: str
    clauses: list
    documented: str
    may_give_up: bool

    def is_exact(self):
        """Whether a clause says what is answered, however much memory there is."""
        return any(clause.startswith("result ≡ ") and "→" not in clause for clause in self.clauses)

    def faults(self):
        """What the clauses say about each fault."""
        found = (re.fullmatch(r"IfErr result(?:\.status)? \(λ fault\. (.*)\)", clause) for clause in self.clauses)
        return [it[1] for it in found if it and "→" not in it[1]]

    def may_run_out_of_memory(self):
        is_ruled_out = self.is_exact() or "fault ≡ IoFault.Output" in self.faults()
        return self.may_give_up and not is_ruled_out and not TAKES_NO_MEMORY.search(self.documented)

    def may_have_an_input_fault(self):
        is_ruled_out = any("fault ≢ IoFault.Input" in it or it == "fault ≡ IoFault.Output" for it in self.faults())
        result = self.signature.rpartition("->")[2]
        return bool(re.search(r"Result<.*\bIoFault\b|\bDatabaseRun\b", result, re.S)) and not is_ruled_out


class Crates:
    """The sources of the product, by the paths of their modules, and which of these and of their types are public."""

    def __init__(self, root):
        self.texts = {}
        for module, file in sources(root):
            with open(file, encoding="utf-8") as it:
                self.texts[module] = it.read()
        self.modules = {it for it in self.texts if self.is_public(it)}
        self.types = {}
        for module, text in self.texts.items():
            for pub, name in DECLARED.findall(text):
                is_public = pub == "pub " and module in self.modules
                self.types[crate_of(module), name] = self.types.get((crate_of(module), name), False) or is_public

    def is_public(self, module):
        above, _, name = module.rpartition("::")
        return not above or (name in MODULE.findall(self.texts[above]) and self.is_public(above))

    def is_type_public(self, module, name):
        """Whether a type or a trait is public; one that is not declared in the crate is."""
        return self.types.get((crate_of(module), name), True)

    def calls(self):
        for module, text in self.texts.items():
            found = tokens(text)
            for at, (place, token) in enumerate(found):
                if token.startswith("fn ") and self.is_call_public(module, text, place):
                    yield call_at(module, text, found, at)

    def is_call_public(self, module, text, place):
        """Whether other crates may call the function that begins here."""
        front = text[text.rfind("\n", 0, place) + 1 : place]
        if not front.startswith(" "):
            return front == "pub " and module in self.modules
        kind, words = [it.groups() for it in OWNER.finditer(text, 0, place)][-1]
        words = words.strip() if kind == "trait" else without_generics(words).strip()
        of_trait, _, of_type = words.rpartition(" for ")
        names = [re.match(r"\w+", it)[0] for it in (of_trait, of_type) if it]
        is_method = kind == "trait" or len(names) == 2 or front.strip() == "pub"
        return is_method and all(self.is_type_public(module, name) for name in names)


def crate_of(module):
    return module.partition("::")[0]


def call_at(module, text, found, at):
    """The call whose name is at this place in the list of tokens."""
    place, token = found[at]
    signature, _ = head_of(text, found, at)
    begin = text.rfind("\n", 0, place) + 1
    owner = [owner_of(text, place)] if text[begin] == " " else []
    may_give_up = answer_of(signature, crate_of(module), text) is not None
    clauses = list(clauses_behind(text, found, at))
    return Call("::".join([module, *owner, token[3:]]), signature, clauses, said_above(text[:begin]), may_give_up)


def clauses_behind(text, found, at):
    """The clauses of the function whose name is at this place in the list of tokens, each on one line."""
    at += 1
    while found[at][1] != ";":
        place, token = found[at]
        clause = CLAUSE.search(text, 0, place) if token == "{" else None
        if token == "{" and not clause:
            return
        behind = past_group(found, at) if token in "([{" else at + 1
        if clause and clause[1] == "ensures":
            yield " ".join(text[place + 1 : found[behind - 1][0]].split())
        at = behind


def said_above(text):
    """The doc comment at the end of a text, on one line."""
    lines = []
    for line in reversed(text.split("\n")[:-1]):
        if not line.strip().startswith(("///", "#[")):
            break
        lines.append(line.strip().removeprefix("///").strip())
    return " ".join(reversed(lines))


class Run(NamedTuple):
    """A run that makes a call: a script, and words in the names of its tests. Also whether the call may answer a fault
    of the input."""

    script: str
    test: str
    may_fault: bool


def listed():
    """The runs of the list, by the names of the calls."""
    found, script, test = {}, None, None
    with open(LIST, encoding="utf-8") as it:
        lines = [line.rstrip("\n") for line in it if line.strip() and not line.startswith("#")]
    for line in lines:
        if line.startswith(HEADING):
            script, _, test = line.removeprefix(HEADING).partition(" ")
            continue
        module, *calls = line.split(" ")
        for call in calls:
            name = f"{module}::{call.removesuffix(STAR)}"
            if name in found:
                raise ValueError(f"{LIST} has {name} twice")
            found[name] = Run(script, test, call.endswith(STAR))
    return found


def explained():
    """The places that the section of tests/README.md names. A function alone means all places in it."""
    with open(README, encoding="utf-8") as it:
        section = it.read().partition(SECTION)[2].partition("\n## ")[0]
    return set(re.findall(r"`(\w+::[^`]+)`", section))
