"""The functions that a program may reach, read from the texts of the crates by names. Types of values are not known
here, so each call of a method's name counts as a call of that method. No run of the program reaches a function that is
not among these, and perhaps none reaches one that is."""

import os
import re
from typing import NamedTuple

from product.public_calls import OWNER, ROOT, crate_of, head_of, owner_of, past_group, sources, tokens, without_generics

# a call, with the type or the module before its name, or the dot after a value
TRAIT = re.compile(r"^(?:pub(?:\(\w+\))? )?trait (\w+)", re.M)
CALL = re.compile(r"(?:\b(\w+)(?:::<[^()]*?>)?::|(\.))?\b(\w+)(?:::<[^()]*?>)?\(")


class Function(NamedTuple):
    """A function: its name in the prover, its module, the type and the trait of its impl, and its body."""

    path: str
    module: str
    owners: tuple
    name: str
    body: str


def functions_in(module, text):
    found = tokens(text)
    for at, (place, token) in enumerate(found):
        if not token.startswith("fn "):
            continue
        _, body = head_of(text, found, at)
        if body is None:
            continue
        begin = next(it for it, (there, _) in enumerate(found) if there == body)
        is_inner = text[text.rfind("\n", 0, place) + 1] == " "
        path = "::".join([module, *([owner_of(text, place)] if is_inner else []), token[3:]])
        owners = owners_of(text, place) if is_inner else ()
        yield Function(path, module, owners, token[3:], text[body : found[past_group(found, begin) - 1][0]])


def owners_of(text, place):
    """The type and the trait of the impl that a function is in."""
    words = [it[2] for it in OWNER.finditer(text, 0, place)][-1]
    of_trait, _, of_type = without_generics(words).strip().rpartition(" for ")
    return tuple(re.match(r"\w+", it.strip())[0] for it in (of_type, of_trait) if it.strip())


def crates_below(program):
    """The crates that a program consists of, by crates.txt."""
    with open(os.path.join(ROOT, "crates.txt"), encoding="utf-8") as it:
        rows = (line.split(":") for line in it if not line.startswith("#"))
        named = {crate: others.split() for crate, others in rows}
    found, left = set(), [program]
    while left:
        crate = left.pop()
        if crate not in found and crate in named:
            found.add(crate)
            left += named[crate]
    return found


class Reached:
    """The functions that a program may reach from its `main`."""

    def __init__(self, program):
        crates = crates_below(program)
        self.texts = {}
        for module, file in sources(ROOT, ()):
            if crate_of(module) in crates:
                with open(file, encoding="utf-8") as it:
                    self.texts[module] = it.read()
        self.named, self.called = {}, set()
        self.traits = {name for text in self.texts.values() for name in TRAIT.findall(text)}
        for module, text in self.texts.items():
            for it in functions_in(module, text):
                self.named.setdefault(it.name, []).append(it)
        self.paths = set()
        left = [it for it in self.named["main"] if it.module == program]
        while left:
            function = left.pop()
            if function.path not in self.paths:
                self.paths.add(function.path)
                left += self.calls_of(function)

    def calls_of(self, function):
        """The functions that a function may call."""
        for before, dot, name in CALL.findall(function.body):
            self.called.add(name)
            found = self.named.get(name, [])
            methods = [it for it in found if it.owners]
            own = [it for it in methods if before in it.owners]
            if dot:
                yield from methods
            elif before and before[:1].isupper():
                yield from own or methods
            else:
                yield from (it for it in found if not it.owners and self.is_known(it, function.module))

    def is_known(self, function, module):
        """Whether a free function is of this module, or imported by it."""
        above = re.escape(function.module.rpartition("::")[2])
        imported = rf"\b{above}::(?:\{{[^}}]*)?\b{function.name}\b"
        return function.module == module or re.search(imported, self.texts[module])

    def has(self, path):
        """Whether the program may reach a function. A function without a body counts if some function of its name is
        called. Methods of a toolchain's trait are called by the toolchain."""
        function = next((it for it in self.named.get(path.rpartition("::")[2], []) if it.path == path), None)
        if function is None:
            return path.rpartition("::")[2] in self.called
        is_of_toolchain = len(function.owners) == 2 and function.owners[1] not in self.traits
        return path in self.paths or is_of_toolchain
