"""Edits as they are written: what each changes, in which functions, and what is wrong with a malformed one. All of
it is found in the texts alone, before anything is proved."""

import dataclasses
import os
import re

from . import callees
from .bodies import FUNCTION, body_of, instance_above, type_above

# of more functions an edit in the gate is refused: each is proved once more for it. Those by hand may call as many
MOST_CALLEES = 15


class BadEdit(Exception):
    """An edit that cannot be applied, or that does not change what it says."""


@dataclasses.dataclass(frozen=True)
class Change:
    """A text put for what stands from one place to another of a file of the crate."""

    path: str
    start: int
    end: int
    new: str


class Edit:
    """An edit: its name, the functions that it changes, as the prover names them, and its changes."""

    def __init__(self, crate, written, texts):
        self.label = f"{crate}/{os.path.basename(written).removesuffix('.edit')}"
        self.functions, self.changes = set(), []
        path, old = None, None
        with open(written, encoding="utf-8") as it:
            for line in it.read().split("\n"):
                word, _, text = line.partition(": ")
                if word == "function":
                    self.functions.add(f"{crate}::{text}")
                elif word == "file":
                    path = text
                elif word == "old":
                    old = text
                elif word in ("new", "new:"):
                    self.changes.append(self.change(path, old, text, texts))
        if not self.functions or not self.changes:
            raise BadEdit(f"{self.label}: it names no function, or changes nothing")
        self.check(crate, texts)

    def change(self, path, old, new, texts):
        if path not in texts:
            raise BadEdit(f"{self.label}: there is no file {path}")
        if not old or texts[path].count(old) != 1:
            times = texts[path].count(old) if old else 0
            raise BadEdit(f"{self.label}: what it is to change is in {path} {times} times")
        if old == new:
            raise BadEdit(f"{self.label}: it puts what stands there")
        start = texts[path].index(old)
        return Change(path, start, start + len(old), new)

    def check(self, crate, texts):
        """Refuses an edit of anything but the bodies of the functions that it names, all of them."""
        changed = set()
        for it in self.changes:
            function = function_at(crate, it, texts)
            if function not in self.functions:
                what = function or f"{it.path} outside of any body"
                raise BadEdit(f"{self.label}: it changes {what}, which it does not name")
            changed.add(function)
        for name in sorted(self.functions - changed):
            raise BadEdit(f"{self.label}: it names {name}, which it does not change")


def function_at(crate, change, texts):
    """The prover's name of the function in whose body a change lies, or None."""
    text = texts[change.path]
    above = list(FUNCTION.finditer(text[: change.start]))
    if not above:
        return None
    indent, name = above[-1][1], above[-1][2]
    body = body_of(text, above[-1])
    if not body or not body[0] <= change.start or not change.end <= body[1]:
        return None
    before = text[: above[-1].start()]
    kind, instance = (type_above(before), instance_above(before)) if indent else ("", None)
    path = module_of_file(change.path) if instance else module_of(kind, change.path, texts)
    return "::".join(it for it in (crate, path, instance or "".join(kind), name) if it)


def module_of(kind, path, texts):
    """The module that the prover names a function by: its type's, if that is in another file."""
    homes = [at for at, text in texts.items() if kind and re.search(rf"\b(?:struct|enum|trait) {kind[0]}\b", text)]
    return module_of_file(path if path in homes or not homes else homes[0])


def module_of_file(path):
    inside = path.removeprefix("src/").removesuffix(".rt").removesuffix("/mod")
    return "" if inside in ("lib", "main") else inside.replace("/", "::")


def check_callees(edit, calls):
    """Refuses an edit of a function that calls many others, in turn."""
    for name in sorted(edit.functions):
        count = calls.below(name.split("::"))
        if count > MOST_CALLEES:
            what = f"{name}, which calls {count} functions of its crate, and one in the gate may call {MOST_CALLEES}"
            raise BadEdit(f"{edit.label}: it changes {what}: turn a leaf of them, or try it by hand")


def edits_of(crate, files, texts):
    """The edits that the files say, and what is wrong with each of those that are none."""
    edits, wrong, calls = [], [], callees.Calls(texts)
    for file in files:
        try:
            edit = Edit(crate, file, texts)
            if os.path.basename(os.path.dirname(file)) != "by-hand":
                check_callees(edit, calls)
            same = next((it.label for it in edits if it.changes == edit.changes), None)
            if same:
                raise BadEdit(f"{edit.label}: it is the same edit as {same}")
            edits.append(edit)
        except BadEdit as why:
            wrong.append(f"BAD EDIT: {why}")
    return edits, wrong


def with_edits(texts, edits):
    """The texts with the edits, each put in its own place, or None where two of them overlap."""
    changes = sorted((it for edit in edits for it in edit.changes), key=lambda it: (it.path, it.start))
    for one, next_one in zip(changes, changes[1:]):
        if one.path == next_one.path and next_one.start < one.end:
            return None
    texts = dict(texts)
    for it in reversed(changes):
        texts[it.path] = texts[it.path][: it.start] + it.new + texts[it.path][it.end :]
    return texts
