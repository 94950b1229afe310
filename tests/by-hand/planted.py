"""A copy of the repository in which each function that can answer that memory ran out asks whether it is to give up: at
its head, at the head of each of its branches, and after each `if` without an `else`."""

import os
import re
import shutil
from typing import NamedTuple

from answers import LOWEST, answer_of

# their contracts say what they answer, so they can't give up; the argument of one of them can't be dropped
EXACT = {
    "vet_rows::state_of::found_register",
    "vet_item_rows::read::cells::int_at",
    "vet_item_rows::read::cells::text_at",
    "vet_item_rows::read::cells::blob_at",
    "vet_item_rows::read::columns::at_most_one",
    "vet_item_rows::read::columns::flag",
    "vet_item_rows::read::columns::number",
    "vet_item_rows::read::columns::user",
    "vet_item_rows::read::columns::day",
    "vet_item_rows::read::kinds::kind_cells",
    "vet_item_rows::read::kinds::kind_number",
    "vet_item_rows::read::kinds::window",
    "vet_rows::read::meta::check_key",
    "vet_rows::read::meta::tables_version",
    "vet_rows::read::meta::numbers",
    "vet_rows::read::meta::first_counts",
    "vet_rows::read::moves::class_or_none",
    "vet_item_rows::read::projects::party",
    "vet_item_rows::read::projects::kind",
    "vet_item_rows::read::projects::edge_between",
    "vet_item_rows::read::read_error::found",
}
# not of the product
PASSED_OVER = ("trials", "trial_clients", "trial_registers", "trial_stores", "trial_store_times", "trial_times",
               "trial_values")
# a planted program is slow, so that these are reached sooner in it
LIMITS = {
    "MOST_ENTRIES": 1_000,
    "MOST_PUBLISHERS": 1_000,
    "MOST_POLICIES": 100,
    "MOST_NODES": 500,
    "MOST_EDGES": 5_000,
    "MOST_MEMBERS": 100,
    "MOST_REVIEWS": 200,
}
# where connections are made: files, texts, and what stands there in a planted program
FEWER = [
    ("vet_store/src/memory/file.rt", r"Options::new\(0\)", r"crate::few_pages::fewer(\g<0>)"),
    ("vetd/src/file_databases.rt", r"Connection::open_from\(", "vet_store::few_pages::open_from("),
    ("trials/src/files.rt", r"Connection::open_from\(", "vet_store::few_pages::open_from("),
]
PLANTED = """//! Whether a function is to give up, as C says.

unsafe extern "C" {
    pub safe fn gives_up_at(number: usize) -> u32;
}

pub fn gives_up(number: usize) -> bool {
    gives_up_at(number) != 0
}
"""

TOKEN = re.compile(
    r"""//[^\n]*|"(?:\\.|[^"\\])*"|'(?:\\.|[^'\\])'|\bfn \w+|\b(?:if|else|while|for|loop)\b|=>|[(){}\[\];,]"""
    # the types of a call, whose commas end no expression
    r"|::<(?:[^<>]|<[^<>]*>)*>",
    re.S,
)
CLAUSE = re.compile(r"\b(requires|ensures)\*?\s*\w*\*?\s*$")
OWNER = re.compile(r"^(?:pub(?:\(\w+\))? )?(impl|trait)\b([^{]*)\{", re.M)
# a branch that gives up by itself
GIVES_UP_ITSELF = re.compile(r"\s*(return )?\(?Err\(\S*(NoMemory|AllocError|OutOfMemory\)*)\)(, None\))?;?\s*$")


class Plant(NamedTuple):
    """A place of a function where it may give up, and, where an expression has to become a block there, its end."""

    name: str
    place: int
    answer: str
    end: int | None = None


def tokens(text):
    return [(it.start(), it.group()) for it in TOKEN.finditer(text)]


def past_group(found, at):
    """The place in the list of tokens behind the group that opens at this one."""
    depth = 0
    while True:
        depth += {"(": 1, "[": 1, "{": 1, ")": -1, "]": -1, "}": -1}.get(found[at][1], 0)
        at += 1
        if depth == 0:
            return at


def head_of(text, found, at):
    """The text of a function's signature, and the place of its body's brace, if it has a body."""
    begin, signature = found[at][0], None
    at += 1
    while True:
        place, token = found[at]
        if token == ";":
            return signature or text[begin:place], None
        if token != "{":
            at = past_group(found, at) if token in "([" else at + 1
            continue
        clause = CLAUSE.search(text, begin, place)
        signature = signature or text[begin : clause.start() if clause else place]
        if not clause:
            return signature, place
        at = past_group(found, at)
        begin = found[at - 1][0]


def without_generics(words):
    """The words behind the group in angle brackets that they begin with, if they do."""
    depth = 0
    for place, letter in enumerate(words):
        depth += (letter == "<") - (letter == ">" and words[place - 1] != "-")
        if depth == 0:
            return words[place + 1 :] if letter == ">" else words
    return words


def owner_of(text, place):
    """The type, with the trait, in whose impl a function stands, as the prover names it."""
    kind, words = [it.groups() for it in OWNER.finditer(text, 0, place)][-1]
    words = words.strip() if kind == "trait" else without_generics(words).strip()
    of_trait, _, of_type = words.rpartition(" for ")
    return re.match(r"\w+", of_type).group() + "".join(re.findall(r"\w+", of_trait))


def past_expression(found, at):
    """The place in the list of tokens of what ends an expression: a comma, or the brace of what it stands in."""
    while found[at][1] not in (",", "}"):
        at = past_group(found, at) if found[at][1] in "([{" else at + 1
    return at


def block_behind(found, at):
    """The place in the list of tokens of the block that a word begins; none where it is the `if` of a pattern."""
    at += 1
    while found[at][1] != "{":
        if found[at][1] in ("=>", "if"):
            return None
        at = past_group(found, at) if found[at][1] in "([" else at + 1
    return at


def branches_of(text, found, at, end):
    """The branches in a body: the text before each, where it begins, and where it ends if it is no block."""
    for here in range(at, end):
        place, token = found[here]
        if token == "=>":
            head = text[text.rfind("\n", 0, place) + 1 : place]
            is_block = text[place + 2 :].lstrip().startswith("{")
            last = past_expression(found, here + 1)
            yield head, found[here + 1][0] + 1 if is_block else place + 2, None if is_block else found[last][0]
        elif token in ("if", "else", "while", "for", "loop"):
            block = block_behind(found, here)
            if block is None:
                continue
            begin = text.rfind("\n", 0, place) + 1 if token == "else" else place
            head, behind = text[begin : found[block][0]].lstrip(" }"), past_group(found, block)
            yield head, found[block][0] + 1, None
            if token == "if" and found[behind][1] != "else":
                yield f"behind {head}", found[behind - 1][0] + 1, None


def gives_up_itself(text, found, place, end):
    """Whether the branch that begins here does no more than give up."""
    if end is None:
        end = next(it for it, token in found if it >= place and token == "}")
    return GIVES_UP_ITSELF.match(text, place, end) is not None


def in_body(name, answer, text, found, body):
    """The plants of a function whose body begins here."""
    at = next(it for it, token in enumerate(found) if token[0] == body)
    yield Plant(name, body + 1, answer.text)
    heads = []
    for head, place, end in branches_of(text, found, at + 1, past_group(found, at) - 1):
        if gives_up_itself(text, found, place, end) or not answer.stands_behind(text[body:place]):
            continue
        heads.append(f"{name} at {' '.join(head.split())}")
        again = f" ({heads.count(heads[-1])})" if heads.count(heads[-1]) > 1 else ""
        yield Plant(heads[-1] + again, place, answer.text, end)


def plants_of(module, text):
    """The plants of a file of this module."""
    found, names = tokens(text), []
    for at, (place, token) in enumerate(found):
        if not token.startswith("fn "):
            continue
        signature, body = head_of(text, found, at)
        answer = answer_of(signature, module.partition("::")[0], text)
        if body is None or answer is None:
            continue
        is_inner = text[text.rfind("\n", 0, place) + 1].isspace()
        owner = [owner_of(text, place)] if is_inner else []
        name = "::".join([module, *owner, token[3:]])
        names.append(name)
        again = f" ({names.count(name)})" if names.count(name) > 1 else ""
        if name not in EXACT:
            yield from in_body(f"{name}{again}", answer, text, found, body)


def sources(root, passed_over=PASSED_OVER):
    """The paths of the modules with their files, crate by crate, except for the crates that are passed over."""
    for crate in sorted(os.listdir(os.path.join(root, "crates"))):
        top = os.path.join(root, "crates", crate, "src")
        if crate in passed_over or not os.path.isdir(top):
            continue
        for folder, within, files in os.walk(top):
            within.sort()
            parts = os.path.relpath(folder, top).split(os.sep) if folder != top else []
            for name in sorted(files):
                stem = os.path.splitext(name)[0]
                own = [] if not parts and stem in ("lib", "main") else [stem]
                yield "::".join([crate, *parts, *own]), os.path.join(folder, name)


def plant_file(module, file, names):
    """Plants each function of a file, by its place in the list of names, to which they are added."""
    with open(file, encoding="utf-8") as it:
        text = it.read()
    base = "crate" if module.partition("::")[0] == LOWEST else LOWEST
    plants = list(plants_of(module, text))
    pieces = []
    for number, plant in enumerate(plants, len(names)):
        asked = f" if {base}::planted::gives_up({number}) {{ return {plant.answer}; }}"
        pieces.append((plant.place, asked if plant.end is None else f" {{{asked}"))
        pieces += [] if plant.end is None else [(plant.end, " }")]
    for place, piece in sorted(pieces, key=lambda it: it[0], reverse=True):
        text = text[:place] + piece + text[place:]
    names.extend(plant.name for plant in plants)
    with open(file, "w", encoding="utf-8") as it:
        it.write(text)


def changed(file, pattern, other):
    """Changes the one text of a file that has this form."""
    with open(file, encoding="utf-8") as it:
        text, count = re.subn(pattern, other, it.read(), flags=re.M)
    if count != 1:
        raise ValueError(f"{pattern} stands {count} times in {file}")
    with open(file, "w", encoding="utf-8") as it:
        it.write(text)


def add_module(crate, name, text):
    with open(os.path.join(crate, "src", f"{name}.rt"), "w", encoding="utf-8") as it:
        it.write(text)
    with open(os.path.join(crate, "src", "lib.rt"), "a", encoding="utf-8") as it:
        it.write(f"pub mod {name};\n")


def make_fast(copy, few_pages):
    """Lowers limits, and lets each connection keep few pages."""
    crates = os.path.join(copy, "crates")
    for name, most in LIMITS.items():
        limits = os.path.join(crates, LOWEST, "src", "limits.rt")
        changed(limits, rf"(const {name}: usize = )[\d_]+;", rf"\g<1>{most};")
    for file, pattern, other in FEWER:
        changed(os.path.join(crates, file), pattern, other)
    changed(os.path.join(copy, "crates.txt"), r"^vet_store: ", r"\g<0>sqlite_std_file ")
    with open(few_pages, encoding="utf-8") as it:
        add_module(os.path.join(crates, "vet_store"), "few_pages", it.read())


def plant_all(root, copy, beside):
    """Makes the planted copy, and tells the names of the functions, each at its number. Beside this file stands the
    code that the copy has besides."""
    names = []
    for crate in os.listdir(os.path.join(root, "crates")):
        of_crate = os.path.join(root, "crates", crate, "src")
        if os.path.isdir(of_crate):
            shutil.copytree(of_crate, os.path.join(copy, "crates", crate, "src"))
    for name in ("crates.txt", "HANDLES"):
        shutil.copy2(os.path.join(root, name), copy)
    for module, file in sources(copy):
        plant_file(module, file, names)
    make_fast(copy, os.path.join(beside, "few_pages.txt"))
    lowest = os.path.join(copy, "crates", LOWEST)
    add_module(lowest, "planted", PLANTED)
    os.makedirs(os.path.join(lowest, "c"))
    shutil.copy2(os.path.join(beside, "giving_up.c"), os.path.join(lowest, "c"))
    return names
