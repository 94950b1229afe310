"""Where the functions of a text are: their bodies, and the types that they belong to."""

import re

FUNCTION = re.compile(r"^( *)(?:pub(?:\(\w+\))? )?(?:const )?(?:unsafe )?fn (\w+)", re.M)
OWNER = re.compile(r"^(?:pub(?:\(\w+\))? )?(?:unsafe )?(impl|trait)\b([^{\n]*)", re.M)


def body_of(text, function):
    """From where to where the body of a function reaches, whose head was found in a text, or None."""
    indent = function[1]
    # a body begins on a line of its own, or on the first line where the function has no clauses
    opening = re.compile(rf"^{indent}\{{$|^(?! *(?:requires|ensures|ghost|decreases)\b).*\{{$", re.M)
    body = opening.search(text, function.start())
    end = re.compile(rf"^{indent}\}}", re.M).search(text, body.end()) if body else None
    return end and (body.end(), end.start())


def instance_above(text):
    """The prover's name for the `impl` in whose items a text ends, if it is of one instance of a generic type, such as
    `Store<FileStore<D>, K>`: the words of that type, joined by `+`. None for any other `impl`."""
    heads = list(OWNER.finditer(text))
    head = heads[-1][2].replace("->", "") if heads and heads[-1][1] == "impl" else ""
    if " for " in head:
        return None
    parameters, target = re.match(r"(<(?:[^<>]|<[^<>]*>)*>)?(.*)$", head.partition(" where ")[0]).groups()
    given = set(re.findall(r"[<,]\s*(\w+)", re.sub(r"'\w+", "", parameters or "")))
    words = re.findall(r"\w+", re.sub(r"'\w+", "", target))
    return "+".join(words) if set(words[1:]) - given - {"_"} else None


def type_above(text):
    """The type of the `impl` or trait in whose items a text ends, and the trait that the `impl` is of."""
    heads = list(OWNER.finditer(text))
    if not heads:
        return ""
    head = heads[-1][2]
    if heads[-1][1] == "trait":
        return (re.match(r" (\w+)", head)[1], "")
    while re.search(r"<[^<>]*>", head):
        head = re.sub(r"<[^<>]*>", "", head)
    of, _, target = head.partition(" where ")[0].rpartition(" for ")
    last = [re.search(r"(\w+)\W*$", it) for it in (target, of)]
    return tuple(it[1] if it else "" for it in last)
