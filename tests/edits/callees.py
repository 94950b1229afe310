"""The functions of its crate that a function calls, and those that they call in turn: the prover proves all of them
with an edited one. They are read off the texts, by names: of a method that is called on some value it is not looked at
which type that has, so it is among the callees where one type of the crate alone has a method of that name."""

import re

from .bodies import FUNCTION, body_of, type_above

# a call, with the type or the module before its name, or the value
CALL = re.compile(r"(?<![\w'])(?:(\w+)(?:::<[^()]*?>)?::|(\w*)\.)?(\w+)(?:::<[^()]*?>)?\(")


class Function:
    """A function: its name, the type whose `impl` it is in, or none, and the text of its body."""

    def __init__(self, name, owner, body):
        self.name, self.owner, self.body = name, owner, body


def functions_of(texts):
    """All functions of a crate. Those of a trait's declaration have no body, and are none."""
    for text in texts.values():
        found = list(FUNCTION.finditer(text))
        for at in found:
            owner = type_above(text[: at.start()]) if at[1] else ("", "")
            body = body_of(text, at)
            if body:
                yield Function(at[2], owner[0] if owner else "", text[body[0] : body[1]])


class Calls:
    """Which functions of a crate call which."""

    def __init__(self, texts):
        self.functions = list(functions_of(texts))
        self.free, self.methods = {}, {}
        for it in self.functions:
            (self.methods if it.owner else self.free).setdefault(it.name, []).append(it)

    def called(self, function):
        """The functions that one calls in its body."""
        for before, value, name in (it.groups() for it in CALL.finditer(function.body)):
            methods, free = self.methods.get(name, []), self.free.get(name, [])
            of = function.owner if "self" == value or before == "Self" else before
            own = [it for it in methods if of and it.owner == of]
            if value is not None:
                yield from own or (methods if len(methods) == 1 else [])
            else:
                yield from own or free

    def below(self, words):
        """How many functions one calls, and these in turn. It is named by the words of its path."""
        begun = [it for it in self.functions if it.name == words[-1] and is_of(it, words[-2])]
        left, found = list(begun), {id(it) for it in begun}
        while left:
            for it in self.called(left.pop()):
                if id(it) not in found:
                    found.add(id(it))
                    left.append(it)
        return len(found) - len(begun)


def is_of(function, before):
    """Whether a function is of the type, or of the type and the trait, that the word before its name tells."""
    return before.startswith(function.owner) if function.owner else before[:1].islower()
