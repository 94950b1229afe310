"""What the prover says of functions: a verdict on each, the goals of its own that were left unproved, and the
faults of its proof files."""

import itertools
import re

VERDICT = re.compile(r"^fn (\S+): (.*)$")
GOAL = re.compile(r"^note: (?:\./)?src/\S+:\d+:\d+: it is not proved that .*?\(`([^`]+)`\)")
FAULT = re.compile(r"^(?:\./)?(proofs/\S+\.antt):(\d+):\d+: error: (?:`([^`]+)`: )?(.*)$")
NO_FUNCTION = re.compile(r"has no function `([^`]+)`|fits several functions.*`([^`]+)`")
# what a fault says where a proof file names what is not there, and where it rests on such a declaration
GONE = re.compile(r"has no field `|has no `|is not in scope|was not admitted|has no constructor `|names no ")
RESTS = re.compile(r"^\d+ declarations? that depends? on .* (?:was|were) not checked: (.*)$")


class Fault:
    """A fault of a proof file: where it is, in which declaration, and of what sort."""

    def __init__(self, path, line, lines):
        self.path, self.line = path, int(line)
        self.text = " ".join(it.strip() for it in lines)
        head = " ".join(it.strip() for it in lines[:2])
        rests = RESTS.search(head)
        self.resting = re.findall(r"[^\s,]+", rests[1] if rests else "")
        self.is_of_names = bool(GONE.search(head))
        # a declaration that rests on a refused one is refused for that one's sake
        self.is_of_types = not self.is_of_names and not rests


class Said:
    """What one run of the prover said."""

    def __init__(self, text):
        self.text = text
        self.verdicts, self.goals, self.faults = {}, {}, []
        goals, lines = [], text.split("\n")
        for at, line in enumerate(lines):
            verdict, goal, fault = VERDICT.match(line), GOAL.match(line), FAULT.match(line)
            if goal:
                goals.append(goal[1])
            elif verdict:
                # the notes on a function stand right above its verdict
                self.verdicts[verdict[1]], self.goals[verdict[1]] = verdict[2], goals
                goals = []
            elif fault:
                more = itertools.takewhile(lambda it: it.startswith("  "), lines[at + 1 :])
                self.faults.append(Fault(fault[1], fault[2], [fault[4], *more]))

    def faults_of(self, function):
        """The faults of a function's own proof files."""
        folder = folder_of(function)
        return [it for it in self.faults if it.path.startswith((f"{folder}/", f"{folder}+"))]

    def no_function(self):
        """The name that fits no function of the crate, where the run ended by one."""
        found = NO_FUNCTION.search(self.text)
        return found and (found[1] or found[2])

    def why_none(self):
        """What a run ended by that came to no verdict."""
        lines = [line for line in self.text.split("\n") if "error" in line] or self.text.strip().split("\n")[-3:]
        return " / ".join(lines[:3])[:400]


def folder_of(function):
    """The folder of a function's proof files, from the crate's."""
    return "/".join(["proofs", *function.split("::")[1:]])


def is_refusal(verdict):
    """Whether a function is refused for its own sake, and not for one that it calls."""
    rests = "it calls `" in verdict or "it passes " in verdict
    return verdict.startswith(("not proved", "no proof")) and not rests
