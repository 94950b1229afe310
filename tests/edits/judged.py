"""What a refusal shows. There are three sorts of them.

A goal fails: the prover does not prove a goal of the function that it proved by itself before the edit, under
the same name. A goal that the function had not before, or that an answer in `proofs/` proved, says nothing where
no answer fits it: a change that keeps the meaning can bring that about too.

An answer differs: all that the function's proof files name is still there, and what an answer proves is another
statement than its goal is now.

Only names are gone: the proof files name what the edit renamed or took away, and nothing else is refused. That
shows nothing, and fails the trial."""

import dataclasses

from . import said as words

GOAL, ANSWER, NAMES = SORTS = ("a goal fails", "an answer differs", "only names are gone")


@dataclasses.dataclass
class Judged:
    """What came of an edit: the sort of its refusal, or none where it was not refused, and why."""

    sort: str | None
    why: str

    def is_refused(self):
        return self.sort in (GOAL, ANSWER)

    def line(self):
        refused = {None: "", NAMES: "SHOWS NOTHING: "}.get(self.sort, "refused: ")
        return f"{refused}{self.sort + ': ' if self.sort else ''}{self.why}"


def refusal(function, said, answered, had):
    """The sort of a function's refusal, from what the prover said, the goals that the function's files answer, and
    a call that tells the goals that it had before the edit."""
    faults = said.faults_of(function)
    # with an invariant that does not fit, no goal of its loop has what it is proved from
    other = next((it for it in faults if not it.path.endswith("/Answers.antt")), None)
    if other:
        return Judged(NAMES, shown(other))
    gone = next((it for it in faults if it.is_of_names), None)
    differing = next((it for it in faults if it.is_of_types), None)
    failing = [it for it in said.goals.get(function, []) if it not in answered]
    if failing and (gone or not differing):
        # with no answers all goals were proved by the prover itself, whatever they are named
        known = failing if not answered else [it for it in failing if it in had(function)]
        if known:
            beside = "; beside it an answer names what is gone" if gone else ""
            return Judged(GOAL, f"{function}: " + ", ".join(f"`{it}`" for it in known[:4]) + beside)
    if gone:
        return Judged(NAMES, shown(gone))
    if differing:
        return Judged(ANSWER, shown(differing))
    if failing:
        return Judged(NAMES, f"{function}: new goals that nothing answers, " + ", ".join(failing[:4]))
    return Judged(NAMES, f"{function}: {said.verdicts[function][:160]}")


def to_be_compared(edits, said, answered):
    """The functions of edits whose failing goals are compared with those that they had before."""
    edited = set().union(*(edit.functions for edit in edits))
    refused = [name for name, it in said.verdicts.items() if words.is_refusal(it) and is_among(name, edited)]
    return [name for name in refused if answered(name) and set(said.goals.get(name, [])) - set(answered(name))]


def shown(fault):
    return f"{fault.path}:{fault.line}: {fault.text}"[:200]


def judge(edits, said, answered, had):
    """Which of the edits that were tried together the prover has judged, each with what came of it."""
    edited = set().union(*(edit.functions for edit in edits))
    refused = [name for name, verdict in said.verdicts.items() if words.is_refusal(verdict)]
    beside = [name for name in refused if not is_among(name, edited)]
    judged = {}
    for edit in edits:
        verdicts = {name: it for name, it in said.verdicts.items() if is_among(name, edit.functions)}
        refused = [name for name, it in verdicts.items() if words.is_refusal(it)]
        if refused and beside:
            judged[edit] = Judged(None, f"BAD EDIT: beside it {beside[0]} is not proved")
        elif refused:
            found = [refusal(name, said, answered(name), had) for name in refused]
            judged[edit] = min(found, key=lambda it: SORTS.index(it.sort))
        elif verdicts and all(it == "proved" for it in verdicts.values()):
            judged[edit] = Judged(None, "NOT REFUSED: it is still proved")
    return judged


def is_among(name, functions):
    """Whether a name of the prover's is that of one of these functions, or of a closure in one."""
    return name in functions or name.partition("+")[0] in functions
