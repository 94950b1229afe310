"""The trial of one crate's edits, in a room of its own: a copy of the crate, and a folder where the prover keeps
what it proved there. The room is new for each run, so that nothing of an earlier run is taken."""

import os
import re
import shutil
import subprocess

import rtlib  # the kit's own: it knows the words of the prover's command line

from . import judged, said, written

DECLARED = re.compile(r"^(?:abbrev )?pub (\S+) : goal\.", re.M)


class Trial:
    """A crate's room, and what was asked in it."""

    def __init__(self, crate, room):
        self.crate, self.room = crate, room
        self.texts, self.goals = {}, {}
        for part in rtlib.PARTS:
            if os.path.isdir(os.path.join(crate.folder, part)):
                shutil.copytree(os.path.join(crate.folder, part), os.path.join(room, part))
        for at, _, files in os.walk(os.path.join(room, "src")):
            for name in files:
                path = os.path.join(at, name)
                with open(path, encoding="utf-8") as it:
                    self.texts[os.path.relpath(path, room)] = it.read()

    def run(self, texts, words):
        """What the prover says of the crate with these texts."""
        for path, text in texts.items():
            with open(os.path.join(self.room, path), "w", encoding="utf-8") as it:
                it.write(text)
        command = [*rtlib.guarded(), rtlib.RATTLE, "check", *self.crate.words(["--jobs", "1"], keeps=False)]
        command += ["--incremental", "kept", *words]
        how = {"stdout": subprocess.PIPE, "stderr": subprocess.STDOUT, "stdin": subprocess.DEVNULL}
        return subprocess.run(command, cwd=self.room, text=True, errors="replace", check=False, **how).stdout

    def check(self, edits):
        """What the prover says of the functions of these edits."""
        functions = sorted(set().union(*(edit.functions for edit in edits)))
        texts = written.with_edits(self.texts, edits)
        return said.Said(self.run(texts, [word for it in functions for word in ("--only", it)]))

    def answers(self, function):
        """The names of the goals that a function's own files answer."""
        file = os.path.join(self.room, said.folder_of(function), "Answers.antt")
        if not os.path.isfile(file):
            return []
        with open(file, encoding="utf-8") as it:
            return DECLARED.findall(it.read())

    def goals_of(self, function):
        """The names of the goals that a function has with no edit."""
        if function not in self.goals:
            self.learn_goals([function])
        return self.goals[function]

    def learn_goals(self, functions):
        """Asks for the goals of functions with no edit, by one run: most of what a run takes goes into its start."""
        wanted = sorted(it for it in functions if it not in self.goals)
        if not wanted:
            return
        made = os.path.join(self.room, "made")
        words = [word for it in wanted for word in ("--start", it)]
        self.run(self.texts, [*words, "--generated", made])
        found = {it: self.goals_made(made, it) for it in wanted}
        shutil.rmtree(made, ignore_errors=True)
        if len(wanted) > 1 and not any(found.values()):
            # one that the prover cannot start keeps it from starting the others
            for it in wanted:
                self.learn_goals([it])
        else:
            self.goals |= found

    def goals_made(self, made, function):
        folder = said.folder_of(function).replace("proofs", f"Rattle-{self.crate.name}-proofs", 1)
        file = os.path.join(made, folder, "AnswersOffered.antt")
        if not os.path.isfile(file):
            return []
        with open(file, encoding="utf-8") as it:
            return DECLARED.findall(it.read())

    def judge(self, edits, told):
        self.learn_goals(judged.to_be_compared(edits, told, self.answers))
        return judged.judge(edits, told, self.answers, self.goals_of)

    def batch(self, edits):
        """As many of the edits as can be tried together: a function is edited by one of them at a time."""
        taken, functions = [], set()
        for edit in edits:
            if functions.isdisjoint(edit.functions) and written.with_edits(self.texts, [*taken, edit]):
                taken.append(edit)
                functions |= edit.functions
        return taken

    def tried(self, edits):
        """Each edit with what came of it, as soon as that is known."""
        left = list(edits)
        while left:
            taken = self.batch(left)
            told = self.check(taken)
            found = self.judge(taken, told) or self.at_fault(taken, told)
            found = self.second_looks(found, told)
            yield from found.items()
            left = [edit for edit in left if edit not in found]

    def at_fault(self, edits, told):
        """What came of edits on which there was no verdict: one of them is none, or hides the others."""
        unknown = told.no_function()
        named = [it for it in edits if unknown and any(name.endswith(unknown) for name in it.functions)]
        if named:
            return {it: judged.Judged(None, f"BAD EDIT: the crate has no function {unknown}") for it in named}
        if len(edits) == 1:
            return {edits[0]: judged.Judged(None, f"BAD EDIT: no verdict on the function: {told.why_none()}")}
        found = {}
        for edit in edits:
            told = self.check([edit])
            found |= self.judge([edit], told) or self.at_fault([edit], told)
        return found

    def second_looks(self, found, told):
        """What comes of edits once the answers that name what they took away are set aside."""
        of_names = [edit for edit, it in found.items() if it.sort == judged.NAMES]
        again = self.without_names(of_names, told)
        for edit in of_names:
            # beside another edit it came to no verdict
            if edit not in again and len(of_names) > 1:
                again |= self.without_names([edit], told)
        for edit, it in again.items():
            beside = "once the answers that name what it took away are set aside"
            if it.sort is None:
                found[edit] = judged.Judged(None, f"{it.why} {beside}")
            elif it.sort == judged.GOAL:
                found[edit] = judged.Judged(it.sort, f"{it.why}, {beside}")
        return found

    def without_names(self, edits, told):
        """What the prover says of edits that are tried together, with the answers set aside that name what is gone."""
        asides = {edit: Aside(self.room) for edit in edits}
        try:
            while any([asides[it].set(one for name in it.functions for one in told.faults_of(name)) for it in edits]):
                told = self.check(edits)
        finally:
            for aside in asides.values():
                aside.put_back()
        looked_at = [edit for edit in edits if asides[edit].were]
        return {edit: it for edit, it in self.judge(edits, told).items() if edit in looked_at} if looked_at else {}


class Aside:
    """Answers set aside, declaration by declaration, with the files as they were."""

    def __init__(self, room):
        self.room, self.were = room, {}

    def set(self, faults):
        """Takes out the declarations of these faults, and tells whether there were any."""
        lines = {}
        for it in faults:
            if it.is_of_names or it.resting:
                lines.setdefault(it.path, []).append(it)
        return any([self.take_out(path, its) for path, its in lines.items()])

    def take_out(self, path, faults):
        file = os.path.join(self.room, path)
        with open(file, encoding="utf-8") as it:
            text = it.read()
        self.were.setdefault(file, text)
        numbers = {it.line for it in faults if it.is_of_names and not it.resting}
        names = {name for it in faults for name in it.resting}
        kept, at = [], 1
        for block in text.split("\n\n"):
            rows = range(at, at + block.count("\n") + 2)
            at = rows.stop
            declared = re.match(r"(?:--.*\n)*(?:abbrev )?(?:pub )?(\S+) :", block)
            is_out = declared and (numbers & set(rows) or declared[1] in names)
            kept += [] if is_out else [block]
        with open(file, "w", encoding="utf-8") as it:
            it.write("\n\n".join(kept))
        return "\n\n".join(kept) != text

    def put_back(self):
        for file, text in self.were.items():
            with open(file, "w", encoding="utf-8") as it:
                it.write(text)
