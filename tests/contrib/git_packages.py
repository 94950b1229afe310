"""What a register asks for of packages from git, as third-party and as first-party ones: the recorded workspace has two
of them, which its server is built from."""

import os
import tempfile

from contrib.scripts import TESTS, compare, printed, read
from product.documents import document
from product.register import FOLDER, Register

RECORDED = os.path.join(TESTS, "metadata", "workspace.json")
TABLE = "cargo-metadata-to-table"
REVISION = "64116ef8e5ef0962b687dd26bd6d86542a9f7567"
OF_GIT = [f"anchor,0.3.0@git:{REVISION}", f"anchor-sys,0.1.0@git:{REVISION}"]
CRITERIA = ("safe-to-deploy", "safe-to-run")
UNVETTED = [f"{version},{criterion},unvetted" for version in OF_GIT for criterion in CRITERIA]


def standing_by(program, *words, policy=None):
    """The records of the standing after the recorded workspace was loaded by a table of these words."""
    with tempfile.TemporaryDirectory(dir=FOLDER) as folder:
        register = Register(program, os.path.join(folder, "register.db")).make()
        if policy:
            register.told(document("set-policy", policy=policy, audit_as_crates_io=True), "done 1 moves 0")
        table = printed(TABLE, "--project", "app", *words, input=read(RECORDED))
        status, text, errors = register.apply(table.encode())
        compare("load-project", (status, text[:5], errors), (0, b"done ", b""))
        return register.report("standing-csv").splitlines()


def from_git(standing):
    return [line for line in standing if "@git:" in line]


def they_are_unvetted_as_third_party(program):
    compare("standing", from_git(standing_by(program)), UNVETTED)


def they_are_not_asked_for_as_first_party(program):
    """And all else is asked for as before."""
    third, first = standing_by(program), standing_by(program, "--git", "first")
    compare("standing", first, [line for line in third if line not in UNVETTED])
    compare("other packages are asked for", len(first) > 30, True)


def one_of_ours_is_not_asked_for(program):
    compare("standing", from_git(standing_by(program, "--ours", "anchor-sys")), UNVETTED[:2])


def one_that_a_policy_audits_is_asked_for(program):
    found = standing_by(program, "--git", "first", policy=OF_GIT[0].replace(",", ":"))
    compare("standing", from_git(found), UNVETTED[:2])


def tests(program):
    for test in (
        they_are_unvetted_as_third_party,
        they_are_not_asked_for_as_first_party,
        one_of_ours_is_not_asked_for,
        one_that_a_policy_audits_is_asked_for,
    ):
        yield f"packages from git: {test.__name__}", lambda test=test: test(program)
