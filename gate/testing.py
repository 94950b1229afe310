"""The scripts of `tests/`, and how they are run side by side."""

import concurrent.futures
import os

import kit

TESTS = os.path.join(kit.ROOT, "tests")
# the scripts of the must-fail edits, which are run separately
OF_EDITS = ("edits_fit", "must_fail", "edits_are_judged")
# those that take longest, which begin first
FIRST = ("program/refuse_allocations", "program/fail_streams", "machine/run_histories", "served/hostile_clients")


def scripts():
    """The scripts of tests/ and of its folders, by their paths from there, except those of edits and those by hand."""
    folders = [it.path for it in os.scandir(TESTS) if it.is_dir() and it.name != "by-hand"]
    files = [it for folder in [TESTS, *folders] for it in os.scandir(folder) if it.is_file() and os.access(it, os.X_OK)]
    found = sorted({os.path.relpath(it.path, TESTS) for it in files} - set(OF_EDITS))
    return sorted(found, key=lambda it: FIRST.index(it) if it in FIRST else len(FIRST))


def side_by_side(calls):
    """The results of the calls, in their order. As many run at a time as there are processors."""
    with concurrent.futures.ThreadPoolExecutor(kit.processors()) as pool:
        return [it.result() for it in [pool.submit(call) for call in calls]]
