"""The tests that are given the planted programs: those of the scripts of tests/ that reach most functions. Of a script
with many tests of one kind, only one in so many is taken."""

import glob
import importlib
import importlib.machinery
import itertools
import os
import sys
import tempfile
import types
from functools import partial

import planted

TESTS = os.path.dirname(os.path.dirname(os.path.abspath(__file__)))
# scripts with a generator `tests` of names and calls, all of which are taken
SCRIPTS = ("machine/run_trials", "files/run_files", "files/run_written")
# 8 and 32 MB, for which a planted program takes over a minute
LEFT_OUT = ("the largest file", "the_largest_input", "one_byte_more")
# a test with this keeper reaches no place of the product that the same test with the plain one does not reach
OTHER_KEEPER = ", relay"
# one in so many of these is taken: batches of run_chains and of run_demand, lists of run_store, and forms of tables of
# run_opened; and how many dependency tables are in a batch
CHAINS_APART = 40
QUESTIONS_APART = 60
TABLES_AT_ONCE = 100
# each example has six lists, so with this step each keeper and each way of giving commands is among those taken
STORED_APART = 5
FORMS_APART = 5
# how many drawn lists of run_held_files are taken
LISTS = 8
# tests of run_keepers that have more entries than a planted program holds, or run no program
NOT_OF_KEEPERS = ("each_two_are_joined", "walks_find_what_chains_do")
# these reach no function that others don't reach, and wait
UNSERVED = ("always_out_of_memory", "a_wait_that_fails_is_one_of_them", "a_listener_that_is_lost")
# tests of run_exchanges that make ten million reads, or start a program for each byte of a reply
NOT_OF_EXCHANGES = ("reads are interrupted without end", "each write ")


def load(name, programs):
    """A script of tests/ as a module, which runs the planted program in place of the built one."""
    script = types.ModuleType(name)
    script.__file__ = os.path.join(TESTS, name)
    importlib.machinery.SourceFileLoader(name, script.__file__).exec_module(script)
    for constant in ("PROGRAM", "TRIALS", "VETD", "AT_HAND"):
        if hasattr(script, constant):
            setattr(script, constant, programs[os.path.basename(getattr(script, constant))])
    if hasattr(script, "module_of"):
        script.module_of = lambda other: load(other, programs)
    return script


def is_told(classes, program, words, file, line):
    found = classes.told(program, words, file)
    if found != line + "\n":
        raise AssertionError(f"{found}, and not {line}")


def over_failing_streams(streams, test):
    """A test of fail_streams, whose library and counts each process has to itself."""
    with tempfile.TemporaryDirectory() as folder:
        test(streams.Runner(folder), streams.PRINTED[0])


def are_told(tables, cases):
    """What is told of some dependency tables, by one run."""
    found = tables.told_of([given for _, given, _ in cases])
    for given, (_, _, expected) in zip(found, cases):
        tables.compare(given, expected)


def of_files(programs):
    """What `vetd` tells of one file, and the machine's classes."""
    scripts = ("classes/run_classes", "classes/run_chains", "program/run_program")
    classes, chains, program = (load(it, programs) for it in scripts)
    for name, words, file, line in classes.rows():
        yield name, partial(is_told, classes, classes.PROGRAM, words, file, line)
    for name, words, file, line in classes.EXAMPLES:
        yield f"{name}, at hand", partial(is_told, classes, classes.AT_HAND, words, file, line)
    cases = list(chains.cases())
    for at in range(0, len(cases), CHAINS_APART * chains.PACKAGES):
        batch = chains.Batch(cases[at : at + chains.PACKAGES])
        for keeper in chains.BOTH_KEEPERS:
            yield f"chains from {at}, {keeper}", partial(batch.compare, keeper)
    for test in (program.readme_examples, program.lines_of_refusals, program.words_that_are_no_text):
        yield test.__name__, test
    streams = load("program/fail_streams", programs)
    for test in (streams.answers_in_pieces, streams.a_write_of_nothing_fails):
        yield test.__name__, partial(over_failing_streams, streams, test)


def of_keepers(programs):
    """Packages that are hard on a keeper."""
    yield from (it for it in load("classes/run_keepers", programs).tests() if not it[0].startswith(NOT_OF_KEEPERS))


def at_size(programs):
    """Of the tests at size what no smaller one meets, at the limits of the planted programs."""
    large, reviews = load("machine/run_large", programs), load("machine/run_reviews", programs)
    for script in (large, reviews):
        vars(script).update(planted.LIMITS)
    of_registers = [it for it in large.OF_REGISTERS if it is not large.a_project_as_large_as_may_be]
    for test in [*of_registers, reviews.as_many_members_as_may_be, reviews.as_many_reviews_as_may_be]:
        for keeper in large.BOTH_KEEPERS:
            yield f"{test.__name__}, {keeper}", partial(test, keeper)


def of_projects(programs):
    """Dependency tables, and what projects demand."""
    tables, demand = load("tables/run_tables", programs), load("demands/run_demand", programs)
    vars(tables).update(planted.LIMITS)
    cases = tables.small_cases()
    for at in range(0, len(cases), TABLES_AT_ONCE):
        yield f"tables from {at}", partial(are_told, tables, cases[at : at + TABLES_AT_ONCE])
    for name, given, told in tables.limits():
        yield name, partial(are_told, tables, [(name, given, told)])
    for file in sorted(glob.glob(os.path.join(TESTS, "demands", "*.txt"))):
        yield os.path.basename(file), partial(demand.compare_file, file)
    cases = demand.cases()
    for at in range(0, demand.CASES, demand.PROJECTS * QUESTIONS_APART):
        batch = list(itertools.islice(cases, demand.PROJECTS))
        next(itertools.islice(cases, demand.PROJECTS * (QUESTIONS_APART - 1), None), None)
        yield f"projects from {at}", partial(demand.compare_questions, [batch])


def of_databases(programs):
    """Registers in files, as they are made, opened and given commands. Of what opens or shows one, one kind stands for
    all, and the faults of each key are those of run_serve, where one program is told them all."""
    new, opened, register = (load(it, programs) for it in ("store/run_new", "store/run_opened", "program/run_register"))
    for test in new.TESTS:
        yield test.__name__, partial(new.at_a_path, test)
    opened.ASKED = opened.ASKED[1:2]
    for name, test in opened.tests_of_files():
        if name.startswith("the register, ") or not name.endswith(("dumped", "vacuumed")):
            yield name, test
    for version in opened.VERSIONS:
        yield from opened.tests_of_registers(version)
    yield from opened.tests_of_rows(opened.SECOND)
    yield from itertools.islice(opened.tests_of_forms(opened.SECOND), None, None, FORMS_APART)
    words = ("apply", "report", "export")
    register.COMMANDS = [next(it for it in register.COMMANDS if it[0] == word) for word in words]
    register.key_faults = tuple
    yield from register.tests()
    # its other tests are of the examples' workspace, which has more entries than a planted program holds
    yield "run_clients", load("store/run_clients", programs).each_table_is_sound_after_each_command


def of_stores(programs):
    """Commands to registers in files, and the files of what is held."""
    store, held = load("store/run_store", programs), load("files/run_held_files", programs)
    given = (it for it in store.tests() if ", command by command" not in it[0] and OTHER_KEEPER not in it[0])
    yield from itertools.islice(given, None, None, STORED_APART)
    held.LISTS = LISTS
    yield from held.tests()


def of_requests(programs):
    """Requests to `vetd serve`, and to the program of trials, which serves slices and itself."""
    yield from (it for it in load("served/run_serve", programs).named() if it[0] not in UNSERVED)
    yield from (it for it in load("served/run_exchanges", programs).named() if not it[0].startswith(NOT_OF_EXCHANGES))


def tests(programs):
    """The names and the calls of all tests. What several of them begin from is made before any process is forked."""
    os.environ["VETD"] = programs["vetd"]
    sys.path.insert(0, TESTS)
    # before any script takes its limits from there
    limits = importlib.import_module("models.limits")
    vars(limits).update({name: most for name, most in planted.LIMITS.items() if hasattr(limits, name)})
    for name in SCRIPTS:
        for named, call in load(name, programs).tests():
            if named not in LEFT_OUT and OTHER_KEEPER not in named:
                yield named, call
    for some in (of_files, of_keepers, at_size, of_projects, of_databases, of_stores, of_requests):
        yield from some(programs)
