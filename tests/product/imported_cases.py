"""Registers that hold peers and publisher records: the commands that make each of them, given to the model of
`models/imported.py`."""

import json

WINDOW = 'criteria = "safe-to-run"\nuser-id = 5\nstart = "2023-01-01"\nend = "2023-12-31"\n'


def entry_of(package, subject, **more):
    keys = "".join(f"{key} = {json.dumps(value)}\n" for key, value in more.items())
    return f'[[audits.{package}]]\ncriteria = "reviewed"\n{subject}\n{keys}'


REVIEWED = '[criteria.reviewed]\ndescription = "Read."\nimplies = ["safe-to-run", "unknown"]\n'
FIRST = entry_of("serde", 'version = "1.0.0"')
SECOND = entry_of("serde", 'delta = "1.0.0 -> 1.0.1"', who=["b", "a"], notes="", importable=True)
THIRD = entry_of("serde", 'violation = ">=2"', who="a")
FOURTH = entry_of("serde", 'version = "1.0.3"')
OF_LOG = entry_of("log", 'version = "0.4.0"')
WINDOW_OF_SERDE = f"[[wildcard-audits.serde]]\n{WINDOW}renew = false\n"
TRUSTED = f"[[trusted.serde]]\n{WINDOW}"


def nothing_held(register):
    register.set_publishers("serde")


def own_entries_alone(register):
    register.add_entry("serde")
    register.add_entry("log")


def peers_without_content(register):
    register.set_peer("q")
    register.set_peer("p", ["serde"])
    register.import_peer("q", "")


def excluded_packages(register):
    """Of three peers, set in another order than that of their names, each leaves out others."""
    register.set_peer("r", ["log"])
    register.set_peer("p", ["serde"])
    register.set_peer("q")
    for name in ("q", "r", "p"):
        register.import_peer(name, f"{REVIEWED}{FIRST}{OF_LOG}{THIRD}")


def excluded_and_taken_again(register):
    excluded_packages(register)
    register.set_peer("q", ["log", "serde"])
    register.set_peer("r", [])
    register.set_peer("p", ["Serde", "serde-json"])


def entries_in_order_of_numbers(register):
    """Entries that were held stand before new ones, however they come."""
    register.set_peer("p")
    register.import_peer("p", f"{THIRD}{FIRST}")
    register.add_entry("serde")
    register.import_peer("p", f"{FOURTH}{FIRST}{SECOND}{THIRD}")
    register.import_peer("p", f"{FIRST}{SECOND}{THIRD}{FOURTH}")


def entry_that_went_and_came(register):
    """An entry that comes again gets a new number, and so stands last."""
    register.set_peer("p")
    register.import_peer("p", f"{REVIEWED}{FIRST}{SECOND}{OF_LOG}{WINDOW_OF_SERDE}")
    register.import_peer("p", f"{REVIEWED}{SECOND}{OF_LOG}")
    register.import_peer("p", f"{FIRST}{SECOND}{OF_LOG}{WINDOW_OF_SERDE}")


def of_several_peers_in_turn(register):
    register.set_peer("q")
    register.set_peer("p")
    register.import_peer("q", f"{REVIEWED}{SECOND}")
    register.import_peer("p", f"{SECOND}{FIRST}")
    register.import_peer("q", f"{REVIEWED}{FIRST}{SECOND}")
    register.import_peer("p", f"{FIRST}{FOURTH}{SECOND}{OF_LOG}")


def peer_dropped_and_set_again(register):
    register.set_peer("p")
    register.set_peer("q")
    register.import_peer("p", f"{REVIEWED}{FIRST}")
    register.import_peer("q", f"{REVIEWED}{FIRST}")
    register.drop_peer("p")
    register.set_peer("p")
    register.drop_peer("q")


def what_is_passed_over(register):
    """A peer's trusted entries, entries that may not be imported, built-in criteria, and doubles are not held."""
    register.set_peer("p")
    built_in = '[criteria.safe-to-run]\ndescription = "Other."\n'
    hidden = entry_of("serde", 'version = "1.0.9"', importable=False)
    register.import_peer("p", f"{built_in}{REVIEWED}{FIRST}{hidden}{FIRST}{TRUSTED}")


def publisher_records(register):
    register.set_publishers("serde", ("1.0.0", 5, "2023-02-03"), ("1.0.0-rc.1", 6, "2023-01-01"))
    register.set_publishers("log", ("0.10.0", 0, "2023-02-03"), ("0.9.0", 7, "2024-02-03"))
    register.set_publishers("none", ("1.0.0", 1, "2023-02-03"))
    register.set_publishers("serde", *((version, 5, "2023-02-03") for version in ("1.0.0+b", "1.0.0", "0.9.9")))
    register.set_publishers("none")
    register.set_publishers("log", ("0.9.0", 7, "2024-02-03"), ("0.10.0", 0, "2023-02-03"))


def records_beside_peers(register):
    publisher_records(register)
    excluded_packages(register)
    register.set_publishers("serde", (f"1.0.0@git:{20 * 'aB'}", 9223372036854775807, "9999-12-31"))


def names_of_peers(register):
    for name in ('"a"', "a.b", "audits", "%41", 64 * "~"):
        register.set_peer(name)
        register.import_peer(name, f"{FIRST}{OF_LOG}")


HELD = (
    nothing_held,
    own_entries_alone,
    peers_without_content,
    excluded_packages,
    excluded_and_taken_again,
    entries_in_order_of_numbers,
    entry_that_went_and_came,
    of_several_peers_in_turn,
    peer_dropped_and_set_again,
    what_is_passed_over,
    publisher_records,
    records_beside_peers,
    names_of_peers,
)
