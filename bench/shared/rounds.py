"""Commands and reads that are timed one by one. Each round is undone before the next, and that is not timed."""

import statistics
from typing import NamedTuple

from served.server import request_of
from shared.drawn import document
from shared.timed_server import asked

ROUNDS = 30
# so that slow commands have fewer rounds: no more of them once a processor worked so long, in us
ENOUGH = 10e6
MEMBER = "ann"


def command(name, /, **keys):
    return request_of("POST", "/commands", document(name, **keys).encode())


def by_member(name, /, **keys):
    return request_of("POST", "/commands", document(name, **keys).encode(), [f"Vet-Member: {MEMBER}"])


def get(target):
    return lambda place: Round([], always(request_of("GET", target)), nothing)


class Round(NamedTuple):
    """What is asked before a timed request, that request by the last reply to it, and what undoes it by its own."""

    before: list
    timed: object
    undo: object


def always(request):
    return lambda reply: request


def nothing(reply):
    return []


# ---- entries and reviews

def number_of(reply):
    """The number that an answer tells."""
    words = reply.decode().split()
    return int(words[words.index("number") + 1])


def drop(reply):
    return command("drop-entry", number=number_of(reply))


def dropped(reply):
    return [drop(reply)]


def full_audit(package, version, place):
    keys = {"package": package, "kind": "full", "version": version, "criteria": "safe-to-deploy"}
    return command("add-entry", who=f"Reviewer {place} <r@example.org>", **keys)


def of_demanded(place):
    return full_audit(f"package-{place}", "1.2.0", place)


def add_entry(place):
    return Round([], always(of_demanded(place)), dropped)


def add_entry_of(package):
    """AddEntry of a version of this package that nothing else names."""
    return lambda place: Round([], always(full_audit(package, f"9.{place}.0", place)), dropped)


def drop_entry(place):
    return Round([of_demanded(place)], drop, nothing)


def drop_first_entry(place):
    """Of entries whose numbers begin with 1. The next round drops the one that is first then."""
    return Round([], always(command("drop-entry", number=place + 1)), nothing)


def set_publishers(place):
    records = [{"version": f"9.{place}.0", "when": "2021-01-01", "user-id": 1}]
    package = f"package-{place + ROUNDS}"
    return Round([], always(command("set-publishers", package=package, records=records)), nothing)


def finish_review(place):
    review = place + 1
    package = f"package-{place}"
    before = [
        command("open-review", package=package, version="1.2.0", criteria="safe-to-run"),
        command("assign-review", review=review, member=MEMBER),
    ]
    return Round(before, always(by_member("finish-review", review=review, version="1.2.0")), dropped)


# ---- settings

def set_policy(place):
    policy = f"package-{place}"
    return Round([], always(command("set-policy", policy=policy, criteria="safe-to-run")),
                 lambda reply: [command("drop-policy", policy=policy)])


def drop_policy(place):
    policy = f"package-{place}"
    before = [command("set-policy", policy=policy, criteria="safe-to-run")]
    return Round(before, always(command("drop-policy", policy=policy)), nothing)


def add_member(place):
    return Round([], always(command("add-member", member=f"member-{place}")), nothing)


def set_criterion(place):
    return Round([], always(command("set-criterion", name="unheard-of", description=f"Round {place}.")), nothing)


# ---- time

def took(client, server, of_round):
    """What each round took, in us of a processor."""
    spent = 0.0
    for place in range(ROUNDS):
        what = of_round(place)
        last = asked(client, server, what.before).told[-1][1] if what.before else None
        answers = asked(client, server, [what.timed(last)])
        spent += answers.processor
        yield answers.processor
        if undo := what.undo(answers.told[0][1]):
            asked(client, server, undo)
        if spent > ENOUGH:
            return


def median(client, server, of_round):
    return statistics.median(took(client, server, of_round))
