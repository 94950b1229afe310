"""The review desk, by a plain model: members, and reviews from their opening to their end. A command changes a copy of
what is held, or answers that this is held already."""

from typing import NamedTuple

from models.commands import count_of, known, within
from models.files import Entry
from models.limits import MOST_ENTRIES
from models.refused import Refused
from models.words import word_of

MOST_MEMBERS, MOST_REVIEWS = 1_000, 100_000


class Review(NamedTuple):
    package: str
    version: str
    criteria: tuple
    day: str
    # waiting, assigned, finished or withdrawn
    state: str = "waiting"
    # the member to whom it is assigned, or the number of the entry that finished it
    by: str = ""

    def is_closed(self):
        return self.state in ("finished", "withdrawn")


def desk_lines(held):
    for member in sorted(held.members):
        yield f"member {member}"
    for number, review in sorted(held.reviews.items()):
        state = f"{review.state}={review.by}" if review.by else review.state
        yield " ".join(["review", str(number), review.day, review.package, review.version, state, *review.criteria])


def add_member(held, _day, words):
    if words[0] in held.members:
        return "already"
    within("members", len(held.members) + 1, MOST_MEMBERS)
    held.members |= {words[0]: True}


def open_review(held, day, words):
    package, version, *criteria = words
    within("reviews", len(held.reviews) + 1, MOST_REVIEWS)
    known(held.has, criteria)
    demanded = held.standing()
    if not criteria or any((package, version, name) not in demanded for name in criteria):
        raise Refused("24 NotDemanded")
    held.reviews[held.next_review] = Review(package, version, tuple(sorted(set(criteria))), day)
    held.next_review += 1


def review_held(held, number, member):
    """The review of a number, where it and the member are held."""
    if member not in held.members:
        raise Refused("19 UnknownMember")
    if int(number) not in held.reviews:
        raise Refused("20 UnknownReview")
    return held.reviews[int(number)]


def review_open(held, number, member):
    """The review of a number, where it isn't closed either."""
    review = review_held(held, number, member)
    if review.is_closed():
        raise Refused("21 ReviewClosed")
    return review


def assign_review(held, _day, words):
    number, member = words
    review = held.reviews.get(int(number))
    if review and (review.state, review.by) == ("assigned", member):
        return "already"
    held.reviews[int(number)] = review_open(held, number, member)._replace(state="assigned", by=member)


def withdraw_review(held, _day, words):
    number, member = words
    review = review_open(held, number, member)
    if review.state == "assigned" and review.by != member:
        raise Refused("22 NotYours")
    held.reviews[int(number)] = review._replace(state="withdrawn", by="")


def finish_review(held, _day, words):
    number, member, *versions = words
    review = review_open(held, number, member)
    if (review.state, review.by) != ("assigned", member):
        raise Refused("22 NotYours")
    if versions[-1] != review.version:
        raise Refused("23 WrongTarget")
    kind = "full" if len(versions) == 1 else "delta"
    entry = Entry(kind, review.package, tuple(versions), review.criteria, (f"who={word_of(member)}",))
    by = next((of for of, other in held.entries.items() if other == entry), None)
    if by is None:
        within("entries", count_of(held) + 1, MOST_ENTRIES)
        by, held.next_entry = held.next_entry, held.next_entry + 1
        held.entries[by] = entry
    held.reviews[int(number)] = review._replace(state="finished", by=str(by))


def add_audit(held, _day, words):
    """A full entry that names one who reviewed."""
    who, package, version, *criteria = words
    entry = Entry("full", package, (version,), tuple(sorted(set(criteria))), (f"who={who}",))
    for number, other in held.entries.items():
        if other == entry:
            return f"already {number}"
    within("entries", count_of(held) + 1, MOST_ENTRIES)
    known(held.has, entry.criteria)
    held.entries[held.next_entry] = entry
    held.next_entry += 1


DESK_COMMANDS = {
    "add-member": add_member,
    "open-review": open_review,
    "assign-review": assign_review,
    "finish-review": finish_review,
    "withdraw-review": withdraw_review,
    "add-audit": add_audit,
}
