"""The worked examples, as documents to a register in a file."""

import glob
import os

from product.documents import given_of

EXAMPLES = os.path.join(os.path.dirname(os.path.dirname(os.path.abspath(__file__))), "examples")
TOLD = "#> "

# what a document is told in place of a line, since its keys are read in another order or in another form: the version
# of a finished review before who finished it, a delta as one text, and a number from 1
OTHERWISE = {
    "2024-05-03 assign-review 0 zed": "refused 28 FieldRefused command review",
    "2024-05-03 finish-review 1 z%20d 1.0": "refused 2 BadVersion",
}

# example: for each class, how many recorded moves arrive in it and how many depart
MOVED = {
    "exemption_review_drop": {
        "conflicting": (0, 0),
        "full": (1, 0),
        "partial": (0, 0),
        "exempted": (2, 2),
        "unvetted": (5, 2),
    },
    "counts_after_a_dropped_project": {
        "conflicting": (0, 0),
        "full": (1, 1),
        "partial": (0, 0),
        "exempted": (0, 0),
        "unvetted": (2, 2),
    },
    "an_exemption_lapses": {
        "conflicting": (0, 0),
        "full": (0, 0),
        "partial": (0, 0),
        "exempted": (2, 2),
        "unvetted": (4, 2),
    },
}


def commands_of(text):
    """The commands of a text, each with what it is told by the line below it."""
    lines = text.split("\n")
    return [(line, after[len(TOLD) :]) for line, after in zip(lines, lines[1:]) if line[:1].isdigit()]


def spread(line, told):
    """The document of a line, what it is told, its day and its member."""
    given = given_of(line)
    return given.document, OTHERWISE.get(line, told), given.day, given.member


class Example:
    """The commands of a worked example, with what each is told, what is held in the end, and the limit of moves."""

    def __init__(self, text):
        lines = text.split("\n")
        limits = [int(line.split(" ")[1]) for line in lines if line.startswith("limit ")]
        self.limit = limits[0] if limits else None
        self.told = commands_of(text)
        held = [line[len(TOLD) :] for line in lines if line.startswith(TOLD)]
        self.held = held[max(place for place, line in enumerate(held) if line.startswith("step ")) :]


def examples():
    """Each worked example by its name."""
    for file in sorted(glob.glob(os.path.join(EXAMPLES, "*.txt"))):
        with open(file, encoding="utf-8") as given:
            yield os.path.splitext(os.path.basename(file))[0], Example(given.read())
