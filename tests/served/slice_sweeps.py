"""Requests that the program of trials serves as slices by one call, with its allocations refused in turn. A request
gets its reply by the plain model, or 503, and then it is as if it had not come. Or no request gets a reply. After a
failed commit each command is refused."""

import itertools

from models.machine import Machine
from models.reports import reports_of
from product.documents import given_of
from product.refusals import NO_MEMORY_BEFORE_ALL, WANT, run
from product.trial_sweeps import APART, AT_THE_START, MOST_OF_STORE, SHUT, TRIALS
from served.server import reply_of, request_of, status_of

LINES = [
    "2024-05-01 demand serde 1.0.1",
    "2024-05-01 add-entry full serde 1.0.1 safe-to-run",
    "2024-05-01 drop-entry 7",
    "2024-05-01 add-member ann",
    "2024-05-01 add-member ann",
]
# the last request, which shows the counts
COUNTS = request_of("GET", "/counts")
REFUSED, OF_SHUT = reply_of(503, WANT), reply_of(503, SHUT)
NO_REPLY = (1, b"", b"")


def replies_to(lines):
    """The replies to commands, and then the counts."""
    machine = Machine()
    told = [machine.told(line) for line in lines]
    counts = reports_of(list(machine.contents()))["counts"]
    return [*(reply_of(status_of(line), f"{line}\n".encode()) for line in told), reply_of(200, counts.encode())]


def served(replies):
    return 0, b"".join(replies), b""


def allowed():
    """The possible answers if memory runs out."""
    own = replies_to(LINES)
    yield from (NO_MEMORY_BEFORE_ALL, NO_REPLY, served([*own[:-1], REFUSED]))
    for place, reply in enumerate(own[:-1]):
        others = replies_to(LINES[:place] + LINES[place + 1 :])
        yield served([*others[:place], REFUSED, *others[place:]])
        if b"\r\n\r\ndone " in reply:
            *before, counts = replies_to(LINES[:place])
            yield served([*before, REFUSED, *[OF_SHUT] * (len(LINES) - place - 1), counts])


def sweep(_name, library, mark):
    """How many refusals were met. Raises an error for a wrong answer."""
    own, others = served(replies_to(LINES)), set(allowed())
    requests = [request_of("POST", "/commands", given_of(line).document) for line in LINES]
    words = ["exchanges", "slices", *requests, COUNTS]
    numbers = itertools.chain(range(AT_THE_START), range(AT_THE_START, MOST_OF_STORE, APART))
    for count, refused in enumerate(numbers):
        met, answer = run(TRIALS, words, b"", refused, library, mark)
        if answer != own and not (met and answer in others):
            raise AssertionError(f"allocation {refused}: {answer}")
        if met != (refused > 0) and refused < 2:
            raise AssertionError(f"allocation {refused} was met: {met}")
        if refused and not met:
            return count - 1
    raise AssertionError(f"still refusing at allocation {MOST_OF_STORE}")
