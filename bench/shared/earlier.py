"""What the program of 2026-11-28 took, which recomputed every class for each command.

A later program can't be timed beside it, so its numbers are kept here: times in ms of a processor, and memory in MB. A
time also depends on the machine and on what else runs on it. So `READING` says how long Python's `tomllib` took in the
same run to read the files of the small register. It is read again whenever something is compared with these times, and
they are scaled by how much longer or shorter that takes. All were measured on a busy machine (load 7 to 9)."""

import statistics
import time
import tomllib

DAY = "2026-11-28"
# in two runs, 85.3 and 82.5
READING = 84
# at 99,000 entries and 20,000 demanded pairs
LARGEST = {
    # these four to two digits
    "AddEntry": 160,
    "DropEntry of the newest entry": 160,
    "SetPublishers of a demanded package": 160,
    "a finished review of a demanded package": 160,
    "AddMember": 163,
    "SetPolicy": 171,
    "DropPolicy": 173,
    "SetCriterion that nothing names": 174,
    "GET /standing": 19.5,
    "GET /standing.csv": 17.1,
}
# among 99,000 own entries, with as many pairs
OWN = {
    "ReplaceFiles that changes one entry": 2520,
    "DropEntry of the first entry": 136,
}
# AddEntry of a package that is made to be slow, as the median of three rounds
HOSTILE = {
    "a chain of 10,000 deltas": 740,
    "4,000 exemptions and deltas": 428,
    "1,000 deltas of 64 criteria": 141,
    "4,000 versions and violations": 175,
}
# the most memory of a server; with 40,000 exemptions, until it was ended: it had not replied
MEMORY = {
    "99,000 entries": 184,
    "40,000 exemptions and deltas": 209,
    "99,000 entries, opened": 240,
}
# until a server listens, which opens 99,000 entries in a file: 1,884 in a run in which reading took 127.4
OPENING = 1242

READINGS = 3


class Speed:
    """How fast the machine is: the median of what reading these files took, whenever it was done in this run."""

    def __init__(self, files):
        self.files, self.readings = files, []
        self.read_files()

    def read_files(self):
        self.readings += [reading(self.files) for _ in range(READINGS)]

    def reading(self):
        return statistics.median(self.readings)

    def to_earlier(self, took, earlier):
        """What something takes, to what it would have taken then on this machine."""
        return took / (earlier * self.reading() / READING)


def reading(files):
    """What it takes to read these files, in ms."""
    begun = time.process_time()
    for text in files:
        tomllib.loads(text)
    return (time.process_time() - begun) * 1e3
