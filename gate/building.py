"""Builds the libraries from the lowest up, each proved over kept work once those below it are built. A library that was
built from the same sources over the same contracts stays, whatever bodies below it have changed. `rt all` and `rt run`
would first read all sources again, which takes minutes."""

import concurrent.futures
import hashlib
import os
import re
import time

import kit
from kit import ROOT, rtlib

# where the output of each step is kept
KEPT = os.path.join(ROOT, "out", "kept")
TIMES = os.path.join(ROOT, "docs", "gate-times.md")
ROW = re.compile(r"(?m)^\| `(\w+)` \| [^|]* \| ([\d.]+) min \| ")
# the lines that a processor proves in a minute, if no run has measured it
LINES_A_MINUTE = 1_000
PROVED = re.compile(r"(fn|struct|enum|impl) \S+: proved$")
# the most jobs of a proof, and the memory of each further job, as a part of the first's
MOST_JOBS, MORE_MEMORY = 4, 0.6


def files_below(folder, leave=()):
    """The files of a folder and of the folders in it, except folders with these names."""
    for at, folders, names in os.walk(folder):
        folders[:] = sorted(set(folders) - set(leave))
        yield from (os.path.join(at, name) for name in sorted(names))


def sum_of(files):
    """A checksum of the files' paths and contents."""
    sums = hashlib.sha256()
    for file in files:
        with open(file, "rb") as it:
            content = it.read()
        sums.update(f"{os.path.relpath(file, ROOT)} {len(content)}\n".encode() + content)
    return sums.hexdigest()


def contracts(crate):
    """The files with what the crate promises: definitions, lemmas, and its code without the bodies, as its built
    library has it. A program has no library, so its code is taken instead."""
    proofs = os.path.join(crate.folder, "proofs")
    yield from files_below(os.path.join(crate.folder, "specs"))
    yield from (file for file in files_below(proofs) if os.path.dirname(file) == proofs)
    yield from files_below(os.path.join(crate.folder, "src") if crate.is_program else f"{crate.rlib}/lang/src")


def basis(crate):
    """A checksum of what a library's proofs rest on: its own files, and what the libraries below it promise."""
    own = [os.path.join(rtlib.KIT, "WHAT"), os.path.join(ROOT, "crates.txt"), *rtlib.files_of(crate.folder)]
    return sum_of([*own, *(file for it in crate.below() for file in contracts(it))])


def stays(crate):
    """Whether a library was built on this basis. Then at most a body below it has changed, which it does not read, and
    its stamp is written again so that `rt` takes it as up to date."""
    place = os.path.dirname(crate.rlib)
    if not crate.is_built() and rtlib.text_of(f"{place}/basis") == basis(crate):
        with open(f"{place}/stamp", "w", encoding="utf-8") as it:
            it.write(crate.stamp())
    return crate.is_built()


def note_basis(crate):
    """Writes down the basis on which a library was built, if that is still its basis."""
    on = basis(crate)
    if crate.is_built():
        with open(os.path.join(os.path.dirname(crate.rlib), "basis"), "w", encoding="utf-8") as it:
            it.write(on)


def minutes_of(crates):
    """How many processor minutes each crate is likely to take, by what the gate took last, or otherwise by its
    lines."""
    measured = dict(ROW.findall(rtlib.text_of(TIMES) or ""))
    return {it: float(measured.get(it.name, 0)) or lines_of(it) / LINES_A_MINUTE for it in crates}


def lines_of(crate):
    found = 0
    for file in rtlib.files_of(crate.folder):
        with open(file, "rb") as it:
            found += it.read().count(b"\n")
    return found


def unproved(said):
    """The lines that a step printed, without those that say that something is proved."""
    return [line for line in said.split("\n") if line and not PROVED.match(line)]


def jobs_of(idle, others, memory=kit.MEMORY_OF_A_PROOF):
    """How many jobs a proof has, as far as memory allows: its share of the idle processors among all crates that are
    ready. The share is rounded up, since the first crate is the one of the longest chain."""
    by_memory = 1 + int(max(kit.free() / memory - 1, 0) / MORE_MEMORY)
    return max(1, min(-(-idle // others), by_memory, MOST_JOBS))


class Built:
    """The result of building a library: whether it is built, what was printed, and how many seconds it took."""

    def __init__(self, crate, jobs):
        begun = time.monotonic()
        os.makedirs(os.path.join(crate.folder, "out"), exist_ok=True)
        with open(os.path.join(KEPT, f"{crate.name}.log"), "w+", encoding="utf-8", errors="replace") as crate.out:
            self.stayed = stays(crate)
            self.is_well = self.stayed or crate.build_rlib(["--jobs", str(jobs)], anew=False) == 0
            crate.out.seek(0)
            self.said = crate.out.read()
        note_basis(crate)
        self.seconds = time.monotonic() - begun


class Building:
    """Libraries that are built side by side, as many as there are lanes, each by a call of `build` with its jobs. The
    onlooker is called for each as it begins and as it ends."""

    def __init__(self, libraries, onlooker, build=Built, lanes=None):
        self.onlooker, self.build, self.lanes = onlooker, build, lanes or kit.lanes()
        minutes = minutes_of(libraries)
        self.above = {it: self.minutes_above(it, minutes) for it in libraries}
        self.left = sorted(libraries, key=lambda it: -self.above[it])
        self.running, self.built = {}, set()

    @staticmethod
    def minutes_above(crate, minutes):
        """The processor minutes of the longest chain of crates from this one up."""
        above = [it for it in minutes if crate in it.deps]
        return minutes[crate] + max((Building.minutes_above(it, minutes) for it in above), default=0)

    def run(self):
        """Whether all were built."""
        os.makedirs(KEPT, exist_ok=True)
        held = rtlib.lock(self.left)
        with concurrent.futures.ThreadPoolExecutor(self.lanes) as pool:
            self.begin(pool)
            while self.running:
                done, _ = concurrent.futures.wait(self.running, return_when=concurrent.futures.FIRST_COMPLETED)
                for it in done:
                    crate, _ = self.running.pop(it)
                    self.onlooker.ended(crate, it.result())
                    self.built |= {crate} if it.result().is_well else set()
                self.begin(pool)
        for it in held:
            os.close(it)
        return not self.left and self.onlooker.is_well

    def ready(self):
        """The libraries that may begin. While the next library of the longest chain waits for those that are running,
        none begins that has a chain of less than half its length, so that a second processor and its memory stay
        free."""
        found = [it for it in self.left if self.built.issuperset(it.deps)]
        begun = self.built.union(crate for crate, _ in self.running.values())
        if not self.left or self.left[0] in found or not begun.issuperset(self.left[0].deps):
            return found
        return [it for it in found if 2 * self.above[it] >= self.above[self.left[0]]]

    def begin(self, pool):
        """Begins the libraries that are ready, as many as there are lanes, and shares the processors among them."""
        ready = self.ready()
        for at, crate in enumerate(ready):
            idle = kit.processors() - sum(jobs for _, jobs in self.running.values())
            free_lanes = self.lanes - len(self.running)
            if idle < 1 or free_lanes < 1:
                break
            jobs = jobs_of(idle, min(len(ready) - at, free_lanes))
            self.left.remove(crate)
            self.onlooker.begins(crate, jobs)
            self.running[pool.submit(self.build, crate, jobs)] = crate, jobs
        self.onlooker.goes_on()
