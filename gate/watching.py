"""How much processor time and memory the proofs of each crate take, seen from outside: it looks each second at the
processes of the prover, and at those that they start. What a prover takes in its last second is lost, and so is a
prover that ends within a second."""

import contextlib
import os
import threading
from collections import defaultdict

GB = 1_000_000_000
SECOND_TICKS = os.sysconf("SC_CLK_TCK")
ALL = "all crates"
PROVER = "rattle"
# shared memory is read only at every tenth look, since that takes longer than the rest of a look
SELDOM = 10


def processes():
    """Each process by its number: its parent, its name, its start, and the ticks that it took, including those of the
    processes that it started and that have ended."""
    found = {}
    for number in filter(str.isdigit, os.listdir("/proc")):
        with contextlib.suppress(OSError), open(f"/proc/{number}/stat", encoding="utf-8", errors="replace") as it:
            head, _, rest = it.read().rpartition(")")
            told = rest.split()
            found[int(number)] = int(told[1]), head.partition("(")[2], told[19], sum(map(int, told[11:15]))
    return found


def prover_of(number, top, found):
    """The uppermost prover below the process `top` that started a process, or is it. None if there is no such
    prover."""
    prover = None
    while number in found and number != top:
        prover = number if found[number][1] == PROVER else prover
        number = found[number][0]
    return prover if number == top else None


def work_of(number):
    """The crate that a process of the prover works on, and whether it proves it or tries its edits. None if it works on
    no crate."""
    with contextlib.suppress(OSError, ValueError, IndexError):
        with open(f"/proc/{number}/cmdline", encoding="utf-8", errors="replace") as it:
            words = it.read().split("\0")
        kind = "edits" if {"--only", "--start"} & set(words) else "proof"
        return words[words.index("--crate-name") + 1], kind
    return None


def memory_of(number):
    """How many bytes a process holds, and the most that it held."""
    told = {}
    with contextlib.suppress(OSError), open(f"/proc/{number}/status", encoding="utf-8", errors="replace") as it:
        told = dict(line.split(":", 1) for line in it if ":" in line)
    return tuple(1024 * int(told.get(word, "0 kB").split()[0]) for word in ("VmRSS", "VmHWM"))


def share_of(number):
    """How many bytes a process holds. Memory that several processes share is divided among them."""
    with contextlib.suppress(OSError), open(f"/proc/{number}/smaps_rollup", encoding="utf-8", errors="replace") as it:
        return sum(1024 * int(line.split()[1]) for line in it if line.startswith("Pss:"))
    return 0


class Watched:
    """What was seen of the provers below a process, by crate and by whether they prove it or try its edits."""

    def __init__(self, top):
        self.top = top
        self.ticks, self.peaks = {}, defaultdict(int)
        self.looks, self.shared = 0, {}
        self.over = threading.Event()
        self.thread = threading.Thread(target=self.go_on, daemon=True)

    def __enter__(self):
        self.thread.start()
        return self

    def __exit__(self, *_):
        self.over.set()
        self.thread.join()

    def go_on(self):
        while not self.over.wait(1):
            # a process may end during a look, and watching must not make the gate fail
            with contextlib.suppress(Exception):
                self.look()

    def look(self):
        found, provers, held = processes(), defaultdict(list), defaultdict(int)
        for number in found:
            prover = prover_of(number, self.top, found)
            if prover:
                provers[prover].append(number)
        for prover, numbers in provers.items():
            work = work_of(prover)
            if work:
                self.ticks[prover, found[prover][2]] = work, sum(found[it][3] for it in numbers)
                now, most = self.memory(prover, numbers)
                self.peaks[work] = max(self.peaks[work], most)
                for it in (work, ALL):
                    held[it] += now
        for work, now in held.items():
            self.peaks[work] = max(self.peaks[work], now)
        self.looks += 1

    def memory(self, prover, numbers):
        """How many bytes a prover holds, and the most that it held. With several jobs it starts processes that prove
        for it, and that share most of its memory."""
        now, most = memory_of(prover)
        if len(numbers) == 1:
            return now, most
        if self.looks % SELDOM == 0 or prover not in self.shared:
            self.shared[prover] = sum(map(share_of, numbers))
        return max(now, self.shared[prover]), most

    def lines(self):
        """A line for each crate's proof and one for its edits, and one for all together."""
        minutes = defaultdict(float)
        for work, ticks in self.ticks.values():
            for it in (work, ALL):
                minutes[it] += ticks / SECOND_TICKS / 60
        for work in sorted(minutes, key=str):
            name = work if work == ALL else " ".join(work)
            yield f"== watched: {name}: {minutes[work]:.1f} processor minutes, at most {self.peaks[work] / GB:.1f} GB"
