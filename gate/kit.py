"""The kit's own module, `rtlib`, which knows the crates and the files that they are made of; and what this machine has
for proofs, estimated as the kit does."""

import os
import shutil
import signal
import sys
import threading

ROOT = os.path.dirname(os.path.dirname(os.path.abspath(__file__)))
KIT = os.path.dirname(os.path.realpath(shutil.which("rt") or sys.exit("rt is not on the path")))
sys.dont_write_bytecode = True
sys.path.insert(0, KIT)
import rtlib  # noqa: E402

# how many bytes a proof is expected to take: the largest crates take more, but never all of them at once. With 24 GB
# three proofs run at once, so that there is room for the trials of edits too
MEMORY_OF_A_PROOF = 6 << 30
# the stamps that one call asks for, by thread
STAMPS = threading.local()


def stamp_once(crate, made=rtlib.Crate.stamp):
    """A crate's stamp, with each library below read once. By itself the module reads a library once for each path that
    leads to it: the stamp of the program took half a minute."""
    if getattr(STAMPS, "seen", None) is None:
        STAMPS.seen = {}
        try:
            return stamp_once(crate)
        finally:
            STAMPS.seen = None
    if crate not in STAMPS.seen:
        STAMPS.seen[crate] = made(crate)
    return STAMPS.seen[crate]


rtlib.Crate.stamp = stamp_once


def begin():
    """To be called before any thread runs. Processes that are started later end with this run, however it ends. At
    Ctrl-C Python would otherwise wait for what its threads have started."""
    rtlib.guarded()
    signal.signal(signal.SIGINT, signal.SIG_DFL)


def processors():
    """The processors that one may use, or fewer by the quota of the control group."""
    found = len(os.sched_getaffinity(0))
    for file, period in rtlib.QUOTAS:
        quota, period = rtlib.number_in(file, r"^(\d+)"), rtlib.number_in(*period)
        if quota and period:
            found = min(found, max(quota // period, 1))
    return found


def free():
    """The free memory in bytes, under the control group's limit too."""
    found = [1024 * rtlib.number_in("/proc/meminfo", r"MemAvailable:\s+(\d+)")]
    for limit, held in rtlib.GROUPS:
        limit, held = rtlib.number_in(limit, r"(\d+)"), rtlib.number_in(*held)
        if limit and held is not None:
            found.append(limit - held)
    return min(found)


def lanes():
    """How many proofs are to run side by side."""
    return max(min(processors(), free() // MEMORY_OF_A_PROOF), 1)
