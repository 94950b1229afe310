"""A disk under a register's file that stops or fails at one call: `store/failing_disk.c`, preloaded into `vetd`."""

import errno
import os
import shutil
import struct
import subprocess
from typing import NamedTuple

LIBRARY = "failing_disk.so"
TESTS = os.path.dirname(os.path.dirname(os.path.abspath(__file__)))
# the endings of the names of a register's file and of its log, after the register's path
FILE, LOG = ENDS = ("", "-wal")
# the faults, each with the environment for the library: the process is killed at the call, or the call fails
KILLS = {"killed before a call": {}, "killed within a write": {"DISK_CUT": "1"}}
FAILURES = {name: {"DISK_ERROR": str(getattr(errno, name))} for name in ("EIO", "ENOSPC")}
# a call that reads fails
READS = {"EIO at a read": {"DISK_ERROR": str(errno.EIO), "DISK_READ": "1"}}


class Met(NamedTuple):
    """The counts of a run, in the order of the library's struct. `fault` is the number of the call with the fault:
    among `reads` if calls that read fail, otherwise among `calls`."""

    loaded: int
    calls: int
    writes: int
    reads: int
    fault: int


COUNTS = struct.Struct("5Q")


def build_library(folder):
    """Builds the library in a folder, and returns its path."""
    library = os.path.join(folder, LIBRARY)
    source = os.path.join(TESTS, "store", "failing_disk.c")
    subprocess.run(["cc", "-O1", "-shared", "-fPIC", "-o", library, source, "-ldl"], check=True)
    return library


def copy_register(path, to, ends=ENDS):
    """Copies a register's file and its log, or one of them. If one is missing, it is missing in the copy too."""
    for end in ends:
        if os.path.exists(path + end):
            shutil.copyfile(path + end, to + end)
        elif os.path.exists(to + end):
            os.remove(to + end)


def counting(path, synced, counts):
    """Makes the file of the counts. Returns the variables by which the library counts the calls to a register's files,
    and keeps a copy of each file as of its last sync."""
    with open(counts, "wb") as file:
        file.write(bytes(COUNTS.size))
    # the library compares this with the names of open files, which have no symbolic links in them
    return {"DISK_FILE": os.path.realpath(path), "DISK_SYNCED": synced, "DISK_MET": counts}


def met_at(counts):
    """The counts so far in the file of the counts."""
    with open(counts, "rb") as file:
        met = Met(*COUNTS.unpack(file.read()))
    if met.loaded != 1:
        raise AssertionError("the library was not loaded")
    return met


class Disk:
    """A disk in a folder, with a copy of a register on it and a fault at the call of this number."""

    def __init__(self, library, folder, register, fault, place):
        names = ("register.db", "synced.db", "met")
        self.path, self.synced, self.counts = (os.path.join(folder, name) for name in names)
        for path in (self.path, self.synced):
            copy_register(register, path)
        files = counting(self.path, self.synced, self.counts)
        self.environment = dict(os.environ, LD_PRELOAD=library, DISK_PLACE=str(place), **files, **fault)

    def met(self):
        return met_at(self.counts)

    def after_crash(self, lost, folder):
        """Copies the register to another folder, without what these files had not synced, and returns its path."""
        path = os.path.join(folder, "register.db")
        copy_register(self.path, path)
        copy_register(self.synced, path, lost)
        return path
