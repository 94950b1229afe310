"""Requests to `vetd serve` whose reads and writes fail for the first client. That client gets its whole reply, or the
bytes before the write that failed. The next client, whose streams do not fail, learns what was done. `runner` runs the
program with the library of `program/failing_streams.c`, and reads its counts."""

import time

from served.cases import ADD_ANN, ALREADY_ANN, DONE_ANN
from served.server import Server, compare, reply_or_end

MOST_READS = 10_000_000
# how long a busy machine may take for this many reads, in s
PATIENCE = 600
# what FAILING_STREAM calls the socket
SOCKET = 0
# each read gives one byte of the request, and each write takes one byte of the reply
READS, WRITES = len(ADD_ANN), len(DONE_ANN)


def met_over(runner, reply, then, **streams):
    """Sends the same request from two clients, which must get these replies. Returns the counts of the run."""
    with Server(2, env=runner.environment(**streams), seconds=PATIENCE) as server:
        with server.connect(faulted=reply != DONE_ANN, seconds=PATIENCE) as client:
            compare(f"over {streams}", reply_or_end(client, ADD_ANN), reply)
        compare(f"the next client, over {streams}", server.exchange(ADD_ANN), then)
    return runner.met()


def bytes_are_given_one_by_one(runner):
    """Each byte takes one read, or two if a read is interrupted before it."""
    for pieces, interrupted in ((1, 0), (2, READS)):
        met = met_over(runner, DONE_ANN, ALREADY_ANN, reads_in_pieces=pieces)
        found = met.reads, met.interrupted_reads, met.failed_reads, met.bytes_given
        compare("reads", found, (READS + interrupted, interrupted, 0, READS))


def each_read_fails_in_turn(runner):
    """A read is interrupted before each byte. Whichever read fails, nothing is answered and no member is added."""
    reads = 2 * READS
    for failed in range(1, reads + 1):
        met = met_over(runner, b"", DONE_ANN, reads_in_pieces=2, failed_read=failed)
        compare(f"reads up to {failed}", (met.reads, met.failed_reads), (failed, 1))
    met = met_over(runner, DONE_ANN, ALREADY_ANN, reads_in_pieces=2, failed_read=reads + 1)
    compare("with no read left to fail", (met.reads, met.failed_reads), (reads, 0))


def reads_are_interrupted_without_end(runner):
    begun = time.monotonic()
    met = met_over(runner, b"", DONE_ANN, interrupted_reads=MOST_READS)
    compare("reads", (met.reads, met.interrupted_reads), (MOST_READS, MOST_READS))
    print(f"serve: {met.reads} reads: {time.monotonic() - begun:.1f} s")


def each_write_fails_in_turn(runner):
    """One write is interrupted. Then only the bytes before it are sent, and the member is added."""
    for failed in range(1, WRITES + 1):
        met = met_over(runner, DONE_ANN[: failed - 1], ALREADY_ANN, failing_stream=SOCKET, failed_write=failed)
        compare(f"writes up to {failed}", (met.writes, met.failed_writes), (failed, 1))
    met = met_over(runner, DONE_ANN, ALREADY_ANN, failing_stream=SOCKET, failed_write=WRITES + 1)
    compare("with no write left to fail", (met.writes, met.failed_writes), (WRITES, 0))


def a_write_of_nothing_fails(runner):
    for room in (0, 1, WRITES - 1):
        met = met_over(runner, DONE_ANN[:room], ALREADY_ANN, failing_stream=SOCKET, room=room)
        compare("writes of nothing", (met.writes, met.empty_writes), (room + 1, 1))


TESTS = [
    bytes_are_given_one_by_one,
    each_read_fails_in_turn,
    reads_are_interrupted_without_end,
    each_write_fails_in_turn,
    a_write_of_nothing_fails,
]
