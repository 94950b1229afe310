"""Limits of a register, as the rules have them. Scripts that give it as much as it may hold, or one thing more, take
them from here, and `machine/run_full_tables` makes the texts about full tables by them."""

# the criteria of a table, the built-in ones among them, and how many others these leave room for
MOST_CRITERIA = 128
FURTHER_CRITERIA = MOST_CRITERIA - 2
# the criteria of a peer's file, beside the built-in ones
PEER_CRITERIA = 126
# places of criteria in a full table: at its ends, and where the two halves of the word of a set meet
PLACES = (0, MOST_CRITERIA // 2 - 1, MOST_CRITERIA // 2, MOST_CRITERIA - 2, MOST_CRITERIA - 1)
# the bytes of the longest text in a file
LONGEST_TEXT = 65_536
MOST_PEERS, MOST_ENTRIES = 64, 100_000
MOST_PUBLISHERS, MOST_POLICIES, MOST_PROJECTS = 100_000, 10_000, 64
MOST_MOVES = 1_000_000


def further(count):
    """The names of this many further criteria, in the order of their bytes. They come before the built-in ones."""
    digits = len(str(MOST_CRITERIA))
    return [f"c{number:0{digits}}" for number in range(1, count + 1)]
