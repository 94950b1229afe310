"""The input of `trials`: lines, and command documents, each behind a line with its day, its bytes and its member."""

from product.documents import given_of

# the keepers over which `trials` runs a register: one that recomputes every class, and the one of `vetd`
BOTH_KEEPERS = ("plain", "masks")
# and one that passes everything on to a plain one
KEEPERS = (*BOTH_KEEPERS, "relay")
# how it gives commands to a register in a file, and to one in memory
WAYS_IN_A_FILE = ((), ("--together",))
WAYS = (*WAYS_IN_A_FILE, ("--ahead",))


def framed(given):
    """A document as it stands on the input, where the end of a line is behind it."""
    words = [given.day, str(len(given.document)), *([] if given.member is None else [given.member])]
    end = b"" if given.document.endswith(b"\n") or not given.document else b"\n"
    return " ".join(words).encode() + b"\n" + given.document + end


def is_command(line):
    """Whether a line gives a command: it begins with a day."""
    return line[:1].isdigit()


def streamed(lines):
    """Lines, with its document in place of each that gives a command."""
    return b"".join(framed(given_of(line)) if is_command(line) else line.encode() + b"\n" for line in lines)
