"""Words of the lines that `trials` is given: what is no mark, digit or letter of ASCII, and `%`, is escaped."""

from urllib.parse import unquote_to_bytes


def word_of(text):
    """A text as a word of a line."""
    if not text:
        return "%"
    return "".join(chr(b) if 0x21 <= b <= 0x7E and b != 0x25 else f"%{b:02x}" for b in text.encode())


def text_of(word):
    return "" if word == "%" else unquote_to_bytes(word).decode()
