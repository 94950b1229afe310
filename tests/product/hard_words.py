"""Texts and names that are hard to print in TOML, and files that have the names."""

from models.limits import LONGEST_TEXT
HARD_TEXTS = {
    "empty": "",
    "a space": " ",
    "spaces at the ends": "  a  ",
    "a quote": '"',
    "a quote at the end": 'a"',
    "two quotes": '""',
    "three quotes": '"""',
    "four quotes": '""""',
    "nine quotes": 9 * '"',
    "three quotes within": 'a"""b\n"""',
    "an apostrophe": "'",
    "three apostrophes": "'''",
    "apostrophes and quotes": "'\"'''\"\"\"'",
    "both and a backslash": "a\\'\"",
    "a backslash": "\\",
    "a backslash at the end": "a\\",
    "a backslash before a quote": '\\"',
    "what looks escaped": "\\n\\t\\u0041\\x41\\e\\",
    "a backslash at a line's end": "a\\\n   b",
    "a tab": "a\tb",
    "a new line": "a\nb",
    "a new line first": "\na",
    "two new lines first": "\n\na",
    "a new line last": "a\n",
    "only a new line": "\n",
    "a carriage return": "a\rb",
    "both line ends": "a\r\nb\r\n",
    "a carriage return last": "a\r",
    "each control character": "".join(map(chr, range(0x20))),
    "a zero character": "\0",
    "delete": "\x7f",
    "lines with a control character": "a\n\x01\nb",
    "lines with delete": "a\n\x7f\n'''",
    "the second controls": "\x80\x85\x9f\xa0",
    "past ASCII": "Zoë – ∀x ∈ ℕ, 東京",
    "line and paragraph separators": "\u2028\u2029\ufeff",
    "past the first plane": "\U0001f980\U00010000\U0010ffff",
    "around the surrogates": "\ud7ff\ue000\ufffe\uffff",
    "a letter and its mark": "e\u0301",
    "brackets": "]] [[audits.serde]] ]",
    "what looks like a table": '\n[audits]\nserde = [{ criteria = "safe-to-run" }]\n# a remark',
    "a remark": "a # b",
    "a number": "1",
    "a day": "2023-02-03",
    "a truth value": "true",
    "the longest": LONGEST_TEXT * "a",
    "the longest of new lines": LONGEST_TEXT * "\n",
    "the longest of quotes": LONGEST_TEXT * '"',
    "the longest of backslashes": LONGEST_TEXT * "\\",
    "the longest of four bytes": LONGEST_TEXT // 4 * "\U0001f980",
}


SHORT_ESCAPES = {"\n": "\\n", '"': '\\"', "\\": "\\\\"}


def escaped(letter):
    if letter.isascii() and letter.isalnum():
        return letter
    return SHORT_ESCAPES.get(letter, f"\\U{ord(letter):08x}")


def basic(text):
    """A TOML string of a text, with all escaped but letters and digits of ASCII."""
    return f'"{"".join(map(escaped, text))}"'


# of criteria and peers: each mark that may stand in one, and what other things look like
HARD_NAMES = [chr(code) for code in range(0x21, 0x7F) if not chr(code).isalnum()] + [
    "a.b",
    "a.b.c",
    ".",
    "..",
    '"a"',
    "'a'",
    "a\\",
    "\\u0041",
    "[[a]]",
    "a=1",
    "{}",
    "%41",
    "true",
    "inf",
    "1",
    "-1",
    "1979-05-27",
    "audits",
    "criteria",
    64 * "~",
    64 * '"',
    64 * "\\",
]
HARD_PACKAGES = ["-", "_", "--", "1", "-1", "true", "inf", "nan", "audits", "1979-05-27", "A", "a", 64 * "-"]
HARD_KEYS = [
    "a",
    "a:1.0.0",
    "a:1.0.0-rc.1",
    "a:1.0.0+b",
    "-:1.0.0",
    f"a:1.0.0@git:{20 * 'aB'}",
    f"a:1.0.0-rc.1+b@git:{40 * '0'}",
]


def of_a_name(name):
    key = basic(name)
    entry = f"criteria = [{key}]\nversion = \"1.0.0\"\n"
    yield "audits", f"[criteria.{key}]\nimplies = {key}\n[[audits.serde]]\n{entry}", ""
    settings = f"[imports.{key}]\nurl = \"a\"\nexclude = [\"log\"]\n"
    yield "config", f"default-criteria = {key}\n{settings}criteria-map = {{ {key} = [{key}] }}\n", ""
    peer = f"[audits.{key}.criteria.{key}]\n"
    yield "imports", f"{peer}[[audits.{key}.audits.serde]]\n{entry}[[audits.{key}.audits.log]]\n{entry}", settings


def hard_names():
    for name in HARD_NAMES:
        for kind, text, settings in of_a_name(name):
            yield f"the name {name}: {kind}", kind, text, settings
    for name in HARD_PACKAGES:
        key = basic(name)
        entry = f'{key} = [{{ criteria = [], version = "1.0.0" }}]\n'
        yield f"the package {name}: audits", "audits", f"[audits]\n{entry}", ""
        policy = f"[policy.{key}]\ndependency-criteria = {{ {key} = [] }}\n"
        peer = f'[imports.p]\nurl = "a"\nexclude = [{key}]\n'
        yield f"the package {name}: config", "config", f"{policy}[exemptions]\n{entry}{peer}", ""
        record = f'[publisher]\n{key} = [{{ version = "1.0.0", when = 2023-02-03, user-id = 0 }}]\n'
        yield f"the package {name}: imports", "imports", f"{record}[audits.p.audits]\n{entry}", peer
    for key in HARD_KEYS:
        yield f"the key {key}", "config", f"[policy.{basic(key)}]\nnotes = {basic(key)}\n", ""
    every = "".join(f"[policy.{basic(key)}]\n" for key in HARD_KEYS)
    yield "many keys", "config", every, ""
