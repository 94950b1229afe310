"""Documents with a fault at a key, each with its name and what is told of it. For each command there is each key that
is missing, of another type or with a bad text, a key that it lacks, and two faults at once. What each key may be stands
in tables, after the rules of command documents."""

from product.documents import document, document_of

LONG = "x" * 65_537
MORE_THAN_A_NAME = "x" * 65


class Bare:
    """A value that is written as it stands."""

    def __init__(self, text):
        self.text = text

    def __str__(self):
        return self.text


LOCAL_DAY, LOCAL_TIME, BROKEN = Bare("2024-01-01"), Bare("2024-01-01T00:00:00"), Bare("1.5")
# what is told of a value of another type, or of one that no word has: the fault of its key
FAULT = None
NAME, VERSION, REQUIREMENT, DAY, DELTA = (
    "1 BadName", "2 BadVersion", "3 BadRequirement", "4 BadDay", "5 BadDelta"
)
TEXT_LIMIT = "18 TooLarge text"

# of each sort of value one that is good, and bad ones with what is told of them
SORTS = {
    "name": (
        "x",
        [(5, FAULT), (["x"], FAULT), (True, FAULT), ("", NAME), ("a b", NAME), ("é", NAME), (MORE_THAN_A_NAME, NAME)],
    ),
    "package": (
        "serde",
        [(5, FAULT), (["x"], FAULT), ({}, FAULT), ("", NAME), ("ser de", NAME), ("a.b", NAME),
         (MORE_THAN_A_NAME, NAME)],
    ),
    "policy key": (
        "app:0.1.0",
        [(5, FAULT), (["x"], FAULT), ("", NAME), ("a.b", NAME), ("ser de:1.0.0", NAME), (":1.0.0", NAME),
         ("serde:1.0", VERSION), ("serde:", VERSION), ("serde:1.0.0:1.0.0", VERSION), ("a.b:1.0", NAME)],
    ),
    "version": (
        "1.0.0",
        [(5, FAULT), (BROKEN, FAULT), (["1.0.0"], FAULT), ("1.0", VERSION), ("", VERSION), ("v1.0.0", VERSION),
         ("1.0.0@git:12", VERSION), (" 1.0.0", VERSION), ("1.0.0-" + "x" * 251, VERSION)],
    ),
    "requirement": (
        "=1.0.0",
        [(5, FAULT), (["*"], FAULT), (">>1", REQUIREMENT), (">=1.0.0, " * 40 + "=1.0.0", REQUIREMENT)],
    ),
    "delta": (
        "1.0.0 -> 1.1.0",
        [(5, FAULT), (["1.0.0", "1.1.0"], FAULT), ("1.0.0", DELTA), ("1.0.0 1.1.0", DELTA), ("1.0 -> 1.1.0", DELTA),
         ("1.0.0 -> 1.1", DELTA), ("1.0.0 - > 1.1.0", DELTA), ("1.0.0 -> 1.1.0 -> 1.2.0", DELTA), ("-> 1.0.0", DELTA)],
    ),
    "day": (
        LOCAL_DAY,
        [(5, FAULT), (LOCAL_TIME, FAULT), (["2024-01-01"], FAULT), ("2024-1-1", DAY), ("2023-02-29", DAY), ("", DAY),
         ("2024-01-01 ", DAY)],
    ),
    "user": (5, [("5", FAULT), (-1, FAULT), (BROKEN, FAULT), (True, FAULT)]),
    "number": (1, [("1", FAULT), (0, FAULT), (-1, FAULT), (BROKEN, FAULT), ([1], FAULT)]),
    "flag": (True, [(1, FAULT), ("true", FAULT), ([True], FAULT)]),
    "text": ("x", [(5, FAULT), (["x"], FAULT), (LONG, TEXT_LIMIT)]),
    "texts": (["x", "y"], [(5, FAULT), ({}, FAULT), (["x", 5], FAULT), (LONG, TEXT_LIMIT), (["x", LONG], TEXT_LIMIT)]),
    "names": (
        ["safe-to-run"],
        [(5, FAULT), ({}, FAULT), ([5, "a b"], FAULT), (["safe-to-run", 5], FAULT), ([["safe-to-run"]], FAULT),
         ("a b", NAME), ("", NAME), (["safe-to-run", "a b"], NAME), (["a b", 5], NAME)],
    ),
    "packages": (
        ["log"],
        [("log", FAULT), (5, FAULT), ({}, FAULT), (["log", 5], FAULT), (["a.b"], NAME), (["log", "ser de", 5], NAME)],
    ),
    "kind": (None, [(5, FAULT), (["full"], FAULT), ("nope", FAULT), ("Full", FAULT), ("", FAULT)]),
    "file": ("", [(5, FAULT), ([""], FAULT), ({}, FAULT)]),
    "table of a project": ("what,n,p,q,r\nnode,0,a,1.0.0,root\n", [(5, FAULT), (["x"], FAULT)]),
    "map": ({"x": "safe-to-run"}, [(5, FAULT), ("x", FAULT), ([], FAULT), ([{}], FAULT)]),
    "records": ([], [({}, FAULT), ("x", FAULT), (5, FAULT), ([5], FAULT), ([[]], FAULT)]),
}

AUDIT = {"criteria": "names", "who?": "texts", "notes?": "text", "importable?": "flag"}
WINDOW = {"user-id": "user", "start": "day", "end": "day", "criteria": "names"}
FRONT = {"package": "package", "kind": "kind"}
# the keys of each command in the order in which they are read, each with its sort; with ? the document may lack it
KEYS = {
    "set-criterion": {"name": "name", "description?": "text", "description-url?": "text", "implies?": "names"},
    "remove-criterion": {"name": "name"},
    "add-entry full": FRONT | {"version": "version"} | AUDIT,
    "add-entry delta": FRONT | {"delta": "delta"} | AUDIT,
    "add-entry violation": FRONT | {"violation": "requirement"} | AUDIT,
    "add-entry wildcard": FRONT | WINDOW | {"who?": "texts", "notes?": "text", "renew?": "flag"},
    "add-entry trusted": FRONT | WINDOW | {"notes?": "text"},
    "add-entry exemption": FRONT | {
        "version": "version",
        "criteria": "names",
        "notes?": "text",
        "suggest?": "flag",
        "last-day?": "day",
    },
    "drop-entry": {"number": "number"},
    "set-policy": {
        "policy": "policy key",
        "audit-as-crates-io?": "flag",
        "criteria?": "names",
        "dev-criteria?": "names",
        "dependency-criteria?": "map",
        "notes?": "text",
    },
    "drop-policy": {"policy": "policy key"},
    "set-peer": {"peer": "name", "url": "texts", "exclude?": "packages", "criteria-map?": "map"},
    "drop-peer": {"peer": "name"},
    "import-peer": {"peer": "name", "audits": "file"},
    "set-publishers": {"package": "package", "records": "records"},
    "load-project": {"project": "package", "csv": "table of a project"},
    "drop-project": {"project": "package"},
    "replace-files": {"audits": "file", "config": "file", "imports": "file"},
    "set-day": {},
    "close-period": {},
    "add-member": {"member": "name"},
    "open-review": {"package": "package", "version": "version", "criteria": "names"},
    "assign-review": {"review": "number", "member": "name"},
    "finish-review full": {"review": "number", "version": "version"},
    "finish-review delta": {"review": "number", "delta": "delta"},
    "withdraw-review": {"review": "number"},
}
# a member is told beside each, which is at fault and yet looked at last
MEMBER = "a b"
# keys of other commands and kinds, which this one lacks
LACKED = {
    "set-criterion": "url",
    "add-entry full": "renew last-day",
    "add-entry delta": "version",
    "add-entry violation": "suggest",
    "add-entry wildcard": "importable",
    "add-entry trusted": "who",
    "add-entry exemption": "who",
    "set-policy": "implies",
    "set-peer": "map",
    "open-review": "member",
    "assign-review": "version",
    "finish-review full": "member",
    "finish-review delta": "member",
    "withdraw-review": "member",
}


def fault(key, table="command"):
    return f"refused 28 FieldRefused {table} {key}"


def told_of(key, what):
    return fault(key) if what is FAULT else f"refused {what}"


def good_keys(words):
    """The keys of a good document of a command, and for `add-entry` of a kind."""
    command, _, kind = words.partition(" ")
    good = {key.rstrip("?"): SORTS[sort][0] for key, sort in KEYS[words].items()}
    return {"command": command} | good | ({"kind": kind} if "kind" in good else {})


def without(keys, key):
    return {name: value for name, value in keys.items() if name != key}


def faults_at_keys(words):
    good = good_keys(words)
    for key, sort in KEYS[words].items():
        name = key.rstrip("?")
        # without both a version and a delta the version is missing
        missing = "version" if words == "finish-review delta" and name == "delta" else name
        if not key.endswith("?"):
            yield f"{words}, no {name}", without(good, name), fault(missing)
        for place, (bad, what) in enumerate(SORTS[sort][1]):
            yield f"{words}, {name}, bad {place}", good | {name: bad}, told_of(name, what)


def unknown_keys(words):
    good = good_keys(words)
    yield f"{words}, the least unknown key", good | {"zz": 1, "zy": 1}, fault("zy")
    yield f"{words}, a key before all others", good | {"0": {"zz": 1}}, fault("0")
    yield f"{words}, a key of another case", good | {"Notes": "x"}, fault("Notes")
    for key in LACKED.get(words, "").split():
        yield f"{words}, {key} of another", good | {key: "x"}, fault(key)


def two_faults(words):
    """The key that comes first is told, wherever it stands, and an unknown one after all that are known."""
    good = good_keys(words)
    bad = [(key.rstrip("?"), *SORTS[sort][1][-1]) for key, sort in KEYS[words].items()]
    for (first, wrong, what), (second, too, _) in zip(bad, bad[1:]):
        keys = {second: too, "aa": 1} | without(without(good, first), second) | {first: wrong}
        yield f"{words}, {first} before {second}", keys, told_of(first, what)
    if bad:
        last, wrong, what = bad[-1]
        yield f"{words}, {last} before an unknown key", {"aa": 1} | good | {last: wrong}, told_of(last, what)


def documents_with_faults():
    for words in KEYS:
        for of in (faults_at_keys, unknown_keys, two_faults):
            for name, keys, line in of(words):
                yield name, document_of(keys), line, MEMBER


# ---- tables and lists inside a document

RECORD = {"version": "1.0.0", "when": "2024-01-01", "user-id": 5}
KNOWN = RECORD | {"user-login": "ann", "user-name": "Ann"}
# the keys of a record in order, with bad values
OF_A_RECORD = {"version": "version", "when": "day", "user-id": "user", "user-login": "text", "user-name": "text"}


def records(*items):
    return {"command": "set-publishers", "package": "serde", "records": list(items)}


def record_faults():
    for key, sort in OF_A_RECORD.items():
        table = "records[1]"
        if key in RECORD:
            yield f"no {key}", records(RECORD, without(RECORD, key)), fault(key, table)
        for place, (bad, what) in enumerate(SORTS[sort][1]):
            line = fault(key, table) if what is FAULT else f"refused {what}"
            yield f"{key}, bad {place}", records(RECORD, KNOWN | {key: bad}), line
    names = list(OF_A_RECORD)
    for first, second in zip(names, names[1:]):
        table = {"aa": 1, second: []} | without(without(KNOWN, first), second) | {first: []}
        yield f"{first} before {second}", records(table, {}), fault(first, "records[0]")
    yield "the least unknown key", records(KNOWN | {"zz": 1, "zy": 1}), fault("zy", "records[0]")
    yield "an unknown key before the next table", records(RECORD | {"zz": 1}, {}), fault("zz", "records[0]")
    yield "an unknown key after those known", records({"aa": 1, "version": "1.0.0"}), fault("when", "records[0]")
    yield "a table before a value that is none", records({}, 5), fault("version", "records[0]")
    yield "a value that is no table before a table", records(RECORD, 5, {}), fault("records")
    yield "the tables before an unknown key", records({}) | {"aa": 1}, fault("version", "records[0]")
    yield "the tenth record", records(*[RECORD] * 10, {}), fault("version", "records[10]")


def policy(passed):
    return {"command": "set-policy", "policy": "app", "notes": 5, "dependency-criteria": passed}


def peer(mapped):
    return {"command": "set-peer", "peer": "p", "url": "u", "criteria-map": mapped, "aa": 1}


def map_faults():
    """Items by their keys in the order of bytes; in each the key is looked at before the names."""
    for path, of in (("criteria-map", peer), ("dependency-criteria", policy)):
        yield f"{path}, a number", of({"x": 5}), fault("x", path)
        yield f"{path}, a number in a list", of({"x": ["safe-to-run", 5]}), fault("x", path)
        yield f"{path}, a table", of({"x": {}}), fault("x", path)
        yield f"{path}, a bad name", of({"x": "a b"}), "refused 1 BadName"
        yield f"{path}, a bad name in a list", of({"x": ["safe-to-run", ""]}), "refused 1 BadName"
        yield f"{path}, a bad key", of({"a b": 5}), "refused 1 BadName"
        yield f"{path}, an empty key", of({"": 5}), "refused 1 BadName"
        yield f"{path}, the first of two", of({"y": "a b", "x": 5}), fault("x", path)
        yield f"{path}, capital letters first", of({"a": "a b", "B": 5}), fault("B", path)
    # a package has fewer letters than a criterion
    yield "dependency-criteria, a key with a dot", policy({"a.b": 5}), "refused 1 BadName"
    yield "criteria-map, a key with a dot", peer({"a.b": 5}), fault("a.b", "criteria-map")


def inner_faults():
    for of, front in ((record_faults, "records"), (map_faults, "maps")):
        for name, keys, line in of():
            yield f"{front}: {name}", document_of(keys), line


# ---- the word of a command, and the shape of a key in the line

WORDS = [
    ("no command", {}, "command"),
    ("no command, and keys", {"aa": 1, "package": 5}, "command"),
    ("a command that is a number", {"command": 5}, "command"),
    ("a command that is a table", {"command": {"name": "x"}}, "command"),
    ("a command that is a list", {"command": ["close-period"]}, "command"),
    ("an unknown word", {"command": "close", "aa": 1}, "command"),
    ("a word in capitals", {"command": "Close-Period"}, "command"),
    ("a word with a space", {"command": "close-period "}, "command"),
    ("an empty word", {"command": ""}, "command"),
    ("a key with a space", {"command": "close-period", "a b": 1}, "?"),
    ("a key beyond ASCII", {"command": "close-period", "é": 1}, "?"),
    ("an empty key", {"command": "close-period", "": 1, "aa": 1}, "?"),
    ("a key of 200 characters", {"command": "close-period", "k" * 200: 1}, "k" * 200),
    ("a key of 201 characters", {"command": "close-period", "k" * 201: 1}, "?"),
    ("a key of a control character", {"command": "close-period", "a\x7f": 1}, "?"),
    ("a key of marks", {"command": "close-period", "!~": 1}, "!~"),
]


def word_faults():
    for name, keys, key in WORDS:
        yield name, document_of(keys), fault(key)


# ---- files inside a document, and the member

SKIPPED = '[[audits.serde]]\n'
FILES = {"audits": "", "config": "", "imports": ""}


def files(**texts):
    return {"command": "replace-files"} | FILES | texts


def file_faults():
    """An unknown key of the document before the files, and each file by its own rules, one after the other."""
    audits, config, imports = "audits = 1", "policy = 1", "publisher = 1"
    of_peer = {"command": "import-peer", "peer": "z", "audits": audits}
    bad_table = {"command": "load-project", "project": "app", "csv": "a,b\n"}
    yield "a peer's file", of_peer, fault("audits", "top")
    yield "an unknown key before a peer's file", of_peer | {"zz": 1}, fault("zz")
    yield "a peer's file that is no TOML", of_peer | {"audits": "x ="}, "refused 26 TomlRefused"
    yield "a peer's file before who the peer is", of_peer | {"audits": SKIPPED}, "refused 13 UnknownPeer"
    yield "an unknown key before a table of a project", bad_table | {"zz": 1}, fault("zz")
    yield "a table of a project", bad_table, "refused 27 CsvRefused 1"
    yield "audits first", files(audits=audits, config=config, imports=imports), fault("audits", "top")
    yield "then config", files(config=config, imports=imports), fault("policy", "top")
    yield "then imports", files(imports=imports), fault("publisher", "top")
    yield "a key of the document first", files(audits=audits, zz=1), fault("zz")
    yield "a type before a file", files(audits=audits, imports=5), fault("imports")
    yield "an entry of a file", files(audits='[[audits.serde]]\nversion = "1"'), fault("criteria", "audits.serde[0]")
    yield "a config file's version", files(
        config='[[exemptions.serde]]\nversion = "1"\ncriteria = "x"'
    ), fault("version", "exemptions.serde[0]")
    yield "a name in a file", files(audits='[[audits."ser de"]]\n'), fault("?", "audits")


def of_files():
    for name, keys, line in file_faults():
        yield f"files: {name}", document_of(keys), line


# of a document that withdraws or finishes a review: the member, and what is told
MEMBERS = [
    (None, "refused 28 FieldRefused head vet-member"),
    ("", "refused 1 BadName"),
    ("a b", "refused 1 BadName"),
    ("é", "refused 1 BadName"),
    (MORE_THAN_A_NAME, "refused 1 BadName"),
    ("zed", "refused 19 UnknownMember"),
]
BOTH = {"command": "finish-review", "review": 1, "version": "1.0.1", "delta": "1.0.0 -> 1.0.1"}


def member_faults():
    for place, (member, line) in enumerate(MEMBERS):
        yield f"member {place} withdraws", document("withdraw-review", review=1), line, member
        yield f"member {place} finishes", document("finish-review", review=1, version="1.0.1"), line, member
    yield "a version and a delta", document_of(BOTH), fault("delta"), "ann"
    yield "a bad version and a delta", document_of(BOTH | {"version": "1"}), "refused 2 BadVersion", "ann"
    yield "a version and a bad delta", document_of(BOTH | {"delta": 5}), fault("delta"), "ann"
    yield "a version and a delta, and more", document_of(BOTH | {"aa": 1}), fault("delta"), "ann"
    yield "neither, and more", document("finish-review", review=1, aa=1), fault("version"), "ann"


def key_faults():
    """Each a name, a document, what it is told, and the member where one is told beside it."""
    yield from documents_with_faults()
    yield from inner_faults()
    yield from word_faults()
    yield from of_files()
    yield from member_faults()
