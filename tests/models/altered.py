"""A register with rows in each of its tables, and changes to its file. Some leave a register there, and others don't,
which was worked out by hand."""

from typing import NamedTuple

from models.columns import TABLES
from models.limits import FURTHER_CRITERIA, LONGEST_TEXT, MOST_ENTRIES, MOST_MOVES, MOST_PEERS, MOST_POLICIES
from models.limits import MOST_PROJECTS, MOST_PUBLISHERS, PEER_CRITERIA
from models.rows import names, optional, packed
from models.versions import FIRST, SECOND

# a register with rows in each table that may have some: its commands, each with its answer
COMMANDS = """2024-05-01 set-criterion reviewed safe-to-run
#> done 1 moves 0
2024-05-01 set-policy app criteria=safe-to-deploy
#> done 2 moves 0
2024-05-01 load-project app what,n,p,q,r%0anode,0,app,0.1.0,root%0anode,1,serde,1.0.1,third%0anode,2,log,0.4.0,third%0a\
edge,0,1,normal,%0aedge,0,2,normal,%0a
#> done 3 moves 4
2024-05-01 set-peer p one - reviewed=safe-to-deploy
#> done 4 moves 0
2024-05-01 import-peer p [criteria.reviewed]%0a[[audits.serde]]%0acriteria="reviewed"%0aversion="1.0.1"%0a
#> done 5 moves 2
2024-05-01 set-publishers log 0.4.0,5,2023-02-03
#> done 6 moves 0
2024-05-01 add-entry wildcard log 5 2023-01-01 2023-12-31 reviewed
#> done 7 number 2 moves 1
2024-05-01 add-member ann
#> done 8 moves 0
2024-05-01 add-member bob
#> done 9 moves 0
2024-05-01 open-review log 0.4.0 safe-to-deploy
#> done 10 number 1 moves 0
2024-05-01 assign-review 1 ann
#> done 11 moves 0
"""
HELD = """step 11
criterion reviewed safe-to-run
criterion safe-to-deploy safe-to-run
criterion safe-to-run
entry 2 log wildcard 5 2023-01-01 2023-12-31 reviewed
peer p url=one
mapped reviewed safe-to-deploy
defined reviewed
entry 1 serde full 1.0.1 reviewed source=p
publisher log 0.4.0 5 2023-02-03
policy app criteria=safe-to-deploy
project app
node app 0.1.0 root
node log 0.4.0 third
node serde 1.0.1 third
edge app 0.1.0 log 0.4.0 normal
edge app 0.1.0 serde 1.0.1 normal
member ann
member bob
review 1 2024-05-01 log 0.4.0 assigned=ann safe-to-deploy
pair log 0.4.0 safe-to-deploy unvetted
pair log 0.4.0 safe-to-run full
pair serde 1.0.1 safe-to-deploy full
pair serde 1.0.1 safe-to-run full
counts conflicting 0 full 3 partial 0 exempted 0 unvetted 1
first conflicting 0 full 0 partial 0 exempted 0 unvetted 0
move 3 2024-05-01 log 0.4.0 safe-to-deploy undemanded unvetted
move 3 2024-05-01 log 0.4.0 safe-to-run undemanded unvetted
move 3 2024-05-01 serde 1.0.1 safe-to-deploy undemanded unvetted
move 3 2024-05-01 serde 1.0.1 safe-to-run undemanded unvetted
move 5 2024-05-01 serde 1.0.1 safe-to-deploy unvetted full
move 5 2024-05-01 serde 1.0.1 safe-to-run unvetted full
move 7 2024-05-01 log 0.4.0 safe-to-run unvetted full
"""
# the three files of it
AUDITS = """[criteria.reviewed]
implies = "safe-to-run"
[audits]
[[wildcard-audits.log]]
criteria = "reviewed"
user-id = 5
start = "2023-01-01"
end = "2023-12-31"
"""
CONFIG = """[imports.p]
url = "one"
criteria-map = { reviewed = "safe-to-deploy" }
[policy.app]
criteria = "safe-to-deploy"
"""
IMPORTS = """[[publisher.log]]
version = "0.4.0"
when = "2023-02-03"
user-id = 5
[audits.p.criteria.reviewed]
[[audits.p.audits.serde]]
criteria = "reviewed"
version = "1.0.1"
"""
# commands that ask for what is held, and at last one that changes it
MORE = """2024-05-01 set-criterion reviewed safe-to-run
#> already
2024-05-01 set-policy app criteria=safe-to-deploy
#> already
2024-05-01 load-project app what,n,p,q,r%0anode,0,app,0.1.0,root%0anode,1,log,0.4.0,third%0anode,2,serde,1.0.1,third%0a\
edge,0,1,normal,%0aedge,0,2,normal,%0a
#> already
2024-05-01 set-peer p one - reviewed=safe-to-deploy
#> already
2024-05-01 import-peer p [criteria.reviewed]%0a[[audits.serde]]%0acriteria="reviewed"%0aversion="1.0.1"%0a
#> already
2024-05-01 set-publishers log 0.4.0,5,2023-02-03
#> already
2024-05-01 add-entry wildcard log 5 2023-01-01 2023-12-31 reviewed
#> already 2
2024-05-01 add-member ann
#> already
2024-05-01 add-member bob
#> already
2024-05-01 assign-review 1 ann
#> already
2024-05-02 add-entry full log 0.4.0 safe-to-deploy
#> done 12 number 3 moves 1
"""


class Shown(NamedTuple):
    """What is shown of a register: what it holds, the three files, and the answers to commands."""

    held: str
    audits: str
    config: str
    imports: str
    more: str

    def replaced(self, *texts):
        """The same with some texts replaced by others. Each of them must occur."""
        found = self
        for text, other in zip(texts[::2], texts[1::2], strict=True):
            if not any(text in it for it in found):
                raise ValueError(f"{text} is not there")
            found = Shown(*(it.replace(text, other) for it in found))
        return found


SHOWN = Shown(HELD, AUDITS, CONFIG, IMPORTS, MORE)

# the same register with a day and an exemption with a last day, which have tables of their own: its further commands,
# and its reports
DATED_COMMANDS = COMMANDS + """2024-05-01 add-entry exemption log 0.4.0 safe-to-deploy last-day=2024-05-31
#> done 12 number 3 moves 1
2024-05-01 set-day
#> done 13 moves 0
"""
WINDOW = "entry 2 log wildcard 5 2023-01-01 2023-12-31 reviewed\n"
LAST_MOVE = "move 7 2024-05-01 log 0.4.0 safe-to-run unvetted full\n"
DATED = SHOWN.replaced(
    "step 11\n",
    "step 13\ntoday 2024-05-01\n",
    WINDOW,
    f"{WINDOW}entry 3 log exemption 0.4.0 safe-to-deploy last-day=2024-05-31\n",
    "pair log 0.4.0 safe-to-deploy unvetted",
    "pair log 0.4.0 safe-to-deploy exempted",
    "exempted 0 unvetted 1",
    "exempted 1 unvetted 0",
    LAST_MOVE,
    f"{LAST_MOVE}move 12 2024-05-01 log 0.4.0 safe-to-deploy unvetted exempted\n",
    "2024-05-02 add-entry full log 0.4.0 safe-to-deploy\n#> done 12 number 3",
    "2024-05-01 add-entry exemption log 0.4.0 safe-to-deploy last-day=2024-05-31\n#> already 3\n"
    "2024-05-01 set-day\n#> already\n"
    "2024-05-02 add-entry full log 0.4.0 safe-to-deploy\n#> done 14 number 4",
)

# changes after the first two commands of an example, with an entry, a pair that is full and one that is unvetted
ALTERED_TABLES = [
    "UPDATE standing SET class = 1 WHERE class = 4",
    "DELETE FROM standing WHERE class = 4",
    "UPDATE meta SET version = 9",
    "UPDATE meta SET next_entry = 1",
    ("UPDATE entries SET criteria = ?", names(["a b"])),
    "UPDATE meta SET first4 = first4 + 1",
    "DROP TABLE reviews",
    "DROP TABLE today",
    "INSERT INTO lasts VALUES (1, 19844)",
]

# the counts before these changes
COUNTS = """\
class            first   arrived  departed       now
conflicting          0         0         0         0
full                 0         1         0         1
partial              0         0         0         0
exempted             0         0         0         0
unvetted             0         2         1         1
demand               0         3         1         2
"""

# what no cell of a type holds: a number that is too low, a text that is no name, version or requirement, and bytes that
# are not a packed list
BAD_CELLS = {"INTEGER": "-2", "TEXT": "' '", "BLOB": "x'31'"}
# a day after the last one
BAD_DAY = "2932897"
DAYS = ("day", "day1", "day2")

UNKNOWN = names(["z"])


def more_rows(count, table, cells):
    """A statement that adds this many rows to a table, with these cells for each number `n` up to that one."""
    numbers = f"WITH RECURSIVE at (n) AS (SELECT 1 UNION ALL SELECT n + 1 FROM at WHERE n < {count})"
    return f"INSERT INTO {table} {numbers} SELECT {cells}"


def more_criteria(peer, count):
    """A statement that adds this many criteria to a peer's table or to one's own."""
    return more_rows(count, "criteria", f"'{peer}', 'more-' || n, x'', x'', x'' FROM at")


# the cells of an entry between its source and the end, but for the version
UNTIL_VERSION, BEHIND_VERSION = "package, kind", "b, user, day1, day2, criteria, who, notes, suggest, renew, importable"


def more_entries(peer, count):
    """Statements that add this many entries to a peer's or to one's own, each of another version."""
    cells = f"n + 2, '{peer}', {UNTIL_VERSION}, '1.0.' || n, {BEHIND_VERSION} FROM entries, at WHERE number = 1"
    return f"{more_rows(count, 'entries', cells)}; UPDATE meta SET next_entry = {count + 3}"


EDGE = "from_name, from_version, to_name, to_version, kind"
MORE_PROJECTS = (
    f"{more_rows(MOST_PROJECTS, 'nodes', 'project || n, name, version, party FROM nodes, at')}; "
    f"{more_rows(MOST_PROJECTS, 'edges', f'project || n, {EDGE} FROM edges, at')}"
)

# rows of the right form, and changes of one row of them after which no register has them all
BAD_ROWS = [
    "UPDATE meta SET version = 0",
    "UPDATE meta SET version = 3",
    # recorded moves lie above the step, numbers above the next ones, more moves than there may be
    "UPDATE meta SET step = 6",
    "UPDATE meta SET next_entry = 2",
    "UPDATE meta SET next_review = 1",
    "UPDATE meta SET moves_limit = 6",
    "UPDATE meta SET moves_limit = 0",
    f"UPDATE meta SET moves_limit = {MOST_MOVES + 1}",
    # the counts and the moves don't add up
    "UPDATE meta SET first1 = 1",
    "UPDATE meta SET first4 = 1",
    "DELETE FROM meta",
    "INSERT INTO meta SELECT 2, version, step, next_entry, next_review, moves_limit, first0, first1, first2, first3, "
    "first4, vet_version, default_criteria FROM meta",
    # a criterion that nobody defines is implied, or named by an entry
    ("UPDATE criteria SET implies = ? WHERE peer = ''", UNKNOWN),
    "DELETE FROM criteria WHERE peer = ''",
    "UPDATE criteria SET name = 'checked' WHERE peer = ''",
    # a peer that is not held
    "UPDATE criteria SET peer = 'q' WHERE peer = 'p'",
    "UPDATE entries SET peer = 'q' WHERE peer = 'p'",
    # each has one criterion already, and so one too many
    more_criteria("", FURTHER_CRITERIA),
    more_criteria("p", PEER_CRITERIA),
    # a built-in criterion has no row
    "INSERT INTO criteria VALUES ('', 'safe-to-run', x'', x'', x'')",
    # the entry is another, and so are the classes
    "DELETE FROM entries WHERE number = 2",
    "UPDATE entries SET day2 = day1 WHERE number = 2",
    "UPDATE entries SET a = '1.0.2' WHERE number = 1",
    # an entry of its kind has no such values
    "UPDATE entries SET user = 5 WHERE number = 1",
    "UPDATE entries SET b = '1.0.1' WHERE number = 1",
    "UPDATE entries SET a = '0.4.0' WHERE number = 2",
    "UPDATE entries SET importable = 1 WHERE number = 2",
    ("UPDATE entries SET criteria = ? WHERE number = 2", UNKNOWN),
    ("UPDATE entries SET criteria = ? WHERE number = 2", packed([b"\xff"])),
    ("UPDATE entries SET notes = ? WHERE number = 2", packed([(LONGEST_TEXT + 1) * b"a"])),
    # no kind, and trust by a peer
    "UPDATE entries SET kind = 6 WHERE number = 1",
    "UPDATE entries SET kind = 4, a = '', user = 5, day1 = 19358, day2 = 19722 WHERE number = 1",
    # an entry twice, by two numbers
    f"INSERT INTO entries SELECT 3, peer, {UNTIL_VERSION}, a, {BEHIND_VERSION} FROM entries WHERE number = 2; "
    "UPDATE meta SET next_entry = 4",
    "UPDATE publishers SET user = 6",
    "UPDATE publishers SET version = '0.4.1'",
    "DELETE FROM publishers",
    ("UPDATE policies SET criteria = ?", optional(UNKNOWN)),
    ("UPDATE policies SET criteria = ?", optional(names(["safe-to-run"]))),
    ("UPDATE policies SET criteria = ?", packed([names(["safe-to-run"]), names(["safe-to-deploy"])])),
    ("UPDATE policies SET dependency = ?", packed([b"log", b""])),
    ("UPDATE peers SET map = ?", packed([b"reviewed", UNKNOWN])),
    "UPDATE peers SET map = x''",
    ("UPDATE peers SET exclude = ?", names(["serde"])),
    ("UPDATE peers SET exclude = ?", packed([b"\xff"])),
    ("UPDATE peers SET url = ?", packed([b"\xff"])),
    "DELETE FROM peers",
    "UPDATE nodes SET party = 1 WHERE name = 'serde'",
    "DELETE FROM nodes WHERE name = 'serde'",
    "UPDATE nodes SET party = 3 WHERE name = 'serde'",
    "UPDATE edges SET kind = 2 WHERE to_name = 'serde'",
    "UPDATE edges SET to_version = '1.0.2' WHERE to_name = 'serde'",
    "DELETE FROM edges WHERE to_name = 'log'",
    "UPDATE standing SET class = 1 WHERE class = 4",
    "UPDATE standing SET class = 5 WHERE class = 4",
    "DELETE FROM standing WHERE class = 4",
    "INSERT INTO standing VALUES ('log', '0.4.0', 'reviewed', 1)",
    "DELETE FROM moves WHERE step = 7",
    "UPDATE moves SET after = 2 WHERE step = 7",
    "UPDATE moves SET step = 12 WHERE step = 7",
    "UPDATE moves SET before = 1 WHERE step = 7",
    # nobody who is no member has a review
    "DELETE FROM members WHERE name = 'ann'",
    "UPDATE members SET name = 'zed' WHERE name = 'ann'",
    "UPDATE reviews SET member = 'zed'",
    "UPDATE reviews SET member = ''",
    "UPDATE reviews SET state = 0",
    "UPDATE reviews SET state = 4",
    "UPDATE reviews SET entry = 1",
    # finished by an entry that was never there
    "UPDATE reviews SET state = 2, member = '', entry = 3",
    "UPDATE reviews SET number = 2",
    ("UPDATE reviews SET criteria = ?", UNKNOWN),
]
# by the version of the tables: the number of the other version, and rows of no day and of no exemption
BAD_ROWS_OF = {
    FIRST: ["UPDATE meta SET version = 2"],
    SECOND: [
        "UPDATE meta SET version = 1",
        "INSERT INTO today VALUES (2, 19844)",
        "INSERT INTO today VALUES (0, 0)",
        "INSERT INTO lasts VALUES (2, 19844)",
        # one more than there may be
        more_entries("", MOST_ENTRIES),
        more_entries("p", MOST_ENTRIES),
        more_rows(MOST_PUBLISHERS, "publishers", "package, '0.5.' || n, user, day, login, name FROM publishers, at"),
        more_rows(MOST_POLICIES, "policies", "'p' || n, as_crates, criteria, dev, dependency, notes FROM policies, at"),
        more_rows(MOST_PEERS, "peers", "'p' || n, url, exclude, map FROM peers, at"),
        MORE_PROJECTS,
    ],
}

# changes that leave a register, with what is shown then in place of something else
GOOD_ROWS = [
    ("UPDATE members SET name = 'zed' WHERE name = 'bob'", "member bob", "member zed"),
    ("UPDATE moves SET day = day + 1 WHERE step = 7", "move 7 2024-05-01", "move 7 2024-05-02"),
    ("UPDATE peers SET url = x'333a74776f'", "url=one", "url=two", '"one"', '"two"', "peer p one", "peer p two"),
    ("UPDATE reviews SET day = day + 1", "review 1 2024-05-01", "review 1 2024-05-02"),
    (
        "UPDATE reviews SET state = 3, member = ''",
        "assigned=ann",
        "withdrawn",
        "assign-review 1 ann\n#> already",
        "assign-review 1 ann\n#> refused 21 ReviewClosed",
    ),
    ("UPDATE meta SET step = 7", "step 11", "step 7", "done 12", "done 8"),
]

# changes to the rows of the two tables of the register with a day, after which they are those of no register
BAD_DATED_ROWS = [
    "UPDATE today SET one = 2",
    "UPDATE today SET one = -2",
    "INSERT INTO today VALUES (2, 19844)",
    f"UPDATE today SET day = {BAD_DAY}",
    f"UPDATE lasts SET day = {BAD_DAY}",
    # the day after the last one of the exemption, by which it would be unvetted
    "UPDATE today SET day = 19875",
    "UPDATE lasts SET day = 19843",
    # no exemption, a peer's entry, and no entry
    "UPDATE lasts SET entry = 2",
    "UPDATE lasts SET entry = 1",
    "UPDATE lasts SET entry = 4",
    "INSERT INTO lasts VALUES (2, 19874)",
    "INSERT INTO lasts VALUES (4, 19874)",
    "INSERT INTO lasts VALUES (-2, 19874)",
]
# changes after which they are those of a register
GOOD_DATED_ROWS = [
    (
        "UPDATE today SET day = day + 1",
        "today 2024-05-01",
        "today 2024-05-02",
        "set-day\n#> already",
        "set-day\n#> refused 32 DayGoesBack",
    ),
    # on the last day
    (
        "UPDATE today SET day = 19874",
        "today 2024-05-01",
        "today 2024-05-31",
        "set-day\n#> already",
        "set-day\n#> refused 32 DayGoesBack",
    ),
    ("DELETE FROM today", "today 2024-05-01\n", "", "2024-05-01 set-day\n#> already\n", ""),
    ("UPDATE lasts SET day = day + 1", "last-day=2024-05-31", "last-day=2024-06-01"),
    ("UPDATE lasts SET day = 19844", "last-day=2024-05-31", "last-day=2024-05-01"),
]

# for each table what makes it none of a register's, by its name and the columns of its key
BAD_FORMS = [
    "DROP TABLE {name}",
    "ALTER TABLE {name} RENAME TO others",
    "DROP TABLE {name}; CREATE VIEW {name} AS SELECT 1 AS one",
    "ALTER TABLE {name} ADD COLUMN more TEXT",
    "CREATE INDEX more ON {name} ({key})",
    "CREATE UNIQUE INDEX more ON {name} ({key})",
    "CREATE TRIGGER more AFTER INSERT ON {name} BEGIN DELETE FROM {name}; END",
    "CREATE TABLE more ({key}, FOREIGN KEY ({key}) REFERENCES {name} ({key}))",
]

# a column of a table
CLASS = "class INTEGER NOT NULL"
# changes in the statement that makes a table: the table, and texts with those that replace them
OTHER_STATEMENTS = [
    ("standing", CLASS, "class INTEGER"),
    ("standing", CLASS, "class ANY NOT NULL"),
    ("standing", CLASS, f"{CLASS} DEFAULT 4"),
    ("standing", CLASS, f"{CLASS} CHECK (class < 5)"),
    ("standing", CLASS, f"{CLASS} REFERENCES others (x)"),
    ("standing", CLASS, f"{CLASS}, UNIQUE (package, version, criterion, class)"),
    ("standing", CLASS, f"{CLASS}, more TEXT AS (package)"),
    ("standing", CLASS, "klass INTEGER NOT NULL"),
    ("standing", f", {CLASS}", "", "(package TEXT", f"({CLASS}, package TEXT"),
    ("standing", "package TEXT NOT NULL", "package TEXT NOT NULL COLLATE NOCASE"),
    ("standing", " STRICT", ""),
    ("nodes", "PRIMARY KEY (project, name, version)", "PRIMARY KEY (project, version, name)"),
    ("nodes", "PRIMARY KEY (project, name, version)", "PRIMARY KEY (project, name, version DESC)"),
    ("members", ", PRIMARY KEY (name)", ""),
    ("entries", "PRIMARY KEY (number)", "PRIMARY KEY (number AUTOINCREMENT)"),
    # a column fewer, in tables of which each column is one of the key
    ("publishers", ", name BLOB NOT NULL", "", ", login, name)", ", login)"),
    ("edges", ", kind INTEGER NOT NULL", "", ", to_version, kind)", ", to_version)"),
]
# the last column of each table that has one beside its key
LAST_COLUMNS = {table: columns[-1][0] for table, columns in TABLES.items() if not columns[-1][2]}

# statements that take one or both of the names that tables of the first version lack, so that there is no register
TAKEN = [
    "CREATE TABLE today (x)",
    "CREATE TABLE today (one INTEGER NOT NULL, day INTEGER NOT NULL, PRIMARY KEY (one)) STRICT",
    "CREATE TABLE Lasts (x TEXT) STRICT",
    "CREATE TABLE lasts (entry INTEGER NOT NULL, day INTEGER NOT NULL, PRIMARY KEY (entry)) STRICT",
    "CREATE TABLE today (one INTEGER NOT NULL, day INTEGER NOT NULL, PRIMARY KEY (one)) STRICT; "
    "CREATE TABLE lasts (entry INTEGER NOT NULL, day INTEGER NOT NULL, PRIMARY KEY (entry)) STRICT",
    "CREATE VIEW TODAY AS SELECT name FROM members",
    "CREATE VIEW lasts AS SELECT name FROM members",
    "CREATE TABLE notes (said TEXT); CREATE INDEX today ON notes (said)",
    "CREATE TABLE notes (said TEXT); CREATE INDEX LASTS ON notes (said)",
    "CREATE TABLE more (x INTEGER REFERENCES today (one))",
    "CREATE TABLE more (x INTEGER, FOREIGN KEY (x) REFERENCES Lasts (entry))",
]

# what another program may have in the file beside the register
BESIDE = [
    "CREATE TABLE notes (at INTEGER PRIMARY KEY, said TEXT); INSERT INTO notes VALUES (7, 'kept')",
    "CREATE TABLE metadata (entries TEXT, reviews INTEGER); CREATE INDEX more ON metadata (entries)",
    "CREATE VIEW more AS SELECT * FROM entries",
    "CREATE TABLE notes (said TEXT); CREATE TABLE others (said TEXT); "
    "CREATE TRIGGER more AFTER INSERT ON notes BEGIN INSERT INTO others VALUES (new.said); END",
]

# what makes the file no database that the kit opens
UNSOUND = {
    "a row without its parent": "CREATE TABLE others (x INTEGER PRIMARY KEY); "
    "CREATE TABLE more (x REFERENCES others (x)); INSERT INTO more VALUES (7)",
    "a virtual table": "PRAGMA writable_schema = ON; INSERT INTO sqlite_schema VALUES "
    "('table', 'more', 'more', 0, 'CREATE VIRTUAL TABLE more USING nothing')",
}
# settings of a database that the kit doesn't open
OTHER_SETTINGS = ["PRAGMA encoding = 'UTF-16le'", "PRAGMA auto_vacuum = FULL"]
