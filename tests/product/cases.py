"""What `run_register` gives a register in a file, with what is told, shown and exported by the rules."""

from models.limits import FURTHER_CRITERIA, PEER_CRITERIA, further
from product.documents import demand_of, document, entry, table_of

# as many criteria as find room beside the built-in ones, and one more
*NAMES, ONE_MORE = further(FURTHER_CRITERIA + 1)
# an audits file with as many as a peer may have, and one with one more
ALL_OF_A_PEER, MORE_OF_A_PEER = (
    "".join(f"[criteria.{name}]\n" for name in further(count)) for count in (PEER_CRITERIA, PEER_CRITERIA + 1)
)

# ---- reports, byte for byte

COUNTS = """\
class            first   arrived  departed       now
conflicting          0         0         0         0
full                 0         1         1         0
partial              0         0         0         0
exempted             0         0         0         0
unvetted             0         2         2         0
demand               0         3         3         0
"""
NO_COUNTS = """\
class            first   arrived  departed       now
conflicting          0         0         0         0
full                 0         0         0         0
partial              0         0         0         0
exempted             0         0         0         0
unvetted             0         0         0         0
demand               0         0         0         0
"""
# a period that began with two unvetted pairs
CLOSED_COUNTS = """\
class            first   arrived  departed       now
conflicting          0         0         0         0
full                 0         0         0         0
partial              0         0         0         0
exempted             0         0         0         0
unvetted             2         0         0         2
demand               2         0         0         2
"""
STANDING = """\
serde                    1.0.1                safe-to-deploy       unvetted
serde                    1.0.1                safe-to-run          full
"""
STANDING_CSV = """\
package,version,criterion,class
serde,1.0.1,safe-to-deploy,unvetted
serde,1.0.1,safe-to-run,full
"""
MOVES = """\
       1 2024-05-01 serde                    1.0.1                safe-to-deploy       none        unvetted
       1 2024-05-01 serde                    1.0.1                safe-to-run          none        unvetted
       2 2024-05-02 serde                    1.0.1                safe-to-run          unvetted    full
       3 2024-05-03 serde                    1.0.1                safe-to-deploy       unvetted    none
       3 2024-05-03 serde                    1.0.1                safe-to-run          full        none
"""
REVIEW = """\
       1 2024-05-01 serde                    1.0.1                finished  -                       1 safe-to-deploy
"""
REVIEWS = """\
       1 2024-05-02 serde                    1.0.1                waiting   -                       - safe-to-run
       2 2024-05-03 serde                    1.0.1                assigned  ann                     - safe-to-deploy
       3 2024-05-04 serde                    1.0.1                withdrawn -                       - safe-to-deploy,x
       4 2024-05-05 serde                    1.0.1                finished  -                       7 safe-to-run
"""
LONG_STANDING = """\
package-with-a-name-longer-than-24 1.0.0-alpha.of-many-parts read,"twice"         unvetted
"""
LONG_CSV = """\
package,version,criterion,class
package-with-a-name-longer-than-24,1.0.0-alpha.of-many-parts,"read,""twice""\",unvetted
"""
LONG_MOVES = """\
       3 2024-05-01 package-with-a-name-longer-than-24 1.0.0-alpha.of-many-parts read,"twice"         none        \
unvetted
"""
# the lines of an exemption of serde before and after it has lapsed, and of one that names no criterion
HELD_LINE = """\
       1 2024-05-31 serde                    1.0.1                held   safe-to-deploy
"""
LAPSED_LINE = """\
       1 2024-05-31 serde                    1.0.1                lapsed safe-to-deploy
"""
BARE_LINE = f"       3 2024-05-01 {'serde':<24} {'1.0.1':<20} held   \n"
TWO_CRITERIA_LINE = """\
       4 9999-12-31 log                      0.4.0                held   safe-to-deploy,x
"""
LONG_LAPSE = """\
       1 2024-05-31 package-with-a-name-longer-than-24 1.0.0-alpha.of-many-parts held   read,"twice"
"""
LONG_REVIEW = """\
       1 2024-05-01 package-with-a-name-longer-than-24 1.0.0-alpha.of-many-parts assigned  a-member-of-more-than-16 \
       - read,"twice"
"""
# packages by their bytes, versions by precedence and then by build and revision, criteria by their bytes
REVISION = "0123456789abcdef" * 2 + "01234567"
IN_ORDER = [
    ("B", "1.9.0"),
    ("B", "1.10.0"),
    ("a", "1.0.0-alpha"),
    ("a", "1.0.0-alpha.1"),
    ("a", "1.0.0-beta"),
    ("a", "1.0.0"),
    ("a", f"1.0.0@git:{REVISION}"),
    ("a", "1.0.0+1"),
    ("a", "1.0.1"),
    ("a-b", "1.0.0"),
    ("a_b", "1.0.0"),
    ("ab", "1.0.0"),
]
# the classes of versions that are full, exempted, partial by a delta from there, condemned, and unvetted
OF_EACH_CLASS = """\
serde                    1.0.0                safe-to-run          full
serde                    1.0.1                safe-to-run          exempted
serde                    1.0.2                safe-to-run          partial
serde                    1.0.3                safe-to-run          conflicting
serde                    1.0.4                safe-to-run          unvetted
"""
COUNTS_OF_LAPSED = """\
class            first   arrived  departed       now
conflicting          0         0         0         0
full                 0         0         0         0
partial              0         0         0         0
exempted             0         2         2         0
unvetted             0         4         2         2
demand               0         6         4         2
"""
COUNTS_OF_EACH_CLASS = """\
class            first   arrived  departed       now
conflicting          0         1         0         1
full                 0         2         1         1
partial              0         1         0         1
exempted             0         1         0         1
unvetted             0         5         4         1
demand               0        10         5         5
"""


def csv_of(pairs):
    return "".join(f"{','.join(it)}\n" for it in [("package", "version", "criterion", "class"), *pairs])


def table_in_disorder():
    """A table by which a root demands the pairs, in another order, for safe-to-run."""
    lines = ["what,n,p,q,r", "node,0,app,0.1.0,root"]
    nodes = sorted(IN_ORDER, key=lambda it: it[1] + it[0])
    lines += [f"node,{at},{package},{version},third" for at, (package, version) in enumerate(nodes, 1)]
    lines += [f"edge,0,{at},dev," for at, _ in enumerate(nodes, 1)]
    return "".join(f"{line}\n" for line in lines)


LONG_NAME, LONG_VERSION, MARKS = "package-with-a-name-longer-than-24", "1.0.0-alpha.of-many-parts", 'read,"twice"'
LONG_TABLE = table_of(LONG_VERSION, package=LONG_NAME)
RUN = {"criteria": "safe-to-run"}
OPENED = {"package": "serde", "version": "1.0.1"}

# a name, the limit of moves, and in turn documents with what they are told, on a day and by a member, or reports
EXAMPLES = [
    ("nothing_is_held", None, [
        ("counts", NO_COUNTS),
        ("standing", ""),
        ("standing-csv", "package,version,criterion,class\n"),
        ("moves", ""),
        ("desk", ""),
        ("lapses", ""),
    ]),
    ("a_pair_arrives_and_departs", None, [
        (demand_of("1.0.1"), "done 1 moves 2"),
        (entry("full", **RUN, version="1.0.1"), "done 2 number 1 moves 1", "2024-05-02"),
        ("standing", STANDING),
        ("standing-csv", STANDING_CSV),
        (document("drop-project", project="app"), "done 3 moves 2", "2024-05-03"),
        ("counts", COUNTS),
        ("moves", MOVES),
        ("standing", ""),
        (document("close-period"), "done 4 moves 0"),
        ("counts", NO_COUNTS),
        ("moves", ""),
    ]),
    ("a_member_finishes_a_review", None, [
        (demand_of("1.0.1"), "done 1 moves 2"),
        (document("add-member", member="ann"), "done 2 moves 0"),
        (document("add-member", member="bob"), "done 3 moves 0"),
        (document("open-review", **OPENED, criteria="safe-to-deploy"), "done 4 number 1 moves 0"),
        (document("assign-review", review=1, member="ann"), "done 5 moves 0"),
        (document("finish-review", review=1, version="1.0.1"), "refused 22 NotYours", "2024-05-01", "bob"),
        (document("finish-review", review=1, delta="1.0.0 -> 1.0.2"), "refused 23 WrongTarget", "2024-05-01", "ann"),
        (document("finish-review", review=1, version="1.0.1"), "done 6 number 1 moves 2", "2024-05-01", "ann"),
        (document("finish-review", review=1, version="1.0.1"), "refused 21 ReviewClosed", "2024-05-01", "ann"),
        ("desk", REVIEW),
    ]),
    ("moves_end_at_their_limit", 2, [
        (demand_of("1.0.1"), "done 1 moves 2"),
        (entry("full", version="1.0.1"), "refused 25 MovesFull"),
        (document("close-period"), "done 2 moves 0"),
        ("counts", CLOSED_COUNTS),
        (entry("full", version="1.0.1"), "done 3 number 1 moves 2"),
    ]),
    ("a_member_is_added_twice", None, [
        (b'command = "add-member"\nmember = "ann"\n', "done 1 moves 0"),
        (b'command = "add-member"\nmember = "ann"\n', "already"),
    ]),
    ("reviews_of_each_state", None, [
        (demand_of("1.0.1"), "done 1 moves 2"),
        (document("add-member", member="ann"), "done 2 moves 0"),
        (document("set-criterion", name="x"), "done 3 moves 0"),
        (document("set-policy", policy="app", criteria=["x", "safe-to-deploy"]), "done 4 moves 1"),
        *[
            (entry("full", version=f"2.0.{number}"), f"done {4 + number} number {number} moves 0")
            for number in range(1, 7)
        ],
        (document("open-review", **OPENED, **RUN), "done 11 number 1 moves 0", "2024-05-02"),
        (document("open-review", **OPENED, criteria=["safe-to-deploy"]), "done 12 number 2 moves 0", "2024-05-03"),
        (
            document("open-review", **OPENED, criteria=["x", "safe-to-deploy"]),
            "done 13 number 3 moves 0",
            "2024-05-04",
        ),
        (document("open-review", **OPENED, **RUN), "done 14 number 4 moves 0", "2024-05-05"),
        (document("assign-review", review=2, member="ann"), "done 15 moves 0"),
        (document("withdraw-review", review=3), "done 16 moves 0", "2024-05-06", "ann"),
        (document("assign-review", review=4, member="ann"), "done 17 moves 0"),
        (document("finish-review", review=4, delta="2.0.1 -> 1.0.1"), "done 18 number 7 moves 1", "2024-05-06", "ann"),
        ("desk", REVIEWS),
    ]),
    ("long_values_are_not_cut", None, [
        (document("set-criterion", name=MARKS), "done 1 moves 0"),
        (document("set-policy", policy="app", criteria=MARKS), "done 2 moves 0"),
        (document("load-project", project="app", csv=LONG_TABLE), "done 3 moves 1"),
        ("standing", LONG_STANDING),
        ("standing-csv", LONG_CSV),
        ("moves", LONG_MOVES),
        (document("add-member", member="a-member-of-more-than-16"), "done 4 moves 0"),
        (
            document("open-review", package=LONG_NAME, version=LONG_VERSION, criteria=MARKS),
            "done 5 number 1 moves 0",
        ),
        (document("assign-review", review=1, member="a-member-of-more-than-16"), "done 6 moves 0"),
        ("desk", LONG_REVIEW),
        (
            entry("exemption", package=LONG_NAME, version=LONG_VERSION, criteria=MARKS, last_day="2024-05-31"),
            "done 7 number 1 moves 1",
        ),
        ("lapses", LONG_LAPSE),
    ]),
    ("pairs_stand_in_order", None, [
        (document("load-project", project="app", csv=table_in_disorder()), f"done 1 moves {len(IN_ORDER)}"),
        ("standing-csv", csv_of((*it, "safe-to-run", "unvetted") for it in IN_ORDER)),
    ]),
    ("a_pair_of_each_class", None, [
        (
            document("load-project", project="app", csv=table_of(*(f"1.0.{at}" for at in range(5)), kind="dev")),
            "done 1 moves 5",
        ),
        (entry("full", **RUN, version="1.0.0"), "done 2 number 1 moves 1"),
        (entry("exemption", **RUN, version="1.0.1"), "done 3 number 2 moves 1"),
        (entry("delta", **RUN, delta="1.0.1 -> 1.0.2"), "done 4 number 3 moves 1"),
        (entry("full", **RUN, version="1.0.3"), "done 5 number 4 moves 1"),
        (entry("violation", **RUN, violation="=1.0.3"), "done 6 number 5 moves 1"),
        ("standing", OF_EACH_CLASS),
        ("counts", COUNTS_OF_EACH_CLASS),
    ]),
    ("an_exemption_lapses", None, [
        (demand_of("1.0.1"), "done 1 moves 2"),
        (entry("exemption", version="1.0.1", last_day="2024-05-31"), "done 2 number 1 moves 2"),
        ("lapses", HELD_LINE),
        (document("set-day"), "done 3 moves 0", "2024-05-31"),
        (document("set-day"), "already", "2024-05-31"),
        ("lapses", HELD_LINE),
        (document("set-day"), "done 4 moves 2", "2024-06-01"),
        (document("set-day"), "refused 32 DayGoesBack", "2024-05-31"),
        ("lapses", LAPSED_LINE),
        ("counts", COUNTS_OF_LAPSED),
    ]),
    # by the day of the command, and not by that of the register; the ones without a last day have no line
    ("last_days_are_judged_by_the_day", None, [
        (document("set-day"), "done 1 moves 0", "2024-06-01"),
        (entry("exemption", version="1.0.1", last_day="2024-05-31"), "done 2 number 1 moves 0", "2024-05-31"),
        (entry("exemption", version="1.0.2", last_day="2024-04-30"), "refused 11 EmptyWindow"),
        (entry("exemption", version="1.0.1"), "done 3 number 2 moves 0", "2024-06-01"),
        (entry("exemption", version="1.0.1", last_day="2024-05-31"), "already 1", "2024-06-01"),
        ("lapses", LAPSED_LINE),
    ]),
    ("last_days_by_number", None, [
        (document("set-criterion", name="x"), "done 1 moves 0"),
        (entry("exemption", version="1.0.1", last_day="2024-05-31"), "done 2 number 1 moves 0"),
        (entry("exemption", version="1.0.1"), "done 3 number 2 moves 0"),
        (entry("exemption", version="1.0.1", criteria=[], last_day="2024-05-01"), "done 4 number 3 moves 0"),
        (
            entry("exemption", package="log", version="0.4.0", criteria=["x", "safe-to-deploy"], last_day="9999-12-31"),
            "done 5 number 4 moves 0",
        ),
        ("lapses", HELD_LINE + BARE_LINE + TWO_CRITERIA_LINE),
        (document("drop-entry", number=3), "done 6 moves 0"),
        ("lapses", HELD_LINE + TWO_CRITERIA_LINE),
    ]),
]

# ---- refusals and outcomes by turns, on what two commands left

WINDOW = {"user_id": 5, "start": "2023-01-01", "end": "2023-12-31"}
EDGE = "what,n,p,q,r\nnode,0,app,0.1.0,root\nnode,1,serde,1.0.1,third\nedge,0,7,normal,\n"
PARTIES = "what,n,p,q,r\nnode,0,app,0.1.0,root\nnode,1,app,0.1.0,third\n"
TO = "2025-05-02"
REFUSED = {
    "each_refusal_has_its_line": [
        (entry("full", package="ser de", version="1.0.1"), "refused 1 BadName"),
        (entry("full", version="1.0"), "refused 2 BadVersion"),
        (entry("violation", violation=">>1"), "refused 3 BadRequirement"),
        (entry("wildcard", **WINDOW | {"start": "2023-02-29"}), "refused 4 BadDay"),
        (entry("delta", delta="1.0.0 1.1.0"), "refused 5 BadDelta"),
        (entry("full", criteria="nope", version="1.0.1"), "refused 6 UnknownCriterion nope"),
        (document("set-criterion", name="safe-to-run"), "refused 7 BuiltInCriterion"),
        (document("set-criterion", name="x"), "done 3 moves 0"),
        (entry("full", criteria="x", version="1.0.1"), "done 4 number 2 moves 0"),
        (document("remove-criterion", name="x"), "refused 8 CriterionInUse"),
        (document("drop-entry", number=99), "refused 10 UnknownEntry"),
        (document("import-peer", peer="z", audits=""), "refused 13 UnknownPeer"),
        (document("drop-policy", policy="serde"), "refused 14 UnknownPolicy"),
        (document("drop-project", project="zed"), "refused 15 UnknownProject"),
        (document("load-project", project="app", csv=EDGE), "refused 16 UnknownNode 4"),
        (document("load-project", project="app", csv=PARTIES), "refused 17 TwoParties 3"),
        (document("assign-review", review=1, member="zed"), "refused 19 UnknownMember"),
        (document("add-member", member="zed"), "done 5 moves 0"),
        (document("assign-review", review=1, member="zed"), "refused 20 UnknownReview"),
        (document("open-review", package="serde", version="9.9.9", **RUN), "refused 24 NotDemanded"),
        (b"x =\n", "refused 26 TomlRefused"),
        (document("load-project", project="app", csv="a,b\n"), "refused 27 CsvRefused 1"),
        (b"command = 5\n", "refused 28 FieldRefused command command"),
        (entry("full", **RUN, version="1.0.1"), "already 1"),
    ],
    # a window that ends before it begins, and one that ends more than 366 days after the day of the command
    "windows_are_judged_by_the_day": [
        (entry("trusted", **WINDOW | {"start": "2024-05-01", "end": TO}), "done 3 number 2 moves 0"),
        (entry("trusted", **WINDOW | {"end": "2025-05-03"}), "refused 12 WindowTooLong"),
        (entry("wildcard", **WINDOW | {"end": "2025-05-03"}), "refused 12 WindowTooLong"),
        (entry("wildcard", **WINDOW | {"start": "2024-01-01"}), "refused 11 EmptyWindow"),
    ],
    "outcomes_have_their_numbers": [
        (entry("full", version="1.0.1"), "done 3 number 2 moves 1"),
        (entry("full", version="1.0.1", criteria=["safe-to-deploy"] * 2), "already 2"),
        (document("drop-entry", number=2), "done 4 moves 1"),
        (entry("full", version="1.0.1"), "done 5 number 3 moves 1"),
        (document("add-member", member="ann"), "done 6 moves 0"),
        (document("open-review", **OPENED, **RUN), "done 7 number 1 moves 0"),
        (document("assign-review", review=1, member="ann"), "done 8 moves 0"),
        (document("assign-review", review=1, member="ann"), "already"),
        (document("drop-entry", number=9_223_372_036_854_775_807), "refused 10 UnknownEntry"),
        (document("drop-project", project="app"), "done 9 moves 2"),
    ],
    # as many criteria as may be, and one that can be removed
    "criteria_end_at_their_limit": [
        *[(document("set-criterion", name=name), f"done {step} moves 0") for step, name in enumerate(NAMES, 3)],
        (document("set-criterion", name=ONE_MORE), "refused 9 TooManyCriteria"),
        (document("remove-criterion", name=NAMES[0]), f"done {FURTHER_CRITERIA + 3} moves 0"),
        (document("remove-criterion", name=NAMES[0]), f"refused 6 UnknownCriterion {NAMES[0]}"),
    ],
    # as many criteria as a peer may have. Of one more the name is read first, and then it is refused before the rest
    "criteria_of_a_peer_end_at_their_limit": [
        (document("set-peer", peer="p", url=[]), "done 3 moves 0"),
        (document("import-peer", peer="p", audits=ALL_OF_A_PEER), "done 4 moves 0"),
        (document("import-peer", peer="p", audits=MORE_OF_A_PEER), "refused 18 TooLarge peer-criteria"),
        (
            document("import-peer", peer="p", audits=ALL_OF_A_PEER + '[criteria."d e"]\n'),
            "refused 28 FieldRefused criteria ?",
        ),
        (
            document("import-peer", peer="p", audits=ALL_OF_A_PEER + "[criteria.d]\ndescription = 1\n"),
            "refused 18 TooLarge peer-criteria",
        ),
        (document("import-peer", peer="p", audits=ALL_OF_A_PEER), "already"),
    ],
    "a_member_is_ignored_where_none_is_asked": [
        (document("close-period"), "done 3 moves 0"),
        (document("set-policy", policy="app"), "done 4 moves 0"),
        (document("set-policy", policy="app"), "already"),
    ],
}

# ---- documents that are refused, each with its name and what is told

NODES = "what,n,p,q,r\n" + "".join(f"node,{at},a,1.0.{at},third\n" for at in range(10_001))
EDGES = "what,n,p,q,r\n" + "".join(f"node,{at},a,1.0.{at},third\n" for at in range(317))
EDGES += "".join(f"edge,{at // 317},{at % 317},normal,\n" for at in range(317 * 317))
LONG_TEXT = [
    (
        "too many criteria of a peer",
        document("import-peer", peer="p", audits=MORE_OF_A_PEER),
        "refused 18 TooLarge peer-criteria",
    ),
    (
        "a long text in a file",
        document("replace-files", audits="", config=f'[cargo-vet]\nversion = "{"x" * 65_537}"', imports=""),
        "refused 18 TooLarge text",
    ),
]
MANY_NODES = [
    ("too many nodes", document("load-project", project="app", csv=NODES), "refused 18 TooLarge nodes"),
    ("too many edges", document("load-project", project="app", csv=EDGES), "refused 18 TooLarge edges"),
]
NO_TEXT = [
    (f"no TOML, {place}", given, "refused 26 TomlRefused")
    for place, given in enumerate(
        [
            b"x =",
            b"\xff",
            b'command = "add-member"\nmember = "a\xff"\n',
            b'command = "close-period"\ncommand = "close-period"\n',
            b"command = close-period\n",
            b'{"command": "close-period"}\n',
            b'command = "close-period" extra = 1\n',
            b"\x00",
        ]
    )
]
NO_TEXT += [
    ("an empty document", b"", "refused 28 FieldRefused command command"),
    ("a remark alone", b"# close-period\n", "refused 28 FieldRefused command command"),
]
