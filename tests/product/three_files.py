"""A file of each kind, with each of its tables, what `vetd read` tells of it, and of one with a fault."""

WINDOW = b'criteria = "reviewed"\nuser-id = 5\nstart = "2023-01-01"\nend = 2023-12-31\n'
AUDITS = (
    b"""[criteria.reviewed]
description = "Read by two people."
description-url = "https://x.example/reviewed"
implies = ["safe-to-run"]
[[audits.serde]]
criteria = ["reviewed", "safe-to-run"]
delta = "1.0.0 -> 1.0.1"
who = ["Ann", "Bob"]
notes = "Only tests have changed."
extra = 1
[[audits.serde]]
criteria = "reviewed"
violation = "=1.0.2"
[[audits.serde]]
criteria = ["reviewed"]
violation = "=1.0.2"
[[audits.serde]]
[[wildcard-audits.serde]]
"""
    + WINDOW
    + b"[[trusted.serde]]\n"
    + WINDOW
)
CONFIG = b"""default-criteria = "safe-to-deploy"
[cargo-vet]
version = "0.10"
[imports.p]
url = "https://x.example/audits.toml"
exclude = ["log", "serde"]
criteria-map = { reviewed = "safe-to-deploy" }
[policy.app]
criteria = "safe-to-run"
dependency-criteria = { a = [] }
[policy."app:0.1.0"]
notes = "Ours."
[[exemptions.serde]]
version = "1.0.0"
criteria = "safe-to-deploy"
"""
IMPORTS = b"""[[publisher.serde]]
version = "1.0.1"
when = "2023-02-03"
user-id = 5
user-login = "dt"
user-name = "D T"
[[unpublished.mine]]
version = "0.2.0"
[audits.p.criteria.reviewed]
implies = "safe-to-run"
[[audits.p.audits.serde]]
who = "Ann <ann@x.example>"
criteria = "reviewed"
delta = "1.0.0 -> 1.0.1"
aggregated-from = "https://x.example/audits.toml"
[[audits.p.audits.serde]]
criteria = "reviewed"
version = "1.0.0"
importable = false
"""
AUDITS_LINE = b"read criteria 1 entries 4 publishers 0 policies 0 peers 0 keys 1 skipped 1 doubles 1\n"
CONFIG_LINE = b"read criteria 0 entries 1 publishers 0 policies 2 peers 1 keys 0 skipped 0 doubles 0\n"
IMPORTS_LINE = b"read criteria 1 entries 1 publishers 1 policies 0 peers 1 keys 2 skipped 1 doubles 0\n"
TOP_AUDITS = b"refused 28 FieldRefused top audits\n"
BAD_IMPORTS = IMPORTS.replace(b"1.0.0 -> 1.0.1", b"1.0.0 1.0.1")
BAD_IMPORTS_LINE = b"refused 28 FieldRefused audits.p.audits.serde[0] delta\n"
