"""What a register keeps of each key: a document, the file that is exported, and tables in it."""

from product.cases import REVISION, TO
from product.documents import document, entry

OF_RUN = {"criteria": "safe-to-run", "version": "1.0.1"}
UPPER = "0123456789ABCDEF" * 2 + "01234567"
LONGEST = "x" * 65_536
LAST_USER = 9_223_372_036_854_775_807
KEPT = [
    (
        "a criterion with all keys",
        document(
            "set-criterion", name="x", description="Read.", description_url="https://x.example", implies="safe-to-run"
        ),
        "audits",
        {"criteria": {"x": {
            "description": "Read.", "description-url": "https://x.example", "implies": "safe-to-run"
        }}},
    ),
    (
        "a criterion with an empty description, that implies two",
        document("set-criterion", name="x", description="", implies=["safe-to-run", "safe-to-deploy", "safe-to-run"]),
        "audits",
        {"criteria": {"x": {"description": "", "implies": ["safe-to-deploy", "safe-to-run"]}}},
    ),
    (
        "a full entry with all keys",
        entry("full", version="1.0.2", who=["Bob", "Ann"], notes="Only\ntests.", importable=False),
        "audits",
        {"audits": {"serde": [OF_RUN, {
            "criteria": "safe-to-deploy", "version": "1.0.2", "who": ["Ann", "Bob"], "notes": "Only\ntests.",
            "importable": False,
        }]}},
    ),
    (
        "a full entry of a revision",
        entry("full", package="log", version=f"1.0.2@git:{UPPER}"),
        "audits",
        {"audits": {
            "log": [{"criteria": "safe-to-deploy", "version": f"1.0.2@git:{REVISION}"}], "serde": [OF_RUN]
        }},
    ),
    (
        "a delta with all keys",
        entry("delta", delta="1.0.0->  1.1.0", criteria=[], who="Ann", notes="", importable=True),
        "audits",
        {"audits": {"serde": [OF_RUN, {
            "criteria": [], "delta": "1.0.0 -> 1.1.0", "who": "Ann", "notes": "", "importable": True
        }]}},
    ),
    (
        "a violation with all keys",
        entry("violation", violation=">=1, <2", who=["Ann", "Ann"], notes="No.", importable=True),
        "audits",
        {"audits": {"serde": [OF_RUN, {
            "criteria": "safe-to-deploy", "violation": ">=1, <2", "who": "Ann", "notes": "No.", "importable": True
        }]}},
    ),
    (
        "a wildcard with all keys",
        entry("wildcard", user_id=LAST_USER, start="2023-01-01", end=TO, who="Ann", notes="N", renew=False),
        "audits",
        {"wildcard-audits": {"serde": [{
            "criteria": "safe-to-deploy", "user-id": LAST_USER, "start": "2023-01-01", "end": TO, "who": "Ann",
            "notes": "N", "renew": False,
        }]}},
    ),
    (
        "a trusted publisher with all keys, and days as dates",
        b'command = "add-entry"\npackage = "serde"\nkind = "trusted"\nuser-id = 0\nstart = 2023-01-01\n'
        b'end = 2023-12-31\ncriteria = "safe-to-run"\nnotes = "N"\n',
        "audits",
        {"trusted": {"serde": [{
            "criteria": "safe-to-run", "user-id": 0, "start": "2023-01-01", "end": "2023-12-31", "notes": "N"
        }]}},
    ),
    (
        "an exemption with all keys",
        entry("exemption", version="1.0.2", notes="N", suggest=False),
        "config",
        {"exemptions": {"serde": [{
            "criteria": "safe-to-deploy", "version": "1.0.2", "notes": "N", "suggest": False
        }]}},
    ),
    (
        "an exemption with a last day, which is in no file",
        entry("exemption", version="1.0.2", notes="N", suggest=False, last_day="2024-05-31"),
        "config",
        {"exemptions": None},
    ),
    (
        "a policy with all keys",
        document("set-policy", policy="serde:1.0.1", audit_as_crates_io=False, criteria=[], dev_criteria="safe-to-run",
            dependency_criteria={"log": [], "a_b": ["safe-to-run", "safe-to-deploy"]}, notes="N"),
        "config",
        {"policy": {"serde:1.0.1": {
            "audit-as-crates-io": False, "criteria": [], "dev-criteria": "safe-to-run", "notes": "N",
            "dependency-criteria": {"log": [], "a_b": ["safe-to-deploy", "safe-to-run"]},
        }}},
    ),
    (
        "a policy that says nothing",
        document("set-policy", policy="log", dependency_criteria={}),
        "config",
        {"policy": {"log": {}}},
    ),
    (
        "a peer with all keys",
        document("set-peer", peer="p", url=["two", "one"], exclude=["log", "a"],
            criteria_map={"read": "safe-to-run", "none": [], "safe-to-run": ["safe-to-run", "safe-to-deploy"]}),
        "config",
        {"imports": {"p": {
            "url": ["one", "two"], "exclude": ["a", "log"],
            "criteria-map": {"read": "safe-to-run", "none": [], "safe-to-run": ["safe-to-deploy", "safe-to-run"]},
        }}},
    ),
    (
        "a peer of no url",
        document("set-peer", peer="p", url=[], exclude=[], criteria_map={}),
        "config",
        {"imports": {"p": {"url": []}}},
    ),
    (
        "publisher records with all keys",
        document("set-publishers", package="serde", records=[
            {"version": "1.10.0", "when": "2023-02-03", "user-id": 5},
            {"version": "1.9.0", "when": "2023-02-04", "user-id": 5, "user-login": "dt", "user-name": ""},
            {"version": "1.10.0", "when": "2023-02-03", "user-id": 5},
        ]),
        "imports",
        {"publisher": {"serde": [
            {"version": "1.9.0", "when": "2023-02-04", "user-id": 5, "user-login": "dt", "user-name": ""},
            {"version": "1.10.0", "when": "2023-02-03", "user-id": 5},
        ]}},
    ),
    (
        "notes as long as may be",
        entry("exemption", version="1.0.2", notes=LONGEST),
        "config",
        {"exemptions": {"serde": [{"criteria": "safe-to-deploy", "version": "1.0.2", "notes": LONGEST}]}},
    ),
    (
        "three files",
        document(
            "replace-files",
            audits='[[audits.log]]\ncriteria = "safe-to-run"\nversion = "1.0.0"\nextra = 1\n',
            config='default-criteria = ["x"]\n[cargo-vet]\nversion = "0.10"\n[imports.p]\nurl = "u"\n',
            imports='[[audits.p.audits.log]]\ncriteria = "c"\ndelta = "1.0.0 -> 1.0.1"\n',
        ),
        "config",
        {"default-criteria": "x", "cargo-vet": {"version": "0.10"}, "imports": {"p": {"url": "u"}}},
    ),
]
