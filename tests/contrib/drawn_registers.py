"""Registers that are drawn, as their three files and the table of a project that asks for each pair of them. They have
peers with maps and excluded packages, windows with publishers, violations of each form of requirement, revisions,
pre-releases and exemptions."""

from models.written import toml_text

ROOT = "root"
PACKAGES = ("a", "b")
REVISION = "1.0.0@git:" + 40 * "a"
VERSIONS = ("0.0.3", "0.3.1", "1.0.0-rc.1", "1.0.0", REVISION, "1.0.0+b", "1.0.2", "1.1.0-a.1", "1.1.0", "2.0.0")
REQUIREMENTS = (
    *("*", "=1.0.0", "=1.0.0-rc.1", "=1.0", "=1", "1.0.2", "^1.0.0-rc.2", "0.3", "^0.3.1", "0.0.3", "^0", "0.0", "x"),
    *("~1.0.0", "~1.0", "~1", "1.*", "1.0.x", "1.1.0-a", "~1.1.0-a.0", ">1.0.0", ">1.0", ">1", ">1.1.0-a", ">=1.0.2"),
    *(">=1.1", ">=2", "<1.0.0", "<1.0.0-rc.2", "<1.1", "<2", "<=1.0.0", "<=1.0", "<=1", "<=1.1.0-a.1", ">= 0.3, <1"),
    *(">=1, <=1.0.0-rc.1", ">1.0.0-a, <1.1.0", ">=1.0, >=1.1.0-a", "<=1.1, >1.1.0-a.0", ">2, <1", "^1, ~1.0.0-rc.0"),
)
CRITERIA = ("safe-to-deploy", "safe-to-run", "x", "y", "z")
# what a peer may say, its own `y` and what nobody defines among it
WORDS = ("r", "s", "y", "safe-to-deploy", "safe-to-run", "?")
PEERS = ("p", "q")
DAYS = ("2023-02-01", "2023-02-03", "2023-02-05", "2023-02-07")
USERS = (5, 6)
OWN_KINDS = {"audits": 6, "wildcard-audits": 1, "trusted": 1, "exemptions": 2}
KINDS_OF_PEERS = {"audits": 5, "wildcard-audits": 1}
AUDITS = ("version", "version", "delta", "delta", "delta", "violation")


class DrawnRegister:
    def __init__(self, dice):
        self.dice = dice
        self.versions = dice.sample(VERSIONS, 6)
        own = self.audits(CRITERIA[2:], CRITERIA, OWN_KINDS)
        policy = {ROOT: {"dependency-criteria": {package: list(CRITERIA) for package in PACKAGES}}}
        config = {"policy": policy, "exemptions": own.pop("exemptions", {}), "imports": self.settings()}
        peers = {peer: self.audits(("r", "s", "y"), WORDS, KINDS_OF_PEERS) for peer in PEERS}
        records = {package: self.some(self.record, 0, 3) for package in PACKAGES}
        imports = {"audits": peers, "publisher": {package: of for package, of in records.items() if of}}
        self.files = [toml_text(table, dice) for table in (own, config, imports)]

    def some(self, drawn, least, most):
        found = []
        for _ in range(self.dice.randrange(least, most + 1)):
            item = drawn()
            found += [item] if item not in found else []
        return found

    def names(self, names, least=1):
        return self.some(lambda: self.dice.choice(names), least, 2)

    def audits(self, criteria, names, kinds):
        """An audits file, with its exemptions if there may be some."""
        file = {"criteria": {name: {"implies": self.names(names, 0)} for name in criteria}, "audits": {}}
        for _ in range(self.dice.randrange(3, 18)):
            key = self.dice.choices(*zip(*kinds.items()))[0]
            entry = self.entry(key) | {"criteria": self.names(names)}
            listed = file.setdefault(key, {}).setdefault(self.dice.choice(PACKAGES), [])
            listed += [entry] if entry not in listed else []
        return file

    def entry(self, key):
        if key == "exemptions":
            return {"version": self.dice.choice(self.versions)}
        if key != "audits":
            days = {"start": self.dice.choice(DAYS), "end": self.dice.choice(DAYS)}
            return days | {"user-id": self.dice.choice(USERS)}
        kind = self.dice.choice(AUDITS)
        found = {
            "version": self.dice.choice(self.versions),
            "delta": " -> ".join(self.dice.choices(self.versions, k=2)),
            "violation": self.dice.choice(REQUIREMENTS),
        }
        return {kind: found[kind], "who": self.dice.choice(("Ann", "A line\nand \u001b[1mmore"))}

    def settings(self):
        excluded = [[], [], [], [PACKAGES[0]]]
        return {
            peer: {
                "url": f"https://{peer}.example",
                "exclude": self.dice.choice(excluded),
                "criteria-map": {word: self.names(CRITERIA, 0) for word in self.names(WORDS, 0)},
            }
            for peer in PEERS
        }

    def record(self):
        version, user = self.dice.choice(self.versions), self.dice.choice(USERS)
        return {"version": version, "when": self.dice.choice(DAYS), "user-id": user}

    def pairs(self):
        nodes = [(package, version) for package in PACKAGES for version in self.versions]
        return [(*node, criterion) for node in nodes for criterion in CRITERIA]

    def table(self):
        """A root that asks for each pair, by the policy that the config file has for it."""
        nodes = [f"{package},{version},third" for package in PACKAGES for version in self.versions]
        lines = ["what,n,p,q,r", f"node,0,{ROOT},0.1.0,root"]
        lines += [f"node,{at},{node}" for at, node in enumerate(nodes, 1)]
        lines += [f"edge,0,{at},normal," for at in range(1, len(nodes) + 1)]
        return "".join(f"{line}\n" for line in lines)
