"""Commands that are drawn, of few names, so that they meet. Files that are drawn hold mostly what is held, or was held
before: some of it is taken away or changed, and something added."""

from models.drawn_desk import DrawnDesk
from models.files import LAST_DAY, Content, Criterion, Entry, Settings
from models.held import BUILT_IN
from models.limits import FURTHER_CRITERIA, further
from models.machine import MOST_MOVES, Machine
from models.projects import KINDS, PARTIES, word_of_table
from models.written import audits_of, held_audits, held_config, held_imports, toml_text
from models.words import word_of

CRITERIA = ("x", "y", "z", *BUILT_IN)
# what a peer may say, its own `y` and what nobody defines among it
WORDS = ("r", "s", "y", "safe-to-deploy", "safe-to-run", "?")
PEERS = ("p", "q", "r")
PACKAGES = ("a", "b", "c", "app")
VERSIONS = ("1.0.0", "1.1.0")
KEYS = ("a", "a:1.0.0", "app", "app:1.0.0", "app:1.1.0", "b", "b:1.1.0")
PROJECTS = ("app", "one", "two")
DAYS = ("2023-02-01", "2023-02-03", "2023-02-05")
USERS = (5, 6)
# last days of exemptions, the first before all commands, and how many days commands have, from 2024-05-01 on
LAST_DAYS = ("2024-04-30", "2024-05-01", "2024-05-02", "2024-05-03", "2024-05-04")
COMMAND_DAYS = 6
# how many commands a list has
LENGTH = 40


class Drawn(DrawnDesk):
    """A machine that was given drawn commands, with these and what it told."""

    # the criteria of which commands are, and those of these that are not built in
    criteria, own_criteria = CRITERIA, ("x", "y", "z")

    def __init__(self, dice):
        self.dice = dice
        limit = dice.choice((MOST_MOVES, MOST_MOVES, dice.randrange(1, 60)))
        self.machine = Machine(limit)
        self.lines, self.answers = [], []
        # all that was held at some time
        self.states = [self.machine.held]
        for command in (*self.first(), self.member(), self.project()):
            self.give(f"2024-05-01 {command}")
        for place in range(LENGTH):
            self.give(f"{self.day(place)} {self.command()}")

    def first(self):
        """The commands that each list begins with."""
        return ("set-criterion x", "set-criterion y x")

    def give(self, line):
        self.lines.append(line)
        self.answers.append(self.machine.told(line))
        self.states.append(self.machine.held)

    def text(self, *more):
        """The lines as they are given, and more behind them."""
        return "\n".join([f"limit {self.machine.limit}", *self.lines, *more, ""])

    # ---- commands

    def day(self, place):
        """Mostly one after the other."""
        return f"2024-05-{1 + (place // 10 if self.dice.random() < 0.8 else self.dice.randrange(COMMAND_DAYS)):02}"

    def command(self):
        drawn = (self.criterion, self.entry, self.policy, self.policy, self.project, self.project, self.dropped)
        drawn += (self.publishers, self.peer, self.imported, self.imported, self.files, self.set_day)
        return self.dice.choice((*drawn, *[self.at_desk] * 10, *[self.period] * (self.dice.random() < 0.3)))()

    def period(self):
        return "close-period"

    def set_day(self):
        return "set-day"

    def some(self, things, least, most):
        return [self.dice.choice(things) for _ in range(self.dice.randrange(least, most + 1))]

    def criterion(self):
        return " ".join(["set-criterion", *self.some(self.criteria, 1, 3)])

    def entry(self):
        entry = self.drawn_entry(self.criteria, ("full", "exemption", "exemption", "delta", "violation"))
        lasts = entry.kind == "exemption" and self.dice.random() < 0.8
        last = [LAST_DAY + self.dice.choice(LAST_DAYS)] if lasts else []
        return " ".join(["add-entry", entry.kind, entry.package, *entry.parts, *entry.criteria, *last])

    def policy(self):
        listed = lambda: ",".join(self.some(self.criteria, 0, 2))
        passed = ";".join(f"{package}={listed()}" for package in self.dice.sample(PACKAGES, self.dice.randrange(1, 3)))
        audited = self.dice.choice(("true", "false"))
        said = [f"criteria={listed()}", f"dev-criteria={listed()}", f"dependency-criteria={passed}"]
        words = [word for word in [*said, f"audit-as-crates-io={audited}"] if self.dice.random() < 0.4]
        return " ".join(["set-policy", self.dice.choice(KEYS), *words])

    def project(self):
        names = [(package, version) for package in PACKAGES for version in VERSIONS]
        nodes = self.dice.sample(names, self.dice.randrange(1, 7))
        if self.dice.random() < 0.05:
            nodes.append(nodes[0])
        parties = [self.dice.choice((*PARTIES, "third")) for _ in nodes]
        lines = [f"node,{place},{','.join(nodes[place])},{party}" for place, party in enumerate(parties)]
        end = len(nodes) + (self.dice.random() < 0.05)
        for _ in range(self.dice.randrange(9)):
            kind = self.dice.choice((*KINDS, "normal"))
            lines.append(f"edge,{self.dice.randrange(end)},{self.dice.randrange(end)},{kind},")
        return f"load-project {self.dice.choice(PROJECTS)} {word_of_table(lines)}"

    def dropped(self):
        number = str(self.dice.randrange(1, 19))
        drops = {"remove-criterion": self.criteria, "drop-entry": [number]}
        drops |= {"drop-policy": KEYS, "drop-project": PROJECTS}
        word = self.dice.choice(sorted(drops | {"drop-peer": PEERS}))
        return f"{word} {self.dice.choice((drops | {'drop-peer': PEERS})[word])}"

    def publishers(self):
        records = (f"{self.dice.choice(VERSIONS)},{self.dice.choice(USERS)},{day}" for day in self.some(DAYS, 0, 2))
        return " ".join(["set-publishers", self.dice.choice(PACKAGES), *records])

    def peer(self):
        settings = self.drawn_settings()
        listed = ";".join(f"{name}={','.join(names)}" for name, names in settings.map) or "-"
        words = [",".join(settings.urls) or "-", ",".join(settings.excluded) or "-", listed]
        return " ".join(["set-peer", self.dice.choice(PEERS), *words])

    def imported(self):
        """Mostly what is held of the peer, and then not all of it, or more."""
        name = self.dice.choice((*PEERS, *sorted(self.machine.held.contents) * 3))
        held = self.machine.held.contents.get(name, Content({}, {}))
        criteria, entries = dict(held.criteria), list(held.entries.values())
        self.change_content(criteria, entries)
        return f"import-peer {name} {word_of(toml_text(audits_of(criteria, entries), self.dice))}"

    # ---- what files hold

    def drawn_entry(self, criteria, kinds):
        kind, version = self.dice.choice(kinds), self.dice.choice(VERSIONS)
        parts = (version,)
        if kind == "delta":
            parts = tuple(self.dice.sample(VERSIONS, 2))
        elif kind == "violation":
            parts = ("=" + version,)
        elif kind in ("wildcard", "trusted"):
            parts = (str(self.dice.choice(USERS)), self.dice.choice(DAYS), self.dice.choice(DAYS))
        return Entry(kind, self.dice.choice(PACKAGES), parts, tuple(sorted(set(self.some(criteria, 1, 2)))))

    def noted(self, entry):
        """The same entry, and sometimes something said beside."""
        said = []
        if entry.kind not in ("trusted", "exemption"):
            said += sorted(f"who={name}" for name in self.dice.sample(("Ann", "Bob"), self.dice.choice((0, 0, 1, 2))))
        flag = {"wildcard": "renew", "exemption": "suggest"}.get(entry.kind, "importable")
        if entry.kind != "trusted" and self.dice.random() < 0.2:
            said.append(f"{flag}={self.dice.choice(('true', 'false'))}")
        if self.dice.random() < 0.2:
            said.append(f"notes={self.dice.choice(('%', 'Only%20tests.'))}")
        return entry._replace(said=tuple(said))

    def drawn_settings(self):
        urls = tuple(sorted(self.dice.sample(("one", "two"), self.dice.randrange(3))))
        excluded = tuple(sorted(self.dice.sample(PACKAGES, self.dice.choice((0, 0, 0, 1, 2)))))
        words = sorted(self.dice.sample(WORDS, self.dice.randrange(3)))
        mapped = [(word, tuple(sorted(set(self.some(self.criteria, 0, 2))))) for word in words]
        return Settings(urls, excluded, tuple(mapped))

    def change_entries(self, entries, criteria, kinds):
        """One entry goes, or comes."""
        if entries and self.dice.random() < 0.5:
            entries.remove(self.dice.choice(entries))
        else:
            entry = self.noted(self.drawn_entry(criteria, kinds))
            entries += [entry] if entry not in entries else []

    def change_criteria(self, criteria, names, implied):
        name = self.dice.choice(names)
        if name in criteria and self.dice.random() < 0.3:
            del criteria[name]
        else:
            said = self.dice.choice(((), (), ("description=Read.",), ("description=%", "description-url=one")))
            criteria[name] = Criterion(frozenset(self.some(implied, 0, 2)), said)

    def change_content(self, criteria, entries):
        for _ in range(self.dice.choice((0, 1, 1, 2, 3))):
            if self.dice.random() < 0.3:
                self.change_criteria(criteria, ("r", "s", "y"), WORDS)
            else:
                self.change_entries(entries, WORDS, ("full", "full", "delta", "violation", "wildcard"))

    # ---- files

    def files(self):
        """What is held in files, or was held at some time, and some of it changed."""
        held = self.dice.choice((self.machine.held, self.machine.held, self.dice.choice(self.states))).copy()
        changes = (self.own, self.own, self.criteria_held, self.tool, self.policies, self.records, self.peers)
        changes += (self.unreviewed,)
        for _ in range(self.dice.choice((0, 0, 1, 2, 4))):
            self.dice.choice(changes)(held)
        audits, config = held_audits(held), held_config(held)
        imports = held_imports(held, excluding=False)
        if self.dice.random() < 0.05:
            imports["audits"][self.dice.choice(PEERS)] = {"audits": {}}
        # a peer of which nothing is held need not stand in the imports file
        for name in [name for name, table in imports["audits"].items() if table == {"audits": {}}]:
            if self.dice.random() < 0.5:
                del imports["audits"][name]
        texts = [toml_text(table, self.dice) for table in (audits, config, imports)]
        return " ".join(["replace-files", *map(word_of, texts)])

    def own(self, held):
        entries = list(held.entries.values())
        self.change_entries(entries, self.criteria, ("full", "exemption", "delta", "violation", "wildcard", "trusted"))
        held.entries = dict(enumerate(entries))

    def criteria_held(self, held):
        self.change_criteria(held.criteria, self.own_criteria, self.criteria)

    def tool(self, held):
        defaults = self.dice.choice((None, (), ("nope",), ("safe-to-run", "x")))
        held.tool = (self.dice.choice((None, "0.9", "0.10")), defaults)

    def policies(self, held):
        key = self.dice.choice(KEYS)
        if key in held.policies and self.dice.random() < 0.5:
            del held.policies[key]
        else:
            held.policies[key] = {"criteria": set(self.some(self.criteria, 0, 2)), "notes": "Ours."}

    def records(self, held):
        version, user, day = self.dice.choice(VERSIONS), str(self.dice.choice(USERS)), self.dice.choice(DAYS)
        said = self.dice.choice(((), (), ("user-login=one",), ("user-login=one", "user-name=%")))
        held.publishers[self.dice.choice(PACKAGES)] = [(version, user, day, *said)]

    def peers(self, held):
        name = self.dice.choice(PEERS)
        drawn = self.dice.random()
        if name not in held.settings:
            held.settings[name] = self.drawn_settings()
            held.contents[name] = Content({}, {})
        elif drawn < 0.3:
            held.settings[name] = self.drawn_settings()
        elif drawn < 0.5:
            # what was imported may stay in its file
            del held.settings[name]
            if drawn < 0.45:
                del held.contents[name]
            return
        else:
            criteria, entries = dict(held.contents[name].criteria), list(held.contents[name].entries.values())
            self.change_content(criteria, entries)
            held.contents[name] = Content(criteria, dict(enumerate(entries)))


class DrawnOfMany(Drawn):
    """The same with a table that is full, or nearly. Commands are of its first criterion, of one in its middle, and of
    the last ones, one of which finds room only once another criterion is gone."""

    others = further(FURTHER_CRITERIA - 2)
    own_criteria = (others[0], others[FURTHER_CRITERIA // 2], "x", "y", "z")
    criteria = (*own_criteria, *BUILT_IN)

    def first(self):
        audits = "".join(f"[criteria.{name}]\n" for name in self.others)
        return (f"replace-files {word_of(audits)} % %", *super().first())
