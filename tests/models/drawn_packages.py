"""Packages that are drawn, of up to twelve versions each, with commands about what gives these their classes: entries,
also of peers, violations, publisher records, policies, projects and criteria. The same is then given at once."""

from models.files import LAST_DAY, Content, Criterion, Entry
from models.held import BUILT_IN
from models.machine import Machine
from models.projects import word_of_table
from models.walked import WalkedHeld
from models.words import word_of
from models.written import audits_of, held_audits, held_config, held_imports, toml_text

PACKAGES = ("a", "b")
# in the order of their texts, which is that of versions too; the second is a revision of the first
VERSIONS = ("1.0.0", f"1.0.0@git:{40 * '0'}", *(f"1.{minor}.0" for minor in range(1, 10)), "2.0.0")
FURTHER = ("x", "y", "z")
CRITERIA = (*FURTHER, *BUILT_IN)
# one that nothing names, and that comes before all others in a table
SPARE = "m"
# what a peer may say: two words of its own, and one that is built in
WORDS = ("r", "s", "safe-to-run")
PEERS = ("p", "q")
USERS = (5, 6)
# how many versions a package has: mostly few, so that chains lead to many of them
COUNTS = (1, 2, 2, 3, 3, 4, 4, 5, 6, 7, 9, 12)
DAYS = ("2023-02-01", "2023-02-03", "2023-02-05")
# deltas may lead back, and to where they start; some lists have more exemptions
KINDS = ("delta",) * 8 + ("exemption",) * 3 + ("full",) * 2 + ("violation", "wildcard", "trusted")
MORE_EXEMPTIONS = (0, 0, 8)
KINDS_OF_PEERS = ("delta",) * 5 + ("full", "violation", "wildcard")
# how many commands are drawn, and how many behind what is given at once
LENGTH, LENGTH_BEHIND = 36, 6
# the day of each command but those that set the register's day
DAY = "2024-05-01"
LAST_DAYS = (DAY, "2024-05-02", "2024-05-03", "2024-05-04")
SET_DAY = "set-day"
MAPPED = "set-peer p - - r=x,y;s=safe-to-deploy"


def command_of(entry):
    """What adds an entry."""
    return " ".join(["add-entry", entry.kind, entry.package, *entry.parts, *entry.criteria, *entry.said])


class Given:
    """Commands that were given to a new machine, with what it told of each and held before it."""

    def __init__(self):
        self.machine = Machine(held=WalkedHeld())
        self.lines, self.answers, self.told = [], [], []

    def give(self, command, day=DAY):
        line, before = f"{day} {command}", list(self.machine.contents())
        self.lines.append(line)
        self.answers.append(self.machine.told(line))
        self.told += [*before, self.answers[-1]]

    def expected(self):
        """All that was told, and what is held in the end."""
        return [*self.told, *self.machine.contents()]


class DrawnPackages:
    """Drawn commands about some packages, and others that give the same at once."""

    def __init__(self, dice):
        self.dice = dice
        self.versions = {package: sorted(dice.sample(VERSIONS, dice.choice(COUNTS))) for package in PACKAGES}
        self.kinds = KINDS + ("exemption",) * dice.choice(MORE_EXEMPTIONS)
        # the command that loaded each project
        self.loaded = {}
        self.given = self.by_commands = Given()
        for command in (*map(self.criterion, FURTHER), self.project("app", 0.9), self.demanding(), MAPPED):
            self.give(command)
        self.draw(LENGTH)
        commands = self.whole()
        self.given = self.at_once = Given()
        for command, day in commands:
            self.give(command, day)
        self.is_same = self.held().standing() == self.by_commands.machine.held.standing()
        self.draw(LENGTH_BEHIND)

    def give(self, command, day=DAY):
        self.given.give(command, day)
        if command.startswith("load-project "):
            self.loaded[command.split(" ")[1]] = command

    def draw(self, count):
        for _ in range(count):
            command = self.command()
            self.give(command, self.later() if command == SET_DAY else DAY)

    def held(self):
        return self.given.machine.held

    def whole(self):
        """The commands that give all that is held at once, each with its day: the projects, with three files before,
        between or after them; then the exemptions that are in no file, with the register's day before or after them."""
        held = self.held()
        tables = (held_audits(held), held_config(held), held_imports(held, excluding=False))
        files = f"replace-files {' '.join(word_of(toml_text(table, self.dice)) for table in tables)}"
        commands = [self.loaded[name] for name in sorted(held.projects)]
        commands.insert(self.dice.randint(0, len(commands)), files)
        dated = [(command_of(entry), DAY) for _, entry in sorted(held.dated().items())]
        if held.today:
            dated.insert(self.dice.choice((0, len(dated))), (SET_DAY, held.today))
        return [(command, DAY) for command in commands] + dated

    # ---- commands

    def command(self):
        drawn = (self.entry,) * 12 + (self.drop_entry,) * 3 + (self.imported,) * 4 + (self.peer,) * 2
        drawn += (self.publishers,) * 2 + (self.policy, self.demanding, self.a_project, self.dropped)
        drawn += (self.changed_criterion, self.period, self.set_day)
        return self.dice.choice(drawn)()

    def some(self, things, least, most):
        return self.dice.sample(things, self.dice.randint(least, min(most, len(things))))

    def package(self):
        return self.dice.choice(PACKAGES)

    def criterion(self, name):
        return " ".join(["set-criterion", name, *self.some(tuple(BUILT_IN), 0, 2)])

    def changed_criterion(self):
        if self.dice.random() < 0.4:
            return f"{'remove' if self.held().has(SPARE) else 'set'}-criterion {SPARE}"
        name = self.dice.choice(FURTHER)
        if self.dice.random() < 0.1:
            return f"remove-criterion {name}"
        return " ".join(["set-criterion", name, *self.some(CRITERIA, 0, 2)])

    def drawn_entry(self, criteria, kinds):
        package, kind = self.package(), self.dice.choice(kinds)
        version = self.dice.choice(self.versions[package])
        parts = (version,)
        if kind == "delta":
            parts = (self.dice.choice(self.versions[package]), version)
        elif kind == "violation":
            parts = (self.requirement(version),)
        elif kind in ("wildcard", "trusted"):
            parts = (str(self.dice.choice(USERS)), *sorted(self.some(DAYS, 2, 2)))
        return Entry(kind, package, parts, tuple(sorted(self.some(criteria, 1, 3))))

    def requirement(self, version):
        """Mostly of one version, which nothing need name."""
        number = version.partition("@")[0]
        return self.dice.choice((*[f"={number}"] * 6, f">={number}", f"<{number}", "*"))

    def entry(self):
        entry = self.drawn_entry(CRITERIA, self.kinds)
        if entry.kind == "exemption" and self.dice.random() < 0.4:
            entry = entry._replace(said=(LAST_DAY + self.dice.choice(LAST_DAYS),))
        return command_of(entry)

    def drop_entry(self):
        """Mostly of one that is held, and the last one more often than others."""
        numbers = sorted(self.held().entries)
        return f"drop-entry {self.dice.choice([*numbers, *numbers[-1:] * 3, self.held().next_entry])}"

    def publishers(self):
        package = self.package()
        records = (f"{it},{self.dice.choice(USERS)},{self.dice.choice(DAYS)}" for it in self.some(VERSIONS, 0, 4))
        return " ".join(["set-publishers", package, *records])

    def peer(self):
        """Excludes no package, mostly; its words stand for nothing, unless they are mapped or built in."""
        excluded = ",".join(self.some(PACKAGES, 1, 2)) if self.dice.random() < 0.3 else "-"
        mapped = ";".join(f"{word}={','.join(self.some(CRITERIA, 0, 2))}" for word in self.some(WORDS, 0, 3))
        return f"set-peer {self.dice.choice(PEERS)} - {excluded} {mapped or '-'}"

    def imported(self):
        """What is held of a peer, mostly with more entries, and sometimes with less."""
        name = self.dice.choice((*PEERS, *sorted(self.held().contents) * 5))
        held = self.held().contents.get(name, Content({}, {}))
        criteria, entries = dict(held.criteria), list(held.entries.values())
        if not criteria or self.dice.random() < 0.2:
            criteria[self.dice.choice(WORDS[:2])] = Criterion(frozenset(self.some(WORDS, 0, 2)))
        if self.dice.random() < 0.4:
            entries = self.some(entries, len(entries) // 2, len(entries))
        entries += [self.drawn_entry(WORDS, KINDS_OF_PEERS) for _ in range(self.dice.choice((1, 2, 4, 12)))]
        return f"import-peer {name} {word_of(toml_text(audits_of(criteria, entries), self.dice))}"

    def demanding(self):
        """A policy by which the packages need all criteria."""
        return f"set-policy app criteria={','.join(CRITERIA)}"

    def policy(self):
        """A policy by which they need some, and one of them others, or none."""
        needed = ",".join(self.some(CRITERIA, 1, 3))
        others = f"{self.package()}={','.join(self.some(CRITERIA, 0, 2))}"
        return f"set-policy app criteria={needed} dependency-criteria={others}"

    def a_project(self):
        return self.project(self.dice.choice(("app", "other")), self.dice.choice((0.2, 0.9)))

    def project(self, name, share):
        """A project whose root depends on a share of the versions."""
        named = [(package, it) for package in PACKAGES for it in self.versions[package] if self.dice.random() < share]
        nodes = [f"node,0,{name},0.1.0,root"]
        nodes += [f"node,{place},{package},{version},third" for place, (package, version) in enumerate(named, 1)]
        edges = [f"edge,0,{place},{self.dice.choice(('normal', 'normal', 'dev'))}," for place, _ in enumerate(named, 1)]
        return f"load-project {name} {word_of_table(nodes + edges)}"

    def dropped(self):
        return self.dice.choice(("drop-peer p", "drop-peer q", "drop-policy app", "drop-project other"))

    def period(self):
        return "close-period"

    def set_day(self):
        return SET_DAY

    def later(self):
        """Mostly the day after the register's, so that some of what it holds lapses."""
        days = (*LAST_DAYS, "2024-05-05")
        return self.dice.choice((*days, *[day for day in days if day > (self.held().today or "")][:1] * 5))
