"""Tables of the first version, which are all but the last two, with a 1 in the row of `meta`. A program that opens them
makes these two, which have no rows, and puts a 2 there."""

from models.columns import LATER, TABLES
from models.rows import opened, rows_in

FIRST, SECOND = VERSIONS = ("first", "second")
NUMBERS = {FIRST: 1, SECOND: 2}


def tables_of(version):
    return [name for name in TABLES if version == SECOND or name not in LATER]


def in_version(version, rows):
    """The same rows in tables of a version."""
    ((one, _, *others),) = rows["meta"]
    found = {name: rows.get(name, []) for name in tables_of(version)}
    return found | {"meta": [(one, NUMBERS[version], *others)]}


def objects_in(path):
    """Each table, view, index and trigger, by its type, its name, its table's name and its statement."""
    with opened(path, "ro") as tables:
        return set(tables.execute("SELECT type, name, tbl_name, sql FROM sqlite_schema").fetchall())


def version_in(path):
    """The version of the tables in a file, by their names."""
    return FIRST if {name for _, name, _, _ in objects_in(path)}.isdisjoint(LATER) else SECOND


def rows_of_either(path):
    """The rows of each table in a database file, with tables of either version."""
    return rows_in(path, tables_of(version_in(path)))


def to_first_version(path):
    """Turns the tables of a register in a file into those of the first version, with the rows of the same state."""
    with opened(path) as tables:
        dropped = "; ".join(f"DROP TABLE {name}" for name in LATER)
        tables.executescript(f"BEGIN; {dropped}; UPDATE meta SET version = {NUMBERS[FIRST]}; COMMIT")


class Before:
    """A register's file before it is opened: what is in it, and the rows that it must have afterwards."""

    def __init__(self, path):
        self.path, self.objects = path, objects_in(path)
        self.missing = set(LATER) if version_in(path) == FIRST else set()
        self.rows = in_version(SECOND, rows_of_either(path))

    def is_taken_over(self):
        """Its tables are of the second version, with the same rows, and nothing else has changed."""
        now = objects_in(self.path)
        found = ({name for _, name, _, _ in now - self.objects}, self.objects - now)
        if found != (self.missing, set()):
            raise AssertionError(f"what was made, and what is gone: {found}")
        rows = rows_in(self.path)
        if rows != self.rows:
            raise AssertionError(f"once opened: {rows}, not {self.rows}")
