"""Changes of a database file by Python's `sqlite3`, and what it holds."""

from models.rows import opened


def change(path, *statement):
    """Changes the file, without checks of foreign keys."""
    with opened(path) as tables:
        tables.execute("PRAGMA foreign_keys = OFF")
        text, *values = statement
        if values:
            tables.execute(text, values)
        else:
            tables.executescript(text)


def content(path):
    with opened(path, "ro") as tables:
        return list(tables.iterdump())


def make_again(path, table, statement):
    """Makes a table again by another statement, with the cells of its columns, or of those in their places."""
    change(path, f"ALTER TABLE {table} RENAME TO before; {statement}")
    with opened(path) as tables:
        tables.execute("PRAGMA foreign_keys = OFF")
        old, new = ([row[1] for row in tables.execute(f"PRAGMA table_info({name})")] for name in ("before", table))
        kept = ", ".join(column if column in old else old[place] for place, column in enumerate(new))
        tables.execute(f"INSERT INTO {table} ({', '.join(new)}) SELECT {kept} FROM before")
        tables.execute("DROP TABLE before")


def statement_of(path, table):
    with opened(path, "ro") as tables:
        return tables.execute("SELECT sql FROM sqlite_schema WHERE name = ?", [table]).fetchone()[0]
