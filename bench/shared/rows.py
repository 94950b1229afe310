"""Rows of a register's tables, with their lists unpacked."""

from models.columns import TABLES, TYPES

# the places of the packed lists of each table
PACKED = {table: [place for place, (_, kind, _) in enumerate(columns) if TYPES[kind] == "BLOB"]
          for table, columns in TABLES.items()}
# of these columns each item, or each second one of a map, is a packed list again
DEEPER = {(table, place): {"option-list": 0, "map": 1}[kind] for table, columns in TABLES.items()
          for place, (_, kind, _) in enumerate(columns) if kind in ("option-list", "map")}
CLASSES = ("conflicting", "full", "partial", "exempted", "unvetted")


def unpacked(data):
    """The items of a packed list."""
    items, at = [], 0
    while at < len(data):
        mark = data.index(b":", at)
        end = mark + 1 + int(data[at:mark])
        items.append(data[mark + 1 : end])
        at = end
    return items


def packed(items):
    return b"".join(b"%d:%b" % (len(item), item) for item in items)


def rows_of(conn, table):
    """Every row of a table, with its lists unpacked."""
    rows = []
    places = PACKED[table]
    for row in conn.execute(f"SELECT * FROM {table}"):
        row = list(row)
        for place in places:
            items = unpacked(row[place])
            deeper = DEEPER.get((table, place))
            if deeper is not None:
                items = [unpacked(item) if at % 2 == 1 or deeper == 0 else item for at, item in enumerate(items)]
            row[place] = items
        rows.append(row)
    return rows
