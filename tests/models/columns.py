"""The tables of a register's file, the one list of them that tests and benches read. It was written by hand from
"Tables of the store" in definitions.md. After the name of a column comes what it holds: a `number`, a `text`, a packed
`list`, an `option` (a packed list of none or one), an `option-list` (a packed list of none or one packed list), or a
`map` (a packed list of keys and packed lists in turn). The columns of a table's key have a `*`."""

COLUMNS = {
    "meta": "one:number* version:number step:number next_entry:number next_review:number moves_limit:number "
    "first0:number first1:number first2:number first3:number first4:number vet_version:option "
    "default_criteria:option-list",
    "criteria": "peer:text* name:text* about:option url:option implies:list",
    "entries": "number:number* peer:text package:text kind:number a:text b:text user:number day1:number day2:number "
    "criteria:list who:list notes:option suggest:number renew:number importable:number",
    "publishers": "package:text* version:text* user:number* day:number* login:option* name:option*",
    "policies": "policy:text* as_crates:number criteria:option-list dev:option-list dependency:map notes:option",
    "peers": "name:text* url:list exclude:list map:map",
    "nodes": "project:text* name:text* version:text* party:number",
    "edges": "project:text* from_name:text* from_version:text* to_name:text* to_version:text* kind:number*",
    "standing": "package:text* version:text* criterion:text* class:number",
    "moves": "step:number* package:text* version:text* criterion:text* day:number before:number after:number",
    "members": "name:text*",
    "reviews": "number:number* package:text version:text criteria:list day:number state:number member:text "
    "entry:number",
    "today": "one:number* day:number",
    "lasts": "entry:number* day:number",
}
# those that the first version of the tables lacks
LATER = ["today", "lasts"]
# the type of a column by what it holds
TYPES = {"number": "INTEGER", "text": "TEXT", "list": "BLOB", "option": "BLOB", "option-list": "BLOB", "map": "BLOB"}


def columns_of(line):
    """The name of each column, what it holds, and whether it is part of the key."""
    parts = (word.split(":") for word in line.split(" "))
    return [(name, kind.rstrip("*"), kind.endswith("*")) for name, kind in parts]


TABLES = {table: columns_of(line) for table, line in COLUMNS.items()}
