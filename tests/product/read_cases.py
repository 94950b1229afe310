"""The cases of `vetd read` in tests/files: a line `#= KIND name`, the text of a file, and after `#> ` the line that is
printed."""

CASE = "#= "
TOLD = "#> "


def cases_of(file):
    """The cases of a file: name, kind, what is given, what is told."""
    with open(file, "rb") as it:
        lines = it.read().decode().split("\n")
    case = None
    for number, line in enumerate(lines, 1):
        if case is None and line.startswith(CASE):
            kind, name = line[len(CASE) :].split(" ")
            case = []
        elif case is None and line and not line.startswith("# "):
            raise ValueError(f"{file}, line {number}: {line} belongs to no case")
        elif case is not None and line.startswith(CASE):
            raise ValueError(f"{file}, line {number}: nothing is told of {name}")
        elif case is not None and line.startswith(TOLD):
            yield name, kind, "".join(text + "\n" for text in case).encode(), line[len(TOLD) :]
            case = None
        elif case is not None:
            case.append(line)
    if case is not None:
        raise ValueError(f"{file}: nothing is told of {name}")
