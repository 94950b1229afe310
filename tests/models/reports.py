"""The texts of reports, worked out from the lines that `trials` prints of what a register holds."""

import csv
import io

CLASSES = ("conflicting", "full", "partial", "exempted", "unvetted")
NONE = "undemanded"


def reports_of(lines):
    """Each report, by its kind."""
    rows = {}
    for line in lines:
        word, *words = line.split(" ")
        rows.setdefault(word, []).append(words)
    pairs, moves = rows.get("pair", []), rows.get("move", [])
    return {
        "counts": counts_text(rows["first"][0], moves, rows["counts"][0]),
        "standing": "".join(standing_line(*pair) for pair in pairs),
        "standing-csv": standing_csv(pairs),
        "moves": "".join(move_line(*move) for move in moves),
        "desk": "".join(desk_line(*review) for review in rows.get("review", [])),
        "lapses": "".join(lapse_lines(*rows.get("today", [[None]])[0], rows.get("entry", []))),
    }


def standings_of(lines):
    """The report of the standing for each class alone, by its words."""
    standing = reports_of(lines)["standing"].splitlines(keepends=True)
    return {f"standing {word}": "".join(line for line in standing if line.split()[-1] == word) for word in CLASSES}


def counts_text(first, moves, present):
    """The table of counts; of the first ones and the present ones the words are given, a class and a number in turn."""
    rows = []
    for place, word in enumerate(CLASSES):
        arrived = sum(move[-1] == word for move in moves)
        departed = sum(move[-2] == word for move in moves)
        rows.append((int(first[2 * place + 1]), arrived, departed, int(present[2 * place + 1])))
    sums = tuple(map(sum, zip(*rows)))
    lines = [("class", "first", "arrived", "departed", "now")]
    lines += [(word, *row) for word, row in zip((*CLASSES, "demand"), [*rows, sums])]
    return "".join(f"{line[0]:<12}{line[1]:>10}{line[2]:>10}{line[3]:>10}{line[4]:>10}\n" for line in lines)


def standing_line(package, version, criterion, word):
    return f"{package:<24} {version:<20} {criterion:<20} {word}\n"


def standing_csv(pairs):
    text = io.StringIO()
    writer = csv.writer(text, lineterminator="\n")
    writer.writerows([["package", "version", "criterion", "class"], *pairs])
    return text.getvalue()


def move_line(step, day, package, version, criterion, *classes):
    before, after = ("none" if word == NONE else word for word in classes)
    return f"{step:>8} {day} {package:<24} {version:<20} {criterion:<20} {before:<11} {after}\n"


def desk_line(number, day, package, version, state, *criteria):
    word, _, by = state.partition("=")
    member, entry = by if word == "assigned" else "-", by if word == "finished" else "-"
    front = f"{number:>8} {day} {package:<24} {version:<20} {word:<9}"
    return f"{front} {member:<16} {entry:>8} {','.join(criteria)}\n"


def lapse_lines(today, entries):
    """A line for each exemption that has a last day."""
    for number, package, kind, *words in entries:
        if kind == "exemption":
            said = dict(word.split("=", 1) for word in words if "=" in word)
            version, *criteria = (word for word in words if "=" not in word)
            if last := said.get("last-day"):
                word = "lapsed" if today and last < today else "held"
                yield f"{number:>8} {last} {package:<24} {version:<20} {word:<6} {','.join(criteria)}\n"
