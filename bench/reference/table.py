"""The aligned tables of reports, for expected values: each is made from the CSV text of its report."""
import csv
import io

WORDS = {"tag", "kind", "callee", "function"}
LABELS = {"site", "line"}
# the columns of a report whose first row has the work and the span of the run
WHOLE = {"sites": ("work", "span"), "gain": ("own_work", "own_span")}


def shown(name, text):
    """Returns the cell of a field."""
    if name in WORDS:
        return text or "(program)"
    if name in LABELS or not text:
        return text or "-"
    digits, point, fraction = text.partition(".")
    return "{:,}".format(int(digits)) + point + fraction


def percent(part, whole):
    tenths = 1000 * int(part) // int(whole)
    return "%d.%d" % (tenths // 10, tenths % 10)


def cells(mode, names, fields, first):
    """Returns the cells of a row, with the shares of own work and own span; without fields the titles."""
    row = []
    for name in names:
        row.append(shown(name, fields[name]) if fields else name)
        for part, whole in zip(("work", "span"), WHOLE.get(mode, ())):
            if name == "own_" + part:
                row.append(percent(fields[name], first[whole]) if fields else "% " + part)
    return row


def table(mode, text):
    """Returns the table of a report: columns with two spaces between them, words flush left and numbers flush right."""
    rows = list(csv.DictReader(io.StringIO(text)))
    names = text.split("\n")[0].split(",")
    lines = [cells(mode, names, fields, rows[0]) for fields in [None] + rows]
    left = [title in WORDS for title in lines[0]]
    widths = [max(len(line[place]) for line in lines) for place in range(len(left))]
    padded = [[cell.ljust(width) if flush else cell.rjust(width) for cell, width, flush in zip(line, widths, left)] for line in lines]
    return "".join("  ".join(line) + "\n" for line in padded)
