#!/usr/bin/env python3
"""Mutates the definitions one clause at a time, and reports which worked examples refuse each mutated clause.

    turn.py [--file NAME | --new | --turn [NUMBER] | --every N] [--jobs N] [--write]

Each row of clauses.csv is a mutated clause. The text `stands` must occur once in a definition file; a blank in it matches any
white space. In a copy of the crate it is replaced by `turned`, and the worked examples are proved again. The column `file` is
a file of cw_model, or CRATE/NAME. The column `refused_by` names the first examples that then fail, or says `none: ` and why no
program shows the difference. Without --write the column is compared: each example that it names must fail, otherwise the
status is 1. With --write it is filled.

--file tries the rows of one file, --new those whose column `refused_by` is empty, --turn the sample of a commit (by default of
the current one), --every the first of each N rows. Further answers are `unread` (the mutated text is no definition) and `late`
(the examples take more than LATEST seconds of processor time). The script needs `rt` on the path.
"""
import argparse
import csv
import dataclasses
import os
import re
import resource
import shutil
import signal
import subprocess
import sys
import tempfile
from concurrent.futures import ThreadPoolExecutor

HERE = os.path.dirname(os.path.abspath(__file__))
TABLE = os.path.join(HERE, "clauses.csv")
CRATES = os.path.normpath(os.path.join(HERE, "..", "..", "crates"))
sys.path.insert(0, os.path.dirname(HERE))
sys.dont_write_bytecode = True
import commit  # noqa: E402

COLUMNS = ["file", "stands", "turned", "shows", "refused_by"]
NAMED = 3
LATEST = 300
# bytes of address space, of which a check uses a tenth
MOST_MEMORY = 16 << 30
# Each file is in the sample of at least one of PERIOD commits, and a sample has about SAMPLE rows.
PERIOD = 10
SAMPLE = 14
# The example that is likely to refuse a mutated clause of a file is tried before all others.
LIKELY = {
    "Typing": "names_and_types", "Names": "names_and_types", "Ownership": "ownership", "Lines": "refusals",
    "Sizes": "sizes", "Sites": "sizes", "Limits": "limits", "Rows": "rows_and_texts", "Report": "rows_and_texts",
    "Burdens": "rows_and_texts", "Freed": "gains", "Expressions": "values", "Ints": "values", "Trees": "strand_trees",
    "cw_greedy/Greedy": "greedy_lengths", "cw_greedy/Recorded": "strand_counts", "cw_greedy/Blocks": "strand_counts",
}
# names that mutated clauses use although their file does not import them
BESIDE = {
    "Rattle.std.specs.Prelude": ["not", "take", "drop", "length", "filter", "int_lt", "int_le", "◌-◌", "◌-ℤ◌"],
    "Rattle.std.specs.Int": ["int_max"],
    "Rattle.cw_model.specs.declared.syntax.Reduction.TheVariants": ["Sum", "Max"],
    "Rattle.cw_model.specs.Typing": ["same_reduction"],
    "Rattle.cw_model.specs.Ints": ["natural"],
    "Rattle.cw_model.specs.Burdens": ["on_spawns"],
}


@dataclasses.dataclass(frozen=True)
class Crate:
    """A crate with worked examples: the crates that it uses, and the modules that a copy omits because they only take time."""

    name: str
    uses: tuple = ()
    code: tuple = ()
    specs: tuple = ()

    @property
    def folder(self):
        return os.path.join(CRATES, self.name)


KNOWN = {
    it.name: it
    for it in [
        Crate("cw_model", (), ("laws",), ("lemmas",)),
        Crate("cw_greedy", ("cw_model",), ("chunks", "entry", "laws", "piece", "strands", "recorder", "recorder_laws"),
              ("Bounds", "Jumps", "RecordLaws", "Entries", "Records", "Edges", "Counts", "Slots", "Rounds",
               "Merging", "Normal", "Origins", "Recording", "Runs", "lemmas")),
    ]
}


def crate_of(file):
    """Returns the crate of a file of the table."""
    return KNOWN[file.partition("/")[0] if "/" in file else "cw_model"]


def definition_file(file):
    """Returns the path of a file of the table in its crate. The limits are constants of the code."""
    name = file.rpartition("/")[2]
    return "src/limits.rt" if name == "Limits" else "specs/%s.antt" % name


def turned(text, stands, instead):
    """Returns the text of a definition file with a mutated clause, or None if the clause does not occur exactly once."""
    words, others = stands.split(), re.findall(r"\S+|\s+", instead)
    start = r"(?<!\w)" if re.match(r"\w", stands) else ""
    found = list(re.finditer(start + r"\s+".join(map(re.escape, words)), text))
    if len(found) != 1:
        return None
    pieces = re.findall(r"\S+|\s+", found[0][0])
    head = 0
    while head < min(len(pieces), len(others)) and alike(pieces[head], others[head]):
        head += 1
    tail = 0
    while tail < min(len(pieces), len(others)) - head and alike(pieces[-1 - tail], others[-1 - tail]):
        tail += 1
    # what both have in common keeps its line breaks
    made = pieces[:head] + others[head : len(others) - tail] + pieces[len(pieces) - tail :]
    return text[: found[0].start()] + "".join(made) + text[found[0].end() :]


def importing(text, before):
    """Returns the text with imports of the names that the mutated clause adds."""
    # a word in a comment is not an import
    words, known = [set(re.findall(r"[\w-]+", re.sub(r"--.*", "", it))) for it in (text, before)]
    for module, names in BESIDE.items():
        missing = [it for it in names if it.strip("◌") in words - known]
        if missing:
            text = text.replace("use ", "use %s.{%s}\nuse " % (module, ", ".join(missing)), 1)
    return text


def alike(piece, other):
    return piece == other or not (piece.strip() or other.strip())


def bare_copy(crate, folder):
    """Copies a crate with its definitions and examples only: its laws would only take time."""
    for part in ("src", "specs", "proofs/examples"):
        shutil.copytree(os.path.join(crate.folder, part), os.path.join(folder, part))
    for names, part, root, ending in ((crate.code, "src", "lib.rt", ".rt"), (crate.specs, "specs", "Lib.antt", ".antt")):
        for name in names:
            shutil.rmtree(os.path.join(folder, part, name), ignore_errors=True)
            if os.path.exists(file := os.path.join(folder, part, name + ending)):
                os.remove(file)
        with open(os.path.join(folder, part, root), encoding="utf-8") as file:
            lines = file.readlines()
        with open(os.path.join(folder, part, root), "w", encoding="utf-8") as file:
            file.writelines(it for it in lines if not re.search(r"\bmod (%s)\b" % "|".join(names), it))


def check(crate, folder, theorems=()):
    """Proves the worked examples of a copy of a crate, or some of them, and returns what the checker prints."""
    kit = os.path.dirname(os.path.dirname(os.path.realpath(shutil.which("rt"))))
    words = [kit + "/bin/rattle", "check", "--crate-name", crate.name, "src/lib.rt"]
    words += [it for name in ("std", "core") for it in ("--extern", "%s=%s/rlibs/%s.rlib" % (name, kit, name))]
    for name in crate.uses:
        words += ["--lib", "%s:core,std=%s" % (name, os.path.join(CRATES, name, "src", "lib.rt"))]
    words += ["-L", "dependency=%s/rlibs" % kit, "--antt-project", kit + "/rattle/logic/antt-project.json"]
    words += ["--logic-built", kit + "/logic_built", "--incremental", "kept", "--jobs", "1"]
    for only in ["%s::examples::%s" % (crate.name, it) for it in theorems] or [crate.name + "::examples"]:
        words += ["--only", only]
    how = {"cwd": folder, "stdin": subprocess.DEVNULL, "stdout": subprocess.PIPE, "stderr": subprocess.STDOUT, "text": True}
    ran = subprocess.run(words, preexec_fn=bound, **how)
    return "late" if ran.returncode in (-signal.SIGXCPU, -signal.SIGKILL) else ran.stdout


def bound():
    """Limits the time and the memory of this process."""
    resource.setrlimit(resource.RLIMIT_CPU, (LATEST, LATEST + 1))
    resource.setrlimit(resource.RLIMIT_AS, (MOST_MEMORY, MOST_MEMORY))


def example_at(folder, path, number):
    """Returns the example at a line of a proof, as FUNCTION.FIELD, or as FUNCTION.CLAUSE.FIELD if the function has several clauses."""
    with open(os.path.join(folder, path), encoding="utf-8") as file:
        lines = file.read().split("\n")[: int(number)]
    clause = next((it for it in reversed(lines) if it.startswith("pub returns")), "").split(" ")[1:2]
    names = [path.split("/")[2]] + [it.split("-")[2] for it in clause if it.count("-") == 2]
    return ".".join(names + re.findall(r"^ *(\w+) =", lines[-1]))


def answer(said, folder, file):
    """Returns which examples a check with a mutated clause of this file refuses, or one word if there is none."""
    if said == "late":
        return ["late"]
    if file and re.search(r"^(\./)?%s:\d+:\d+: error" % re.escape(definition_file(file)), said, re.M):
        return ["unread"]
    errors = re.findall(r"^(?:\./)?(proofs/examples/\w+/Answers\.antt):(\d+):\d+: error", said, re.M)
    refused = [example_at(folder, path, number) for path, number in errors]
    if refused or re.search(r"^only=(\d+) proved=\1$", said, re.M):
        return list(dict.fromkeys(refused)) or ["none"]
    return ["unread"]


def try_row(row, base):
    """Mutates a clause in a copy of its crate, whose examples were proved, and returns what refuses it."""
    crate = crate_of(row["file"])
    with tempfile.TemporaryDirectory(prefix="turned-") as room:
        folder = room + "/crate"
        shutil.copytree(os.path.join(base, crate.name), folder)
        path = os.path.join(folder, definition_file(row["file"]))
        with open(path, encoding="utf-8") as file:
            before = file.read()
        text = turned(before, row["stands"], row["turned"])
        if text is None:
            return ["unread"]
        with open(path, "w", encoding="utf-8") as file:
            file.write(importing(text, before))
        named = set(re.findall(r"(?<![\w.])(\w+)\.\w", row["refused_by"]))
        likely = named or {LIKELY.get(row["file"], "statements")}
        found = answer(check(crate, folder, likely), folder, row["file"])
        return answer(check(crate, folder), folder, row["file"]) if found == ["none"] else found


def agrees(column, found):
    """Returns whether the column names only examples that failed, or has a reason if none failed."""
    if found[0] in ("none", "unread", "late"):
        return column.partition(":")[0] == found[0] and column != "none"
    return bool(column) and set(column.split()) <= set(found)


def filled(column, found):
    """Returns the column for a result. A reason that still applies is kept."""
    if agrees(column, found):
        return column
    return found[0] + ": " if found[0] in ("none", "late") else " ".join(found[:NAMED])


def read_table():
    with open(TABLE, newline="", encoding="utf-8") as file:
        return list(csv.DictReader(file))


def write_table(rows):
    with open(TABLE, "w", newline="", encoding="utf-8") as file:
        writer = csv.DictWriter(file, COLUMNS, lineterminator="\n")
        writer.writeheader()
        writer.writerows(rows)


def sample(rows, number):
    """Returns the rows of the sample of a commit. Each file has places in proportion to its rows, and at least one; the rows of a
    file take turns at its places."""
    period, at = divmod(number, PERIOD)
    files, places = {}, []
    for row in rows:
        files.setdefault(row["file"], []).append(row)
    for mine in files.values():
        count = max(1, round(SAMPLE * PERIOD * len(mine) / len(rows)))
        places += [mine[(period * count + place) % len(mine)] for place in range(count)]
    return places[at::PERIOD]


def chosen(rows, given):
    """Returns the rows that the arguments ask for."""
    if given.turn is None:
        mine = [row for row in rows if given.file in (None, row["file"]) and not (given.new and row["refused_by"])]
        return mine[:: given.every]
    number = commit.number() if given.turn == -1 else given.turn
    print("the sample of commit %d; again by --turn %d" % (number, number), flush=True)
    return sample(rows, number)


def prove_unchanged(rows, base):
    """Copies the crates of these rows and proves their examples without a mutated clause."""
    for crate in {crate_of(row["file"]).name: crate_of(row["file"]) for row in rows}.values():
        bare_copy(crate, os.path.join(base, crate.name))
        if answer(check(crate, os.path.join(base, crate.name)), base, "") != ["none"]:
            raise SystemExit("the examples of %s do not hold without a mutated clause" % crate.name)


def main():
    parser = argparse.ArgumentParser()
    parser.add_argument("--file", help="tries only the rows of this definition file")
    parser.add_argument("--new", action="store_true", help="tries only the rows whose column refused_by is empty")
    parser.add_argument("--turn", type=int, nargs="?", const=-1, help="tries the sample of a commit, by default of the current one")
    parser.add_argument("--every", type=int, default=1, help="tries only the first of each so many rows")
    parser.add_argument("--jobs", type=int, default=2, help="checks at a time")
    parser.add_argument("--write", action="store_true", help="fills the column refused_by")
    given = parser.parse_args()
    rows = read_table()
    mine = chosen(rows, given)
    differ = 0
    with tempfile.TemporaryDirectory(prefix="turned-") as base, ThreadPoolExecutor(given.jobs) as pool:
        prove_unchanged(mine, base)
        for row, found in zip(mine, pool.map(lambda row: try_row(row, base), mine)):
            same = agrees(row["refused_by"], found)
            differ += not same
            print("%s%s: %s -> %s" % ("" if same else "other ", row["file"], row["shows"], " ".join(found[:NAMED])), flush=True)
            if given.write:
                row["refused_by"] = filled(row["refused_by"], found)
                write_table(rows)
    print("%d mutated clauses, %d differ from the table" % (len(mine), differ))
    sys.exit(bool(differ) and not given.write)


if __name__ == "__main__":
    main()
