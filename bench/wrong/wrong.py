#!/usr/bin/env python3
"""Tries mutants: the contract of the function that an edit changes must refuse the edit.

    wrong.py                      says whether each edit has a row and can be applied, and checks the table; proves nothing
    wrong.py CRATE..              tries the mutants of these crates
    wrong.py CRATE/NAME..         tries these mutants
    wrong.py --turn [NUMBER]      tries the sample of a commit, by default of the current one
    wrong.py --turns              prints all samples, with an estimate of their time
    wrong.py --write              fills the column `public`

Options: --write with mutants puts the results into the table; --jobs N tries N mutants in parallel; --libraries FOLDER uses the libraries
of another checkout of the same text.

A mutant is a file CRATE/NAME.edit of this folder, written as those of must-fail/. The edit is made in a copy of the crate
outside the repository. There the kit's checker proves the functions of the column `only`, with the libraries that an earlier
`rt ci`, `rt check` or `rt lib` built. These functions are first proved without the edit, in the same way. The answers are

    refused        a goal of these functions does not hold
    let through    they are proved with the edit
    bad edit       the edit cannot be applied, compiled or read, the borrow checker does not cover it, or only words of a proof
                   no longer match the code
    not tried      a library is missing, the functions are not proved without the edit, or the check was killed or took more
                   than LATEST seconds of processor time

The table, bodies.csv, has for each mutant the answer, the reason if it is not `refused`, the seconds of processor time, the
number of functions that are proved for it, a sum of the crate's text at that time, and whether a public contract refuses the
mutant (public.py). The status is 1 if a mutant that the table calls refused is let through, whatever the text, or has become a
bad edit although the crate's text is the recorded one. Other differences are printed, and `--write` records them.
"""
import argparse
import csv
import functools
import hashlib
import os
import re
import resource
import shutil
import signal
import subprocess
import sys
import tempfile
from concurrent.futures import ThreadPoolExecutor, as_completed

HERE = os.path.dirname(os.path.abspath(__file__))
TOP = os.path.normpath(os.path.join(HERE, "..", ".."))
sys.path[:0] = [HERE, os.path.join(TOP, "bench")]
sys.dont_write_bytecode = True
import commit  # noqa: E402
import public  # noqa: E402

TABLE = os.path.join(HERE, "bodies.csv")
BUDGET = os.path.join(TOP, "bench", "budget.csv")
COLUMNS = ["crate", "edit", "only", "answer", "why", "seconds", "proofs", "text", "public"]
PARTS = ["src", "specs", "proofs"]
REFUSED, LET_THROUGH, BAD, NOT_TRIED = "refused", "let through", "bad edit", "not tried"
LATEST = 600
# Every crate is in the sample of at least one of so many commits.
PERIOD = 10
# Seconds of processor time: of a sample (more only if one mutant takes longer), of the mutants of one crate in it, and of a proof
# of a function from nothing.
SAMPLE = 450
SHARE = 250
EACH = 2
# a crate that budget.csv does not list
SMALL = 60
# crates that are tried at a time
AT_A_TIME = 6


def kit():
    return os.path.dirname(os.path.dirname(os.path.realpath(shutil.which("rt"))))


# --- crates and edits


def libraries_of():
    """Returns the libraries of each crate, by crates.txt."""
    with open(os.path.join(TOP, "crates.txt"), encoding="utf-8") as file:
        lines = [line.partition("#")[0].strip() for line in file]
    split = [line.partition(":") for line in lines if line]
    return {head.split()[0]: names.split() for head, _, names in split}


def below(crate, uses):
    """Returns the libraries of the repository below a crate."""
    found = [name for name in uses[crate] if name in uses]
    for name in found:
        found += [it for it in uses[name] if it in uses and it not in found]
    return found


def folder_of(crate):
    return os.path.join(TOP, "crates", crate)


def text_of(crate):
    """Returns a sum of the crate's text: of each file of its src, specs and proofs."""
    found = hashlib.sha256()
    for part in PARTS:
        for at, folders, names in os.walk(os.path.join(folder_of(crate), part)):
            folders.sort()
            for name in sorted(names):
                path = os.path.join(at, name)
                with open(path, "rb") as file:
                    found.update(repr((os.path.relpath(path, folder_of(crate)), file.read())).encode())
    return found.hexdigest()[:16]


def lines_of(row):
    """Returns the lines of an edit, each as the word before its colon and the text after it."""
    with open(os.path.join(HERE, row["crate"], row["edit"] + ".edit"), encoding="utf-8") as file:
        split = [line.partition(":") for line in file.read().split("\n")]
    return [(key, said.removeprefix(" ")) for key, _, said in split]


def public_column(row):
    """Returns `yes` if a public contract refuses the mutant of a row, else `no`."""
    file, pairs = "", []
    for key, said in lines_of(row):
        file = said.strip() if key == "file" else file
        pairs += [(file, said)] if key == "old" else []
    return "yes" if public.is_refused_publicly(row, pairs) else "no"


def edited(row):
    """Returns the texts of the files that an edit changes, by their path in the crate, or the reason why there are none."""
    path, old, texts = "", None, {}
    for key, said in lines_of(row):
        if key == "file":
            path = said.strip()
            if not re.fullmatch(r"(src|specs|proofs)/[\w/.+-]+", path) or ".." in path:
                return "it names no file of the crate: " + path
            if path not in texts:
                with open(os.path.join(folder_of(row["crate"]), path), encoding="utf-8") as file:
                    texts[path] = file.read()
        elif key == "old":
            old = said
        elif key == "new":
            if not path or not old or old == said:
                return "it replaces nothing in %s: %s" % (path, old)
            lines = texts[path].split("\n")
            at = public.places(row, path, lines, old)
            if len(at) != 1 or lines[at[0]].count(old) != 1:
                return "the text to replace occurs %d times in %s: %s" % (len(at), path, old)
            lines[at[0]] = lines[at[0]].replace(old, said)
            texts[path], old = "\n".join(lines), None
    return texts or "it turns nothing"


def misfits(rows):
    """Returns what is wrong with edits and rows as texts: one without the other, an edit that cannot be applied, a row that names
    no function."""
    said = []
    named = {(row["crate"], row["edit"]) for row in rows}
    stand = {
        (crate, name.removesuffix(".edit"))
        for crate in sorted(os.listdir(HERE)) if os.path.isdir(os.path.join(HERE, crate)) and crate != "__pycache__"
        for name in os.listdir(os.path.join(HERE, crate))
    }
    said += ["%s/%s has no row in bodies.csv" % it for it in sorted(stand - named)]
    said += ["%s/%s has a row, and no edit" % it for it in sorted(named - stand)]
    for row in rows:
        label = "%s/%s" % (row["crate"], row["edit"])
        if (row["crate"], row["edit"]) not in stand:
            continue
        if isinstance(why := edited(row), str):
            said.append("%s: bad edit: %s" % (label, why))
        said += ["%s: the crate has no function %s" % (label, it) for it in row["only"].split() if not public.named(row["crate"], it)]
    return said


def incomplete(rows):
    """Returns what is wrong with the columns: a reason that is missing, or another word on public contracts than public.py has."""
    said = ["%s/%s: no reason says why it is not refused" % (it["crate"], it["edit"]) for it in rows if it["answer"] != REFUSED and not it["why"]]
    wrong = [(it, public_column(it)) for it in rows if it["public"] != public_column(it)]
    return said + ["%s/%s: the column `public` must be %s (--write)" % (it["crate"], it["edit"], word) for it, word in wrong]


# --- trials


def words_of(crate, libraries, only):
    """Returns the command that checks these functions of a crate."""
    home, uses = kit(), libraries_of()
    words = [home + "/bin/rattle", "check", "--crate-name", crate]
    words += ["src/main.rt" if os.path.isfile(folder_of(crate) + "/src/main.rt") else "src/lib.rt"]
    of_kit = [name for name in uses[crate] if name not in uses]
    built = {name: "%s/crates/%s/out/rlib" % (libraries, name) for name in below(crate, uses)}
    for name in ["std", *of_kit]:
        words += ["--extern", "%s=%s/rlibs/%s.rlib" % (name, home, name)]
    words += ["-L", "dependency=%s/rlibs" % home]
    for name in filter(built.get, uses[crate]):
        words += ["--extern", "%s=%s/%s.rlib" % (name, built[name], name)]
    for at in built.values():
        words += ["-L", "dependency=" + at]
    words += ["--antt-project", home + "/rattle/logic/antt-project.json", "--logic-built", home + "/logic_built"]
    words += ["--jobs", "1", "--links", crate + "=", "--incremental", "kept"]
    for name in only:
        words += ["--only", name]
    return words


def lacking(crate, libraries):
    """Returns the first library below a crate that is not built, if there is one."""
    uses = libraries_of()
    formats = {name: "%s/crates/%s/out/rlib/%s.rlib/format" % (libraries, name, name) for name in below(crate, uses)}
    return next((name for name, file in formats.items() if not os.path.isfile(file)), None)


def bound():
    resource.setrlimit(resource.RLIMIT_CPU, (LATEST, LATEST + 1))


def check(crate, libraries, folder, only):
    """Proves these functions of a copy of a crate. Returns the status, the output and the seconds of processor time."""
    with tempfile.TemporaryFile("w+", errors="replace") as out:
        how = {"cwd": folder, "stdin": subprocess.DEVNULL, "stdout": out, "stderr": out, "preexec_fn": bound}
        ran = subprocess.Popen(words_of(crate, libraries, only), **how)
        try:
            _, status, used = os.wait4(ran.pid, 0)
        except BaseException:
            ran.kill()
            raise
        ran.returncode = os.waitstatus_to_exitcode(status)
        out.seek(0)
        return ran.returncode, out.read(), used.ru_utime + used.ru_stime


def linked(one, other):
    """Copies a file of a proof as a second name: a check replaces such files and never changes one."""
    try:
        os.link(one, other) if one.endswith(".oantt") else shutil.copy2(one, other)
    except OSError:
        shutil.copy2(one, other)


def copy_of(crate, folder, kept):
    """Copies a crate's text, and the proofs that an earlier check of the crate kept, if there are any."""
    for part in PARTS:
        if os.path.isdir(os.path.join(folder_of(crate), part)):
            shutil.copytree(os.path.join(folder_of(crate), part), os.path.join(folder, part))
    try:
        shutil.copytree(kept, folder + "/kept", symlinks=True, copy_function=linked)
    except (OSError, shutil.Error):
        shutil.rmtree(folder + "/kept", ignore_errors=True)
        os.makedirs(folder + "/kept")


def unread(line, changed):
    """Returns whether a line says that a text of src or specs, or one that the edit changes, cannot be read."""
    at = re.match(r"(?:\./)?(\S+?):\d+:\d+: error: (?:(`[^`]*`): )?(.*)", line)
    if not at or at[1] not in changed and not at[1].startswith(("src/", "specs/")):
        return False
    said = re.sub(r"`[^`]*`", "", at[3])
    # what depends on a refused lemma says nothing of its own
    if re.match(r"\d+ declarations? that depends? on", said):
        return False
    return not at[2] or bool(re.search(r"is not in scope|has no field|is no name|operand is missing|expected the end|cannot continue", said))


# a proof file that names something that the edit removed, or that cites such a proof: no goal was tried
NAMES = r"(note: )?(\./)?proofs/.*(has no field|is not in scope|has no `|was not admitted|too (many|few) arguments)"


def answer(status, said, changed):
    """Returns the answer of a check with an edit, and the line of the output that shows it."""
    lines = said.rstrip("\n").split("\n")
    if status in (-signal.SIGXCPU, -signal.SIGKILL):
        return NOT_TRIED, "it took more than %d seconds" % LATEST if status == -signal.SIGXCPU else "it was killed"
    if status == 0 and re.search(r"^only=(\d+) proved=\1\b", said, re.M):
        return LET_THROUGH, ""
    bad = next((line for line in lines if unread(line, changed) or re.search(r"\berror\[[\w-]+\]", line)), "")
    if status == 1 and bad:
        return BAD, bad
    uncovered = next((line for line in lines if "the borrow checker does not cover" in line), "")
    if status == 1 and uncovered:
        return BAD, uncovered
    told = [line for line in lines if re.match(r"\S+:\d+:\d+:.*: error|\S+:\d+:\d+: error|note: \S+:\d+:\d+: ", line)]
    goals = [line for line in told if not re.match(NAMES, line)]
    if status == 1 and told and re.search(r"^only=\d+ proved=\d+", lines[-1]):
        return (REFUSED, goals[0]) if goals else (BAD, told[0])
    return NOT_TRIED, "status %d: %s" % (status, lines[-1])


class Trials:
    """The trials of one crate: its functions without an edit, then each edit, with the proofs that the first check kept."""

    def __init__(self, crate, rows, libraries, room):
        self.crate, self.rows, self.libraries, self.base = crate, rows, libraries, os.path.join(room, crate)

    def control(self):
        """Proves the functions of all rows without an edit. Returns the reason if no mutant can be tried, and the seconds."""
        if name := lacking(self.crate, self.libraries):
            return "the library %s is not built" % name, 0
        only = sorted({name for row in self.rows for name in row["only"].split()})
        os.makedirs(self.base)
        copy_of(self.crate, self.base, "%s/crates/%s/out/incremental" % (self.libraries, self.crate))
        status, said, seconds = check(self.crate, self.libraries, self.base, only)
        if answer(status, said, {})[0] == LET_THROUGH:
            return "", seconds
        told = [line for line in said.split("\n") if ": error" in line or line.startswith("only=")] or said.split("\n")[-2:]
        return "not proved without an edit: " + told[0][:300], seconds

    def trial(self, row):
        """Proves the functions of a row with its edit. Returns the answer, the line that shows it, the seconds, and the number of
        these functions with those that they call."""
        texts = edited(row)
        if isinstance(texts, str):
            return BAD, texts, 0, ""
        with tempfile.TemporaryDirectory(prefix="wrong-") as folder:
            copy_of(self.crate, folder, self.base + "/kept")
            for path, text in texts.items():
                with open(os.path.join(folder, path), "w", encoding="utf-8") as file:
                    file.write(text)
            status, said, seconds = check(self.crate, self.libraries, folder, row["only"].split())
        proofs = re.search(r"^only=(\d+) ", said, re.M)
        return *answer(status, said, texts), seconds, proofs[1] if proofs else ""


def try_rows(rows, libraries, jobs, each):
    """Tries these rows, `jobs` at a time, and hands each with its result to `each`."""
    crates = list(dict.fromkeys(row["crate"] for row in rows))
    # only a few crates at a time: each keeps its proofs on the disk until its mutants are tried
    for at in range(0, len(crates), AT_A_TIME):
        with tempfile.TemporaryDirectory(prefix="wrong-") as room, ThreadPoolExecutor(jobs) as pool:
            try_crates(crates[at : at + AT_A_TIME], rows, libraries, room, pool, each)


def try_crates(crates, rows, libraries, room, pool, each):
    """Tries the rows of these crates. A crate's mutants follow as soon as its functions are proved without an edit."""
    mine = {crate: [row for row in rows if row["crate"] == crate] for crate in crates}
    trials = [Trials(crate, mine[crate], libraries, room) for crate in sorted(crates, key=lambda it: -much(mine[it]))]
    controls, tried = {pool.submit(it.control): it for it in trials}, {}
    for done in as_completed(controls):
        (why, seconds), it = done.result(), controls[done]
        print("%s: %d functions without an edit: %s, %d s" % (it.crate, len({row["only"] for row in it.rows}), why or "proved", seconds), flush=True)
        for row in it.rows:
            if why:
                each(row, NOT_TRIED, why, 0, "")
            else:
                tried[pool.submit(it.trial, row)] = row
    for done in as_completed(tried):
        each(tried[done], *done.result())


# --- the table and its turns


def read_table():
    with open(TABLE, newline="", encoding="utf-8") as file:
        return list(csv.DictReader(file))


def write_table(rows):
    with open(TABLE, "w", newline="", encoding="utf-8") as file:
        writer = csv.DictWriter(file, COLUMNS, lineterminator="\n")
        writer.writeheader()
        writer.writerows(rows)


def put(row, came, said, seconds, proofs):
    """Writes a result into the table, which is read again: another process may have changed it."""
    rows = read_table()
    own = next(it for it in rows if (it["crate"], it["edit"]) == (row["crate"], row["edit"]))
    own.update(answer=came, seconds=str(round(seconds)), proofs=proofs)
    own["text"] = text_of(row["crate"]) if came in (REFUSED, LET_THROUGH) else ""
    own["why"] = "" if came == REFUSED else own["why"] if came == row["answer"] else said
    own["public"] = public_column(own)
    write_table(rows)


def much(share):
    """Returns the seconds of processor time that these rows of one crate take if no proof of the crate is kept: the proofs of their
    functions without an edit, at most those of the whole crate, and the trials."""
    proofs = {row["only"]: int(row["proofs"] or 0) for row in share}
    whole = budget().get(share[0]["crate"], SMALL)
    return sum(int(row["seconds"] or 0) for row in share) + min(EACH * sum(proofs.values()), whole)


@functools.lru_cache(None)
def budget():
    """Returns the seconds of processor time of each crate's proof."""
    with open(BUDGET, encoding="utf-8", newline="") as file:
        return {row["crate"]: int(row["proof"]) for row in csv.DictReader(file)}


def shares(rows):
    """Returns the rows of each crate in shares. A share takes at most SHARE seconds, unless it is a single row. Rows that prove the
    same functions are neighbours."""
    found = {}
    for row in sorted(rows, key=lambda row: (-int(row["proofs"] or 0), row["only"])):
        mine = found.setdefault(row["crate"], [])
        if mine and much(mine[-1] + [row]) <= SHARE:
            mine[-1].append(row)
        else:
            mine.append([row])
    return list(found.values())


def samples(every, rounds):
    """Returns PERIOD samples of these shares. A sample is a list of places, and a place is a list of shares of one crate that take
    turns from one period to the next. Each share has its turn within so many periods."""
    places = []
    for mine in every:
        count = -(-len(mine) // rounds)
        places += [mine[at::count] for at in range(count)]
    found = [[] for _ in range(PERIOD)]
    for place in sorted(places, key=longest, reverse=True):
        min(found, key=time_of).append(place)
    return found


def longest(place):
    """Returns the seconds of the longest share of a place."""
    return max(much(share) for share in place)


def time_of(sample):
    """Returns the seconds that a sample takes at most."""
    return sum(longest(place) for place in sample)


def rotation(rows):
    """Returns the samples with the fewest periods until each row had its turn, of those that take at most SAMPLE seconds."""
    every = shares(rows)
    most = max(map(len, every))
    tried = (samples(every, rounds) for rounds in range(1, most))
    return next((found for found in tried if max(map(time_of, found)) <= SAMPLE), samples(every, most))


def turn_of(rows, number):
    """Returns the rows of the sample of a commit."""
    period, at = divmod(number, PERIOD)
    return [row for place in rotation(rows)[at] for row in place[period % len(place)]]


def print_turns(rows):
    """Prints the samples of a period, with all shares that take turns."""
    for at, sample in enumerate(rotation(rows)):
        print("sample %d, at most %d s" % (at, time_of(sample)))
        for place in sample:
            for share in place:
                print("    %s, %d s: %s" % (share[0]["crate"], much(share), " ".join(row["edit"] for row in share)))


def chosen(rows, names):
    """Returns the rows of these crates and mutants."""
    labels = {"%s/%s" % (row["crate"], row["edit"]) for row in rows} | {row["crate"] for row in rows}
    if unknown := [name for name in names if name not in labels]:
        raise SystemExit("no crate and no edit of the table: " + " ".join(unknown))
    return [row for row in rows if row["crate"] in names or "%s/%s" % (row["crate"], row["edit"]) in names]


def main():
    parser = argparse.ArgumentParser(usage=__doc__)
    parser.add_argument("names", nargs="*")
    parser.add_argument("--turn", type=int, nargs="?", const=-1)
    parser.add_argument("--turns", action="store_true")
    parser.add_argument("--write", action="store_true")
    parser.add_argument("--jobs", type=int, default=1)
    parser.add_argument("--libraries", default=TOP)
    given = parser.parse_args()
    rows = read_table()
    if given.write and not given.names and given.turn is None:
        for row in rows:
            row["public"] = public_column(row)
        write_table(rows)
    bad = misfits(rows)
    bad += [] if given.names or bad else incomplete(rows)
    for said in bad:
        print(said)
    if bad:
        print("%d rows, %d do not fit" % (len(rows), len(bad)))
        sys.exit(1)
    if given.turns:
        print_turns(rows)
        return
    number = commit.number() if given.turn == -1 else given.turn
    mine = chosen(rows, given.names) if number is None else turn_of(rows, number)
    if number is not None:
        print("the sample of commit %d: %s; again by --turn %d" % (number, " ".join(sorted({row["crate"] for row in mine})), number), flush=True)
    worse = []

    def each(row, came, said, seconds, proofs):
        differs = came != row["answer"] or came == NOT_TRIED
        is_same_text = row["text"] == text_of(row["crate"])
        is_worse = row["answer"] == REFUSED and (came == LET_THROUGH or came == BAD and is_same_text)
        worse.extend([row] * is_worse)
        mark = "WORSE " if is_worse else "other " if differs else ""
        print("%s%s/%s: %s, %d s%s" % (mark, row["crate"], row["edit"], came, seconds, ": " + said[:300] if said else ""), flush=True)
        if given.write:
            put(row, came, said, seconds, proofs)

    try_rows(mine, os.path.abspath(given.libraries), given.jobs, each)
    print("%d mutants: %d tried, %d worse than in the table" % (len(rows), len(mine), len(worse)))
    sys.exit(bool(worse) and not given.write)


if __name__ == "__main__":
    main()
