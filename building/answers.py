#!/usr/bin/env python3
"""Compares the reports of a program on examples/ with the expected files there.

    answers.py PROGRAM

The independent implementation of the language (bench/reference) made these files, never cilkwork. The last line is the number of
files that were compared; the status is 1 if one differs.
"""
import pathlib
import subprocess
import sys

EXAMPLES = pathlib.Path(__file__).resolve().parent.parent / "examples"
ENDINGS = {"run": ".out", "scale": ".scale.csv", "sites": ".sites.csv", "greedy": ".greedy.csv", "gain": ".gain.csv", "speedup": ".speedup.csv"}
PROCESSORS = "8"


def words_of(mode, file):
    """Returns the command line for a report of an example."""
    arguments = file.with_suffix(".args")
    return [mode, *([PROCESSORS] if mode == "greedy" else []), file, *arguments.read_text().split()]


def is_expected(program, words, expected):
    """Returns whether a program succeeds, prints what is expected, and nothing on standard error."""
    ran = subprocess.run([program, *words], stdin=subprocess.DEVNULL, capture_output=True, timeout=120)
    return (ran.returncode, ran.stdout, ran.stderr) == (0, expected, b"")


def differing(program):
    """Returns the number of reports that were compared, and the command lines of those that differ."""
    reports = [(words_of(mode, file), file.with_suffix(ending)) for file in sorted(EXAMPLES.glob("*.cilk")) for mode, ending in ENDINGS.items()]
    for table in sorted(EXAMPLES.glob("*.table")):
        name, mode, _ = table.name.split(".")
        reports.append((words_of(mode, EXAMPLES / (name + ".cilk")) + ["--table"], table))
    wrong = [words for words, file in reports if not is_expected(program, words, file.read_bytes())]
    return len(reports), [" ".join(map(str, words)) for words in wrong]


if __name__ == "__main__":
    if len(sys.argv) != 2:
        sys.exit(__doc__)
    count, wrong = differing(sys.argv[1])
    for it in wrong:
        print("differs: cilkwork " + it)
    print(f"{count} reports on examples/, {len(wrong)} differ")
    sys.exit(1 if wrong or not count else 0)
