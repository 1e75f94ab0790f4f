#!/usr/bin/env python3
"""Counts the rounds that each program of this folder takes until it is accepted, if one does what --explain says.

usage: rounds.py [PROGRAM] [NAME ..]

NAME.c is a program as one would paste it from C, NAME.cilk one that was written for the profile and has a mistake or two.
NAME.rounds has what an author does after each run, which follows the printed texts to the letter:

    run ARGS                the arguments of main for the accepted program
    value V                 the value that it must return, and what it prints: a line for each
    round                   begins the edits of one round
    said TEXT               a part of what the program printed in this round, which asks for the next edit
    - LINE                  lines of the source, which must occur once, or at the line that the text names ..
    + LINE                  .. and what replaces them

A round is one set of edits and one run. The program is checked, the edits of the round are applied, and so on. Every text
after `said` must be printed before the edits of its round, and only the program after the last round must be accepted."""
import os
import re
import subprocess
import sys

HERE = os.path.dirname(os.path.abspath(__file__))
# the maximum for each program from C, and the mean of the others
LIMITS = ((".c", 2), (".cilk", 1.3))


class Wrong(Exception):
    """An edit that cannot be applied, or a text that is not printed."""


def read_rounds(path):
    """Returns the arguments, the expected lines, and the edits of each round: text that asks, old lines, new lines."""
    args, wanted, rounds = [], [], []
    with open(path, encoding="ascii") as file:
        for line in file.read().splitlines():
            word, _, rest = line.partition(" ")
            if word == "run":
                args = rest.split()
            elif word == "value":
                wanted.append(rest)
            elif word == "round":
                rounds.append([])
            elif word == "said":
                rounds[-1].append((rest, [], []))
            elif word in ("-", "+"):
                rounds[-1][-1][1 if word == "-" else 2].append(rest)
            elif line and word != "#":
                raise Wrong(f"{path}: {line}")
    return args, wanted, rounds


def explained(program, source, words):
    """Returns the status of the program on a source, what it printed, and its explanation."""
    done = subprocess.run([program, words[0], "--explain", "-", *words[1:]], input=source.encode(), capture_output=True,
                          check=False)
    return done.returncode, done.stdout.decode(), done.stderr.decode()


def places(lines, old):
    """Returns the indices at which these lines are in the source."""
    return [k for k in range(len(lines) - len(old) + 1) if lines[k:k + len(old)] == old]


def applied(source, edits, text):
    """Returns the source after these edits, each of which a printed text asks for."""
    lines = source.splitlines()
    spots = []
    for said, old, new in edits:
        if said not in text:
            raise Wrong(f"not printed: {said}")
        at = places(lines, old)
        if len(at) > 1:
            named = re.match(r"<stdin>:(\d+):", said)
            at = [k for k in at if named and k <= int(named.group(1)) - 1 < k + len(old)]
        if len(at) != 1:
            raise Wrong(f"{len(at)} places: {old[0] if old else said}")
        spots.append((at[0], len(old), new))
    for at, count, new in sorted(spots, reverse=True):
        lines[at:at + count] = new
    return "\n".join(lines) + "\n"


def count(program, path):
    """Returns the number of rounds of a program; prints what is wrong with its edits, if anything is."""
    with open(path, encoding="ascii") as file:
        source = file.read()
    args, wanted, rounds = read_rounds(os.path.splitext(path)[0] + ".rounds")
    for number, edits in enumerate(rounds, 1):
        status, _, text = explained(program, source, ["check"])
        if status == 0:
            raise Wrong(f"accepted before round {number}")
        source = applied(source, edits, text)
    status, out, text = explained(program, source, ["run", *args])
    if status != 0:
        raise Wrong(f"not accepted after {len(rounds)} rounds:\n{text}\n{source}")
    for line in wanted:
        if line not in out.splitlines():
            raise Wrong(f"{line} is not in the answer:\n{out}")
    return len(rounds)


def main(words):
    """Counts the rounds of all programs, or of those that are named."""
    program = words[0] if words else os.path.join(HERE, "..", "..", "bin", "cilkwork")
    names = sorted(name for name in os.listdir(HERE) if name.endswith((".c", ".cilk")))
    found = {".c": [], ".cilk": []}
    failed = 0
    for name in names:
        if words[1:] and os.path.splitext(name)[0] not in words[1:]:
            continue
        try:
            rounds = count(program, os.path.join(HERE, name))
        except (Wrong, FileNotFoundError) as wrong:
            print(f"{name}: {wrong}")
            failed += 1
            continue
        found[os.path.splitext(name)[1]].append(rounds)
        print(f"{name}: {rounds}")
    for kind, most in LIMITS:
        if found[kind]:
            mean = sum(found[kind]) / len(found[kind])
            print(f"{len(found[kind])} programs {kind}: {mean:.2f} rounds on average, at most {max(found[kind])}")
            failed += (max(found[kind]) if kind == ".c" else mean) > most
    return failed != 0


if __name__ == "__main__":
    sys.exit(main(sys.argv[1:]))
