#!/usr/bin/env python3
"""Compares the built program with the independent implementation, byte for byte, on random programs.

    fuzz.py PROGRAM START COUNT [no-loops] [consts]

For each of COUNT seeds from START on, the random program of the seed is checked, and run in the modes run, scale, sites, gain,
greedy and speedup: with a large limit, with its cost as the limit, and with one instruction less; and with `--table`. Exit status and both
streams must be as `ref.py` computes them. Then three programs that differ from it in one statement are checked: each must be accepted or rejected,
with the line, as by `rules.py`. With `consts` functions have `const` parameters, too.
"""
import collections
import os
import re
import subprocess
import sys
import tempfile

import ref
from gen import Generator, mutant
from ref import Program, Run, report
from rules import broken
from trees import Burden

WIDE = 200000
OVER = (4, "", "over limit\n")


def arguments_of(source, seed):
    """Returns small numbers, one for each parameter of main."""
    params = re.search(r"int main\(([^)]*)\)", source).group(1)
    return [(seed * 7 + place * 3) % 11 for place in range(params.count("int"))]


def answers(source, arguments, burden, processors, top):
    """Yields the mode and limit of each run, with the answer that the program must give."""
    run = Run(Program(source), arguments, WIDE)
    yield ["check"], (0, "ok\n", "")
    for mode in ("run", "scale", "sites", "gain", "greedy", "speedup"):
        expected = report(mode, run, burden, processors, top)
        yield [mode, WIDE], expected
        if mode in ref.TABLES:
            yield [mode, WIDE, "--table"], report(mode, run, burden, processors, top, True)
        if not run.is_over:
            yield [mode, run.cost], expected
            if run.cost > 1:
                yield [mode, run.cost - 1], OVER


def asked(exe, path, words, arguments, burden, processors, top):
    mode, *limit = words
    command = [exe, mode] + ([str(processors)] if mode == "greedy" else []) + [path]
    if limit:
        command += [str(value) for value in arguments] + ["--limit", str(limit[0])] + limit[1:]
        command += [] if mode == "greedy" else ["--burden", str(burden.charge), "--edges", burden.edges]
        command += ["--top", str(top)] if mode == "gain" else []
        command += ["--processors", str(processors)] if mode == "speedup" else []
    done = subprocess.run(command, capture_output=True, text=True)
    return done.returncode, done.stdout, done.stderr


def compare(exe, seed, generator, path, seen):
    """Counts the answers of one program in `seen`, by mode and exit status, and returns the number of wrong ones."""
    source, bad = generator.program(), 0
    write(path, source)
    arguments = arguments_of(source, seed)
    burden = Burden([0, 1, 10, 100, 15000, 1000000000][seed % 6], ["spawn", "both"][seed // 6 % 2])
    processors = [1, 2, 3, 8, 64, 1000000, 5][seed % 7]
    top = [1, 2, 3, 10, 64][seed % 5]
    for words, expected in answers(source, arguments, burden, processors, top):
        found = asked(exe, path, words, arguments, burden, processors, top)
        seen["%s %d" % (words[0], expected[0])] += 1
        if found != expected:
            bad += 1
            print("seed", seed, words, arguments, "burden", burden.charge, burden.edges, "processors", processors, "top", top)
            print("expected", expected, "got", found)
    return bad + sum(compare_mutant(exe, mutant(source, 3 * seed + k), path, seen) for k in range(3))


def compare_mutant(exe, source, path, seen):
    """Returns whether `check` accepts or rejects the program differently from the rules."""
    write(path, source)
    breaks = broken(Program(source))
    expected = (2, "", "refused %d line %d\n" % breaks[:2]) if breaks else (0, "ok\n", "")
    found = asked(exe, path, ["check"], [], Burden(0), 1, 1)
    seen["mutant refused %d" % breaks[0] if breaks else "mutant accepted"] += 1
    if found != expected:
        print("expected", expected, breaks, "got", found, "for", source)
    return found != expected


def write(path, source):
    with open(path, "w") as file:
        file.write(source)


def fuzz():
    exe, start, count = sys.argv[1], int(sys.argv[2]), int(sys.argv[3])
    with_loops, with_consts = "no-loops" not in sys.argv[4:], "consts" in sys.argv[4:]
    seen, bad = collections.Counter(), 0
    with tempfile.TemporaryDirectory() as folder:
        for seed in range(start, start + count):
            generator = Generator(seed, with_loops, with_consts)
            bad += compare(exe, seed, generator, os.path.join(folder, "program.cilk"), seen)
    print(dict(seen), bad, "wrong")
    return 1 if bad else 0


if __name__ == "__main__":
    sys.exit(ref.deep(fuzz))
