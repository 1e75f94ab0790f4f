#!/usr/bin/env python3
"""Compares the independent implementation with the switch loop in C: value, printed lines, reducers, trap, cost.

    cross.py SWITCH START END [consts]

SWITCH is the compiled `bench/switch.c`. Both execute the random programs without arguments of the seeds from START up to END,
END excluded. With `consts` functions have `const` parameters, too. The status is 1 if a result differs.
"""
import collections
import os
import re
import subprocess
import sys
import tempfile

import ref
from gen import Generator
from ref import Program, Run, run_text

COMPILER = os.path.join(os.path.dirname(os.path.abspath(__file__)), "..", "compile.py")
LIMIT = 200000


def expected(run):
    if run.is_over:
        return 4, None, "over limit\n"
    if run.trap:
        return 3, run_text(run), "trap %d, %d instructions\n" % (run.trap.code, run.cost)
    return 0, re.sub(r"(sum|max) s(\d)", r"\1 \2", run_text(run)), "%d instructions\n" % run.cost


def compare(switch, source, folder):
    """Returns the expected exit status, and whether both agree."""
    path = os.path.join(folder, "program")
    with open(path + ".cilk", "w") as file:
        file.write(source)
    with open(path + ".code", "w") as file:
        subprocess.run([sys.executable, COMPILER, path + ".cilk"], stdout=file, check=True)
    done = subprocess.run([switch, path + ".code", str(LIMIT)], capture_output=True, text=True)
    status, out, err = expected(Run(Program(source), [], LIMIT))
    return status, done.returncode == status and out in (None, done.stdout) and done.stderr == err


def cross():
    seen, bad = collections.Counter(), 0
    with tempfile.TemporaryDirectory() as folder:
        for seed in range(int(sys.argv[2]), int(sys.argv[3])):
            source = Generator(seed, with_consts="consts" in sys.argv[4:]).program()
            if not re.search(r"int main\(int", source):
                status, agrees = compare(sys.argv[1], source, folder)
                seen[status] += 1
                bad += not agrees
                if not agrees:
                    print("seed", seed)
    print(dict(seen), bad, "wrong")
    return 1 if bad else 0


if __name__ == "__main__":
    sys.exit(ref.deep(cross))
