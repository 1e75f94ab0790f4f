#!/usr/bin/env python3
"""Writes the random programs for the walks of worlds, or compares them with the file there.

    walks.py [--check]

It takes the first programs of `gen.py`, by seeds from 1 on, that are short and spawn several times: some that finish, some
that trap. It writes each into crates/cw_worker_tests/src/generated.rt with its arguments and its cost.
"""
import collections
import os
import sys

import ref
from fuzz import arguments_of
from gen import Generator
from ref import Program, Run

FILE = os.path.join(os.path.dirname(os.path.abspath(__file__)), "../../crates/cw_worker_tests/src/generated.rt")
WIDE, LONGEST, LEAST_SPAWNS = 2000, 1200, 3
COUNTS = {"ended": 10, "trapped": 4}
HEAD = '''//! Random programs, written by `bench/reference/walks.py`.

/// A random program with its arguments, and the cost of its run up to its end or trap.
pub struct Generated<'a> {
    pub source: &'a [u8],
    pub args: &'a [i64],
    pub cost: u64,
}

/// Programs that finish and programs that trap, each with several spawns.
pub const GENERATED: [Generated<'static>; %d] = [
'''


class Counted(Run):
    """A run that counts its spawns."""

    spawns = 0

    def do_call(self, line, frame, depth, spawns, *rest):
        self.spawns += spawns
        super().do_call(line, frame, depth, spawns, *rest)

    def spawned(self, part):
        self.spawns += 1
        return super().spawned(part)


def entry(source, arguments, cost):
    """Returns a program as an entry of the table."""
    return '    Generated {\n        source: b"\n%s",\n        args: &%s,\n        cost: %d,\n    },\n' % (source, arguments, cost)


def table():
    """Returns the text of the file."""
    entries, taken, seed = [], collections.Counter(), 0
    while taken != COUNTS:
        seed += 1
        source = Generator(seed, True).program()
        arguments = arguments_of(source, seed)
        run = Counted(Program(source), arguments, WIDE)
        kind = "trapped" if run.trap else "ended"
        fits = not run.is_over and run.spawns >= LEAST_SPAWNS and len(source) <= LONGEST
        if fits and taken[kind] < COUNTS[kind]:
            taken[kind] += 1
            entries.append(entry(source, arguments, run.cost))
    return HEAD % len(entries) + "".join(entries) + "];\n"


def main():
    """Writes or compares the file, and returns the exit status."""
    text = table()
    if "--check" not in sys.argv:
        with open(FILE, "w") as file:
            file.write(text)
        return 0
    with open(FILE) as file:
        same = file.read() == text
    if not same:
        print("differs:", os.path.normpath(FILE))
    return 0 if same else 1


if __name__ == "__main__":
    sys.exit(ref.deep(main))
