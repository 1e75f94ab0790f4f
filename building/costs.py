"""Estimates the cost of the full check from bench/budget.csv, the processor time of each crate's proof, tests and must-fail edits."""
import csv
import os

import records

BUDGET = records.TOP / "bench/budget.csv"
# the seconds of a crate that the table does not list
SMALL = (60, 0, 0)
# crates that are proved at a time
LANES = min(len(os.sched_getaffinity(0)), 4)


def measured():
    """Returns the seconds of each crate's proof, tests and edits, by its name."""
    with open(BUDGET, encoding="utf-8", newline="") as file:
        return {row["crate"]: tuple(int(row[it]) for it in ("proof", "tests", "edits")) for row in csv.DictReader(file)}


def expected(crates):
    """Returns seconds: the wall time to prove and try crates in all lanes, the processor time, and the longest chain.

    `crates` has the names of each crate's libraries by its name, the lowest first."""
    costs, proved, chain, total = measured(), {}, 0, 0
    for name, uses in crates.items():
        proof, *others = costs.get(name, SMALL)
        proved[name] = proof + max((proved.get(it, 0) for it in uses), default=0)
        chain, total = max(chain, proved[name] + max(others)), total + proof + sum(others)
    return max(total / LANES, chain), total, chain
