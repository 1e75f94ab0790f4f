#!/usr/bin/env python3
"""Measures the cost of the full check for each crate: runs `rt ci` and prints the processor time of its checks.

    budget.py [WORD..]    runs `rt ci WORD..` at the top of the repository, with as many lanes as gate.py uses; then prints a
                          table in the form of bench/budget.csv: the seconds of processor time of each crate's proof, its
                          tests and its must-fail edits (which include a proof), and the sums

Some kits keep the results of earlier runs on the machine: then kept crates have no time, names of crates prove only these
crates, and --anew as the only word proves all. Other kits prove all crates and accept no word. The checks run in parallel,
as in the full check; a check that runs alone takes less time. The script reads /proc every two seconds and misses shorter
checks. It ends with the status of `rt ci`. If it is interrupted, it stops `rt ci` and prints the times so far.
"""
import os
import pathlib
import signal
import subprocess
import sys
import time

sys.dont_write_bytecode = True
TOP = pathlib.Path(__file__).resolve().parent.parent
sys.path.insert(0, str(TOP / "building"))
from costs import LANES  # noqa: E402

TICKS = os.sysconf("SC_CLK_TCK")
KINDS = ["proof", "tests", "edits"]


def stat_of(process):
    """Returns the fields of a process in /proc after its name: its state, its parent, and further numbers."""
    return pathlib.Path(f"/proc/{process}/stat").read_text().rpartition(")")[2].split()


def words_of(process):
    """Returns the command line of a process."""
    return pathlib.Path(f"/proc/{process}/cmdline").read_bytes().decode(errors="replace").split("\0")


def is_check(words):
    """Returns whether this is the command line of a check."""
    return words[0].endswith("/rattle") and "--crate-name" in words


def is_below(process, top):
    """Returns whether a process is a descendant of `top` with no check between them."""
    while process > 1:
        process = int(stat_of(process)[1])
        if process == top or is_check(words_of(process)):
            return process == top
    return False


def check_of(process, top):
    """Returns the crate, the kind and the processor time, children included, of a check that descends from `top`, or None for
    another process."""
    words = words_of(process)
    if not is_check(words) or not is_below(process, top):
        return None
    folder = os.readlink(f"/proc/{process}/cwd")
    kind = "edits" if "/rt-edit-" in folder else "tests" if "--test" in words else "proof"
    return words[words.index("--crate-name") + 1], kind, sum(map(int, stat_of(process)[11:15])) / TICKS


def look(top, found):
    """Records the processor time so far of each check that descends from `top`."""
    for process in map(int, filter(str.isdigit, os.listdir("/proc"))):
        try:
            if check := check_of(process, top):
                found[process, check[:2]] = check[2]
        except OSError:
            pass  # the process has ended


def table(found):
    """Prints the table in the form of bench/budget.csv, the most expensive crates first."""
    taken = {}
    for (_, (crate, kind)), seconds in found.items():
        row = taken.setdefault(crate, dict.fromkeys(KINDS, 0))
        row[kind] += seconds
    print(f"crate,{','.join(KINDS)},note")
    for crate, row in sorted(taken.items(), key=lambda it: -sum(it[1].values())):
        print(f"{crate},{','.join(f'{row[it]:.0f}' for it in KINDS)},")
    sums = [sum(row[it] for row in taken.values()) / 60 for it in KINDS]
    print(f"\nMinutes of processor time: {', '.join(f'{it} {much:.0f}' for it, much in zip(KINDS, sums))}; {sum(sums):.0f} in total.")


def main(words):
    found, begun = {}, time.time()
    ran = subprocess.Popen(["rt", "ci", *words], cwd=TOP, env={"RT_JOBS": str(LANES), **os.environ})
    try:
        while ran.poll() is None:
            look(ran.pid, found)
            time.sleep(2)
    except KeyboardInterrupt:
        ran.terminate()
        ran.wait()
    table(found)
    print(f"{(time.time() - begun) / 60:.0f} minutes of run time.")
    return ran.returncode


if __name__ == "__main__":
    if "--help" in sys.argv or "-h" in sys.argv:
        sys.exit(__doc__)
    for each in (signal.SIGINT, signal.SIGTERM):
        signal.signal(each, signal.default_int_handler)
    sys.exit(main(sys.argv[1:]))
