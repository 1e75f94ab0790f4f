#!/usr/bin/env python3
"""Runs the full check: samples of what supports the definitions, then `rt ci`, then checks of the program that it built.

    gate.py

1. The samples take a few minutes: the reports of examples/ against the independent implementation, that implementation
   against answers worked out by hand, the random programs of the tests of worlds, the constants of the page against its files,
   the page in a browser if one is installed, the list of definitions in docs/PROOFS.md, the texts of all mutants, and some
   mutated clauses. In parallel, ./build makes and installs the program into a temporary
   folder. If one of them fails, nothing else is run.
2. `rt ci` proves and tests all crates.
3. The program that `rt ci` built must be, byte for byte, the one of ./build, and have its SHA-256 in building/PROVED;
   otherwise the functions that differ are listed. It runs examples/ and random programs, its pages are compared with assembled
   ones, and its memory with several workers with that of one worker; programs from C must be accepted after two rounds of
   --explain. Then some mutants are tried, with the libraries that `rt ci` left.

The mutated clauses and the mutants of 1 and 3 are a sample that depends on the number of the commit (commit.py).

The first line is the expected time, by bench/budget.csv. Each line of `rt ci` about a crate begins with the minutes since the
start. The last line is that of `rt ci`, `N passed, M failed`; it counts what failed here, too. The script needs python3 and the
kit.

`rt ci` gets a lane for each processor, at most four, unless RT_JOBS sets the number. By itself it starts a crate only if as
much memory is free as it estimates for the crate, and its estimate for the first crate of the longest chain is so high that
this crate would wait for nearly all others. The four largest checks of this repository take some 14 GB together.
"""
import filecmp
import os
import re
import shutil
import subprocess
import sys
import tempfile
import time

sys.dont_write_bytecode = True
TOP = os.path.normpath(os.path.join(os.path.dirname(os.path.abspath(__file__)), ".."))
sys.path[:0] = [os.path.join(TOP, "bench"), os.path.join(TOP, "building")]
import commit  # noqa: E402
import costs  # noqa: E402
import kits  # noqa: E402
import proving  # noqa: E402
import recording  # noqa: E402
import records  # noqa: E402
from costs import LANES  # noqa: E402

BEGUN = time.monotonic()
PROGRAM = os.path.join(TOP, "crates", "cilkwork", "out", "cilkwork")
BUILT = os.path.join(TOP, "bin", "cilkwork")
NUMBER = str(commit.number())
BEFORE = [
    ["bench/reference/examples.py", "--check"],
    ["bench/reference/check.py"],
    ["bench/reference/walks.py", "--check"],
    ["bench/page/constants.py", "--check"],
    ["bench/page/test_page.py", "--if-installed"],
    ["bench/unfolded.py", "--check"],
    ["bench/wrong/wrong.py"],
    ["bench/turned/turn.py", "--turn", NUMBER, "--jobs", "4"],
]
SEEDS = ["1", "40", "consts"]
WRONG = ["bench/wrong/wrong.py", "--turn", NUMBER, "--jobs", str(min(LANES, 2))]
# seconds of processor time of everything except `rt ci`
SAMPLES = 1000
INSTALLED = ["bin/cilkwork"] + ["share/doc/cilkwork/" + it for it in ("GUIDE.md", "LANGUAGE.md", "examples/fib.cilk")]
WORDED = ["man/man1/cilkwork.1", "bash-completion/completions/cilkwork", "zsh/site-functions/_cilkwork", "fish/vendor_completions.d/cilkwork.fish"]


def expectation():
    """Returns a line with the expected time from nothing: that of all lanes, or of the longest chain of crates."""
    with open(os.path.join(TOP, "crates.txt"), encoding="utf-8") as file:
        lines = [line.partition("#")[0].partition(":") for line in file]
    clock, total, chain = costs.expected({head.split()[0]: uses.split() for head, _, uses in lines if head.strip()})
    said = "expected: %d minutes on %d processors, where nothing is kept from an earlier run here (%d minutes of a processor; longest chain %d)"
    return said % ((clock + SAMPLES / LANES) / 60, LANES, (total + SAMPLES) / 60, chain / 60)


def stamped(line):
    """Returns a line of `rt ci`, with the minutes since the start if it has the result of a crate."""
    return "%3d min %s" % ((time.monotonic() - BEGUN) / 60, line) if line.startswith("rt: ") else line


def passes(words):
    """Runs a script and returns whether it succeeds."""
    print("== " + " ".join(words), flush=True)
    ran = subprocess.run([sys.executable, "-B"] + words, cwd=TOP)
    return ran.returncode == 0


def said(*words):
    """Returns what a command writes to standard output."""
    return subprocess.run(words, capture_output=True, text=True, check=True).stdout


def unnamed(prefix):
    """Returns what is missing after an installation: files, and commands and options that a page or a completion does not name."""
    program = os.path.join(prefix, "bin", "cilkwork")
    commands = re.findall(r"^  (\w+)  ", said(program, "--help").split("Commands:")[1].split("\n\n")[0], re.M)
    options = {it for verb in commands if verb != "help" for it in re.findall(r"^ +--(\w+)", said(program, verb, "--help"), re.M)}
    lacks = [it for it in INSTALLED if not os.path.isfile(os.path.join(prefix, it))]
    for name in WORDED:
        with open(os.path.join(prefix, "share", name), encoding="utf-8") as it:
            text = it.read().replace("\\", "")
        lacks += ["%s: %s" % (name, it) for it in sorted({*commands, *options}) if not re.search(r"\b%s\b" % it, text)]
    return lacks if commands and options else ["no command, or no option"]


def build_passes(ran, log, prefix):
    """Waits for ./build, prints its output, and returns whether it made and installed everything."""
    status = ran.wait()
    print("== ./build --install FOLDER", flush=True)
    log.seek(0)
    print(log.read(), end="", flush=True)
    lacks = [] if status else unnamed(prefix)
    for it in lacks:
        print("not installed: " + it)
    return not status and not lacks


def sample():
    """Runs the samples, with ./build in parallel, and returns the names of those that fail."""
    with tempfile.TemporaryDirectory() as prefix, tempfile.TemporaryFile("w+") as log:
        ran = subprocess.Popen([sys.executable, "-B", "build", "--install", prefix], cwd=TOP, stdout=log, stderr=subprocess.STDOUT)
        failed = [words[0] for words in BEFORE if not passes(words)]
        return failed + ([] if build_passes(ran, log, prefix) else ["build"])


def is_proved_program():
    """Returns whether ./build made the program that `rt ci` built, and building/PROVED has its sum; reports what differs."""
    kit = kits.found()
    proved = records.sum_of_file(PROGRAM)
    if not filecmp.cmp(PROGRAM, BUILT, shallow=False):
        print("./build does not make the program that was proved:\n    proved   %s\n    ./build  %s" % (proved, records.sum_of_file(BUILT)))
        print("\n".join(recording.differences(kit, print)), flush=True)
        return False
    print("./build made the proved program, byte for byte: SHA-256 " + proved, flush=True)
    sources = records.sum_of_sources(kit.crates(records.TOP))
    recorded = [it for it in records.proved() if it.kit == kit.line or it.sources == sources]
    wrong = [it for it in recorded if it.sources != sources or it.kit == kit.line and it.program != proved]
    if wrong or not recorded:
        print("building/PROVED does not have this program and its sources: run ./build --record and commit what it writes")
        print("    proved    %s %s" % (sources, proved))
        print("\n".join("    recorded  %s %s" % (it.sources, it.program) for it in wrong), flush=True)
        return False
    if kit.line not in [it.kit for it in recorded]:
        print("building/PROVED records these sources for another kit: run ./build --record with this one, too", flush=True)
    return True


def program_passes():
    """Returns whether the program that `rt ci` built is the one of ./build, and a copy that may be run answers correctly."""
    if not os.path.isfile(PROGRAM):
        print("rt ci left no program")
        return False
    with tempfile.TemporaryDirectory() as folder:
        copy = os.path.join(folder, "cilkwork")
        shutil.copyfile(PROGRAM, copy)
        os.chmod(copy, 0o755)
        tried = [["building/answers.py", copy], ["bench/page/pages.py", copy], ["bench/reference/fuzz.py", copy] + SEEDS,
                 ["bench/cost/bar.py", copy, "--sample"], ["bench/pasted/rounds.py", copy]]
        return all([is_proved_program(), *(passes(words) for words in tried)])


def run_ci():
    """Runs `rt ci`, prints its output except for the last line, and returns that line and the status."""
    held = ""
    env = {"RT_JOBS": str(LANES), **os.environ, "PYTHONUNBUFFERED": "1"}
    how = {"cwd": TOP, "env": env, "text": True, "errors": "replace"}
    with subprocess.Popen(["rt", "ci"], stdout=subprocess.PIPE, **how) as ran:
        for line in ran.stdout:
            print(stamped(held), end="", flush=True)
            held = line
    return held, ran.returncode


def main():
    print(expectation(), flush=True)
    failed = sample()
    if failed:
        print("FAILED: " + " ".join(failed))
        print("0 passed, %d failed" % len(failed))
        return 1
    last, status = run_ci()
    if status == 0:
        proving.keep(kits.found(), records.TOP)
        failed = ["the program that rt ci built"] * (not program_passes()) + [WRONG[0]] * (not passes(WRONG))
    if failed:
        print("FAILED: " + " ".join(failed))
        last, status = re.sub(r"\d+ failed", "%d failed" % len(failed), last), 1
    print(last, end="")
    return status


if __name__ == "__main__":
    sys.exit(main())
