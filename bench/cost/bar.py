#!/usr/bin/env python3
"""Checks what runs with several workers cost, compared with one worker.

    bar.py PROGRAM [--sample] [--workers 1,2,4,64] [--rounds 3] [--only NAME,..] [--table FILE] [--seconds 60] [--memory MB]

PROGRAM is a built `cilkwork`. Each case of cases.csv runs with each number of workers, in interleaved rounds. The least run time
and the largest memory of the rounds count, because a promise about memory holds for every run. A case whose first round stays within
two thirds of all its bounds does not run again. If the load exceeds the number of cores by more than one, run time says nothing; then
the processor time, divided by the cores that the workers share, is held to the same bound.

--sample runs the cases that have a sample, once, with the numbers of workers given there, and checks memory and exit status only: about
ten seconds of processor time, on a machine that may be busy. The status of the script is 0 if no bound is exceeded, and 1 otherwise.

Columns of cases.csv: name, source, mode, args, workers, exit status (`a/b` allows either), and these bounds:
  memory  with P workers at most this multiple of one worker's memory, plus 4 MB and 2 MB per worker: a number or an expression in P
  memory2 the same for two workers, if a smaller multiple holds
  most    the most memory in MB with one worker
  clock   with 2 and 4 workers at most this multiple of one worker's run time, plus 50 ms
  pair    another case: with one worker this case takes at most `ratio` times the processor time of that case (each without the time
          of a run with the first argument 1), and at most `ratio` times its memory plus 4 MB
  sample  the numbers of workers of --sample

In a source, `\\<COUNT TEXT\\>` repeats a text; in the text, `\\#` counts from 0.
"""
import argparse
import csv
import math
import os
import pathlib
import re
import resource
import shutil
import signal
import subprocess
import sys
import tempfile
import time

HERE = pathlib.Path(__file__).resolve().parent
MB = 1 << 20
TIME = shutil.which("time")
CORES = len(os.sched_getaffinity(0))
FREE, FREE_EACH = 4.0, 2.0  # MB besides the multiple, in all and for each worker
NOISE = 0.05  # seconds besides the multiple
CLEAR = 1.5  # a case that stays this far below its bounds does not run again
REPEAT = re.compile(r"\\<(\d+) ((?:(?!\\<|\\>).)*?)\\>", re.S)


class Run:
    """One run: its exit status or `late`, its seconds, its seconds of a processor, its memory in MB, and its standard error."""

    def __init__(self, status, seconds, processor, memory, text):
        self.status, self.seconds, self.processor, self.memory, self.text = str(status), seconds, processor, memory, text


def expanded(text):
    """Returns a source with its repeated texts, the innermost first."""
    while REPEAT.search(text):
        text = REPEAT.sub(lambda it: "".join(it[2].replace("\\#", str(i)) for i in range(int(it[1]))), text)
    return text


def peak(pid, has_child):
    """Returns the largest memory of a process so far in MB, or of its only child."""
    try:
        if has_child:
            pid = int(pathlib.Path(f"/proc/{pid}/task/{pid}/children").read_text().split()[0])
        text = pathlib.Path(f"/proc/{pid}/status").read_text()
        return float(text.split("VmHWM:")[1].split()[0]) / 1024
    except (OSError, IndexError, ValueError):
        return 0.0


def wait(child, seconds):
    """Waits for a run, ends it after so many seconds, and returns how it ended, its seconds, its use, and the memory that was seen."""
    began, is_late, memory = time.monotonic(), False, 0.0
    while True:
        pid, status, use = os.wait4(child.pid, os.WNOHANG)
        taken = time.monotonic() - began
        if pid:
            child.returncode = os.waitstatus_to_exitcode(status)
            return "late" if is_late else child.returncode, taken, use, memory
        if taken > seconds and not is_late:
            is_late = True
            os.killpg(child.pid, signal.SIGKILL)
        if not TIME or taken > 0.05:
            memory = max(memory, peak(child.pid, bool(TIME)))
        time.sleep(0.0005 if taken < 0.2 else 0.005)


def run(asked, words):
    """Runs the program on these words, within the seconds and the memory that are allowed."""
    def limits():
        resource.setrlimit(resource.RLIMIT_AS, (int(asked.memory) * MB, int(asked.memory) * MB))
        resource.setrlimit(resource.RLIMIT_CORE, (0, 0))
        resource.setrlimit(resource.RLIMIT_CPU, (int(asked.seconds * 8), int(asked.seconds * 8)))

    # the memory of this script counts for a child that it forks, until the child becomes the program. So `time`, which is small, starts
    # the program; without `time` the script looks at the memory while the program runs
    with tempfile.TemporaryFile() as error, tempfile.NamedTemporaryFile("r") as used, open(os.devnull, "r+b") as none:
        through = [TIME, "-q", "-o", used.name, "-f", "%M"] if TIME else []
        child = subprocess.Popen([*through, asked.program, *words], stdin=none, stdout=none, stderr=error, preexec_fn=limits, start_new_session=True)
        status, taken, use, memory = wait(child, asked.seconds)
        line = used.read().split()
        if TIME and len(line) == 1:
            memory = float(line[0]) / 1024
        error.seek(0)
        text = error.read().decode(errors="replace").strip()
    return Run(status, taken, math.inf if status == "late" else use.ru_utime + use.ru_stime, memory, text)


def factor(text, workers):
    """Returns a multiple, which may be an expression in the number of workers P."""
    return float(eval(text, {"__builtins__": {}}, {"P": workers, "min": min, "max": max}))


def bounds(case, workers, one):
    """Returns the most memory and the most seconds of a run with so many workers, each None if there is no such bound."""
    memory = seconds = None
    if workers == 1:
        return (float(case["most"]) if case["most"] else None), None
    multiple = case["memory2"] if workers == 2 and case["memory2"] else case["memory"]
    if multiple:
        memory = factor(multiple, workers) * max(it.memory for it in one) + FREE + FREE_EACH * workers
    if workers in (2, 4) and case["clock"]:
        seconds = float(case["clock"]) * min(it.seconds for it in one) + NOISE
    return memory, seconds


def excess(asked, case, workers, runs):
    """Returns what the runs with so many workers exceed."""
    told, mine = [], runs[workers]
    bad = [it for it in mine if it.status not in case["status"].split("/")]
    if bad:
        told.append(f"ended with {bad[0].status} ({bad[0].text[:40]}), not {case['status']}")
    memory, seconds = bounds(case, workers, runs[1])
    if memory is not None and max(it.memory for it in mine) > memory:
        told.append(f"memory above {memory:.0f} MB")
    if seconds is None or asked.sample:
        return told
    if os.getloadavg()[0] > CORES + 1:
        most = float(case["clock"]) * min(it.processor for it in runs[1]) + NOISE
        if min(it.processor for it in mine) / min(workers, CORES) > most:
            told.append(f"processor time, shared by the cores, above {most:.2f} s")
    elif min(it.seconds for it in mine) > seconds:
        told.append(f"run time above {seconds:.2f} s")
    return told


def is_clear(asked, case, runs):
    """Returns whether all runs of a case stay far below their bounds."""
    for workers, mine in runs.items():
        memory, seconds = bounds(case, workers, runs[1])
        if any(it.status not in case["status"].split("/") for it in mine):
            return False
        if memory is not None and max(it.memory for it in mine) * CLEAR > memory:
            return False
        if not asked.sample and seconds is not None and min(it.seconds for it in mine) * CLEAR > seconds:
            return False
    return True


def tried(asked, folder, case):
    """Runs a case with each number of workers, in interleaved rounds, and returns the runs by the number of workers."""
    counts = [int(it) for it in case["sample" if asked.sample else "workers"].split()]
    if asked.workers:
        counts = [it for it in counts if it == 1 or it in asked.workers]
    words = [*case["mode"].split(), str(folder / case["source"]), *case["args"].split()]
    runs = {it: [] for it in counts}
    for _ in range(asked.rounds):
        for workers in counts:
            if any(it.status not in case["status"].split("/") for it in runs[workers]):
                continue
            runs[workers].append(run(asked, [*words, "--workers", str(workers)]))
        if asked.sample or is_clear(asked, case, runs) and not case["pair"]:
            break
    return runs


def shown(case, workers, runs, told):
    """Prints a line for the runs with so many workers, and returns the row of the table."""
    mine, one = runs[workers], runs[1]
    seconds, processor, memory = min(it.seconds for it in mine), min(it.processor for it in mine), max(it.memory for it in mine)
    by_clock, by_memory = seconds / min(it.seconds for it in one), memory / max(it.memory for it in one)
    print(f"{case['name']:<16}{case['mode']:<10}{workers:>3} workers {seconds:8.3f} s {processor:8.3f} s of a processor {memory:8.1f} MB"
          f"  x{by_clock:6.2f} run time x{by_memory:6.2f} memory" + ("   EXCEEDS " + "; ".join(told) if told else ""), flush=True)
    return [case["name"], case["mode"], case["args"], workers, f"{seconds:.3f}", f"{processor:.3f}", f"{memory:.1f}", f"{by_clock:.2f}", f"{by_memory:.2f}", "; ".join(told)]


def alone(asked, folder, case):
    """Returns the processor time of a case with one worker, without that of a run with the first argument 1, and its memory."""
    words, args = [*case["mode"].split(), str(folder / case["source"])], case["args"].split()
    full = [run(asked, [*words, *args, "--workers", "1"]) for _ in range(asked.rounds)]
    none = [run(asked, [*words, "1", *args[1:], "--workers", "1"]) for _ in range(asked.rounds)]
    return max(1e-4, min(it.processor for it in full) - min(it.processor for it in none)), max(it.memory for it in full)


def compared(asked, folder, case, other):
    """Compares a case with another one, prints a line, and returns what it exceeds."""
    mine, theirs, ratio, told = alone(asked, folder, case), alone(asked, folder, other), float(case["ratio"]), []
    if mine[0] > ratio * theirs[0] + 0.01:
        told.append(f"more than {ratio} times the processor time of {other['name']}")
    if mine[1] > ratio * theirs[1] + FREE:
        told.append(f"more than {ratio} times the memory of {other['name']}")
    print(f"{case['name']:<16}and {other['name']}: {mine[0]:.3f} and {theirs[0]:.3f} s of a processor (x{mine[0] / theirs[0]:.1f}),"
          f" {mine[1]:.1f} and {theirs[1]:.1f} MB (x{mine[1] / theirs[1]:.1f})" + ("   EXCEEDS " + "; ".join(told) if told else ""), flush=True)
    return told


def arguments():
    words = argparse.ArgumentParser(description=__doc__, formatter_class=argparse.RawDescriptionHelpFormatter)
    words.add_argument("program", type=lambda it: str(pathlib.Path(it).resolve()))
    words.add_argument("--sample", action="store_true")
    words.add_argument("--workers", type=lambda it: [int(n) for n in it.split(",")])
    words.add_argument("--rounds", type=int, default=3)
    words.add_argument("--only", type=lambda it: it.split(","))
    words.add_argument("--table")
    words.add_argument("--seconds", type=float, default=60)
    words.add_argument("--memory", type=float, default=6144)
    return words.parse_args()


def main():
    asked, count, table = arguments(), 0, []
    cases = list(csv.DictReader((HERE / "cases.csv").open()))
    print(f"{CORES} cores, load {os.getloadavg()[0]:.1f}", flush=True)
    with tempfile.TemporaryDirectory() as name:
        folder = pathlib.Path(name)
        for case in cases:
            (folder / case["source"]).write_text(expanded((HERE / case["source"]).read_text()))
        for case in cases:
            if asked.only and case["name"] not in asked.only or asked.sample and not case["sample"]:
                continue
            runs = tried(asked, folder, case)
            for workers in runs:
                told = excess(asked, case, workers, runs)
                table.append(shown(case, workers, runs, told))
                count += bool(told)
            if case["pair"] and not asked.sample:
                count += bool(compared(asked, folder, case, next(it for it in cases if it["name"] == case["pair"])))
    if asked.table:
        with open(asked.table, "w", newline="") as file:
            rows = csv.writer(file)
            rows.writerow("name mode args workers seconds processor memory_mb by_clock by_memory exceeds".split())
            rows.writerows(table)
    print("all bounds hold" if not count else f"{count} exceed their bounds")
    return 1 if count else 0


if __name__ == "__main__":
    sys.exit(main())
