#!/usr/bin/env python3
"""Compares the processor time of runs with the time of the same instructions in a switch loop of C, without and with measures.

    times.py PROGRAM [ROUNDS]        prints the minimum of ROUNDS interleaved rounds (15), and each ratio with its limit;
                                     requires gcc, which compiles bench/switch.c and bench/measures.c. If LuaJIT or Lua 5.4
                                     is installed, its interpreter executes the same programs (bench/programs.lua) in the
                                     same rounds
    times.py PROGRAM gain [ROUNDS]   compares `gain` with `scale` in the same way: the cost of one more function, and of ten;
                                     and the run time of `gain` with 1, 2 and 4 workers
    times.py short ROUNDS PROGRAM..  compares several built programs in one series: the minimum of ROUNDS interleaved short
                                     runs of `run` minus a run of size 1, divided by the time of C. On a machine whose speed
                                     varies, short runs reach its full speed sooner

The status is 1 if a ratio is above its limit. Sizes are large enough to make the start of a process a small part, and small
enough for short rounds, since a shared machine is slower for some seconds at a time. If other work runs at the same time,
the ratios are still comparable, because the rounds are interleaved; the seconds are not.
"""
import os
import pathlib
import resource
import shutil
import subprocess
import sys
import tempfile
import time

HERE = pathlib.Path(__file__).resolve().parent
LIMIT = "4611686018427387904"
# programs, their argument, and the limits of the ratios without measures and with them, on a processor on which C takes about
# 0.083 s for fib: on another processor only C may be faster by half
PROGRAMS = [("fib", "29", 0.42, 0.58), ("chain", "4000", 0.55, 0.62), ("sieve", "1000000", 0.36, 0.34),
            ("mergesort", "100000", 0.4, 0.4), ("matrix", "110", 0.42, 0.4), ("queens", "10", 0.48, 0.46)]

# sizes of short runs
SHORT = {"fib": "26", "chain": "1200", "sieve": "200000", "mergesort": "15000", "matrix": "50", "queens": "8"}
CREWS = ("1", "2", "4")

# other interpreters, LuaJIT without its compiler
OTHERS = {"LuaJIT": ["luajit", "-joff"], "Lua": ["lua5.4"]}


def source(name):
    """Returns the file of a program of bench/programs/ or examples/."""
    path = HERE / "programs" / f"{name}.cilk"
    return path if path.exists() else HERE.parent / "examples" / f"{name}.cilk"


def processor_time(command):
    """Runs a command and returns its processor time in seconds."""
    before = resource.getrusage(resource.RUSAGE_CHILDREN)
    subprocess.run(command, stdout=subprocess.DEVNULL, stderr=subprocess.DEVNULL)
    after = resource.getrusage(resource.RUSAGE_CHILDREN)
    return after.ru_utime + after.ru_stime - before.ru_utime - before.ru_stime


def run_time(command):
    """Runs a command and returns its run time in seconds."""
    before = time.perf_counter()
    subprocess.run(command, stdout=subprocess.DEVNULL, stderr=subprocess.DEVNULL)
    return time.perf_counter() - before


def commands(program, folder):
    """Returns the commands for each program: `run`, `scale`, the two C loops, and other interpreters that are installed."""
    for loop in ("switch", "measures"):
        subprocess.run(["gcc", "-O2", "-o", f"{folder}/{loop}", f"{HERE}/{loop}.c"], check=True)
    found = {}
    for name, size, *_ in PROGRAMS:
        code = f"{folder}/{name}"
        with open(code, "w", encoding="utf-8") as it:
            subprocess.run([sys.executable, f"{HERE}/compile.py", source(name)], stdout=it, check=True)
        ours = lambda mode: [program, mode, "--workers", "1", source(name), size]
        found[name] = {
            "run": ours("run"),
            "switch": [f"{folder}/switch", code, LIMIT, size],
            "scale": ours("scale"),
            "measures": [f"{folder}/measures", code, LIMIT, "15000", size],
        }
        for kind, words in OTHERS.items():
            if shutil.which(words[0]):
                found[name][kind] = [*words, f"{HERE}/programs.lua", name, size]
    return found


def others(least):
    """Prints a table of runs compared with other interpreters, if any is installed."""
    kinds = [kind for kind in OTHERS if ("fib", kind) in least]
    if not kinds:
        return
    print("\n| program | `run` | " + " | ".join(f"{kind} | ratio" for kind in kinds) + " |")
    print("|---|---" + "|---|---" * len(kinds) + "|")
    ratios = {kind: [least[name, "run"] / least[name, kind] for name, *_ in PROGRAMS] for kind in kinds}
    for k, (name, size, *_) in enumerate(PROGRAMS):
        cells = " | ".join(f"{least[name, kind]:.3f} | {ratios[kind][k]:.2f}" for kind in kinds)
        print(f"| {name} {size} | {least[name, 'run']:.3f} | {cells} |")
    print("\n" + " ".join(f"Mean ratio to {kind} {sum(them) / len(them):.2f}, maximum {max(them):.2f}." for kind, them in ratios.items()))


def gains(program, rounds="15"):
    """Prints tables of `gain` compared with `scale`, and of `gain` by workers; returns the number of ratios above their limit."""
    least, above = {}, 0
    for _ in range(int(rounds)):
        for name, size, *_ in PROGRAMS:
            for kind, *more in (["scale"], ["gain", "--top", "1"], ["gain", "--top", "10"]):
                command = [program, kind, *more, "--workers", "1", source(name), size]
                least[name, *more] = min(least.get((name, *more), 1e9), processor_time(command))
    print("| program | `scale` | `gain --top 1` | one function / `scale` | limit | `gain --top 10` | ratio to `scale` | limit |")
    print("|---|---|---|---|---|---|---|---|")
    for name, size, *_ in PROGRAMS:
        scale, one, ten = (least[name, *more] for more in ([], ["--top", "1"], ["--top", "10"]))
        above += (one - scale > 0.8 * scale) + (ten > 11 * scale)
        print(f"| {name} {size} | {scale:.3f} | {one:.3f} | {(one - scale) / scale:.2f} | 0.8 | {ten:.3f} | {ten / scale:.2f} | 11 |")
    crews(program, rounds)
    return above


def short(rounds, programs):
    """Prints a table of short runs of several programs."""
    least = {}
    with tempfile.TemporaryDirectory() as folder:
        asked = [commands(os.path.abspath(it), folder) for it in programs]
        for _ in range(int(rounds)):
            for name, size in SHORT.items():
                for k, command in enumerate([asked[0][name]["switch"], *(it[name]["run"] for it in asked)]):
                    for n in (size, "1"):
                        least[name, k, n] = min(least.get((name, k, n), 1e9), processor_time([*command[:-1], n]))
    print("| program | C | " + " | ".join(programs) + " |\n|---|---" + "|---" * len(programs) + "|")
    for name, size in SHORT.items():
        row = [least[name, k, size] - least[name, k, "1"] for k in range(len(programs) + 1)]
        print(f"| {name} {size} | {row[0]:.4f} | " + " | ".join(f"{it / row[0]:.3f}" for it in row[1:]) + " |")
    return 0


def crews(program, rounds):
    """Prints a table of `gain --top 10` by workers, with the number of functions that it reports."""
    least, functions = {}, {}
    for _ in range(int(rounds)):
        for name, size, *_ in PROGRAMS:
            words = [program, "gain", source(name), size, "--workers"]
            functions[name] = functions.get(name) or subprocess.run([*words, "1"], capture_output=True, text=True).stdout.count("\n") - 2
            for workers in CREWS:
                least[name, workers] = min(least.get((name, workers), 1e9), run_time([*words, workers]))
    print("\n| program, functions | " + " | ".join(f"{workers} workers" for workers in CREWS) + " | speedup with 4 |")
    print("|---" * (len(CREWS) + 2) + "|")
    for name, size, *_ in PROGRAMS:
        row = [least[name, workers] for workers in CREWS]
        print(f"| {name} {size}, {functions[name]} | " + " | ".join(f"{it:.3f}" for it in row) + f" | {row[0] / row[-1]:.2f} |")


def main(program, rounds="15"):
    least, above = {}, 0
    with tempfile.TemporaryDirectory() as folder:
        asked = commands(os.path.abspath(program), folder)
        for _ in range(int(rounds)):
            for name, each in asked.items():
                for kind, command in each.items():
                    least[name, kind] = min(least.get((name, kind), 1e9), processor_time(command))
    print("| program | `run` | C | ratio | limit | `scale` | C with measures | ratio | limit |")
    print("|---|---|---|---|---|---|---|---|---|")
    for name, size, *limits in PROGRAMS:
        cells = [f"{name} {size}"]
        for kind, loop, most in zip(("run", "scale"), ("switch", "measures"), limits):
            ratio = least[name, kind] / least[name, loop]
            above += ratio > most
            cells += [f"{least[name, kind]:.3f}", f"{least[name, loop]:.3f}", f"{ratio:.2f}", f"{most}"]
        print("| " + " | ".join(cells) + " |")
    mean = [sum(least[name, kind] / least[name, loop] for name, *_ in PROGRAMS) / len(PROGRAMS) for kind, loop in (("run", "switch"), ("scale", "measures"))]
    print(f"\nMean ratio {mean[0]:.2f} without measures and {mean[1]:.2f} with them; {above} of {2 * len(PROGRAMS)} ratios above their limit.")
    others(least)
    return above


if __name__ == "__main__":
    if sys.argv[1:2] == ["short"]:
        sys.exit(short(sys.argv[2], sys.argv[3:]) if len(sys.argv) > 3 else __doc__)
    words = [it for it in sys.argv[1:] if it != "gain"]
    if len(words) not in (1, 2):
        sys.exit(__doc__)
    sys.exit((gains if "gain" in sys.argv[2:] else main)(*words) != 0)
