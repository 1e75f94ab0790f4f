#!/usr/bin/env python3
"""Compares runs of the built program with several workers with runs with one worker.

    crew.py PROGRAM same [COUNT [TIMES]]   Each program of examples/ and COUNT random ones (200) is run TIMES times (50) in the modes
                                           run, scale, sites, greedy, speedup and page with 2, 3, 4, 64 workers, each time with another limit, which
                                           no run reaches: both streams and the status must be the ones of one worker. With a
                                           program of `unproved.py OUT stumbling` the limit selects where workers are delayed
    crew.py PROGRAM limits                 each limit from 1 to the cost of a run, on seven programs: the answer of one worker
    crew.py PROGRAM deep                   stolen continuations at each depth, up to the maximum depth and above it
    crew.py PROGRAM refusals               each single allocation fails in turn with 1, 2 and 4 workers: the answer, or only
                                           `memory`; requires gcc, which compiles bench/refuse.c
    crew.py PROGRAM given_up [ROUNDS]      seven programs that trap or exceed their limit, with 2, 4, 16 and 64 workers in three
                                           modes: the answer of one worker and, compared with one worker in the same mode,
                                           at most twice its run time (2.5 times in `run`) plus 50 ms, 4 times its processor
                                           time plus 0.1 s, and twice its memory plus 1 MB for each worker: the minimum
                                           of ROUNDS runs (3), of memory the maximum. With GRIND=1 in the environment only
                                           answers are compared, under valgrind: no byte may be leaked
    crew.py PROGRAM speed [ROUNDS]         run time with 1, 2, 4 and 64 workers, the median (and the minimum) of ROUNDS
                                           interleaved rounds (9), and the speedups; and the run time of four processes with one
                                           worker each that run at once, which shows what the machine can provide. A speedup
                                           by four workers fails if it is below its limit, which assumes a machine on which
                                           four processes have a speedup of 3.8, and if its share of the speedup of four
                                           processes here is below the limit's share of 3.8
    crew.py PROGRAM two [ROUNDS]           time of two workers as a ratio of the time of one worker in mode `run`, for each program
                                           of bench/programs/ and examples/ that can take about 0.1 s: the median of ROUNDS
                                           ratios (15). The run time must not be longer, and the processor time at most 1.15
                                           times as long for fib and the chain. If a ratio is above its limit, three times as many
                                           rounds decide, and then seven times as many
    crew.py PROGRAM shares [ROUNDS]        100,000 spawns of a product with two `const` factors (programs/shares.cilk), with
                                           matrices of 1,000,000 elements and with matrices of 4: the value, then the run time with
                                           1, 2 and 4 workers, the median of ROUNDS interleaved rounds (9) minus the time of the
                                           same run without spawns. The ratio must be about 1, since a spawn copies no element
    crew.py PROGRAM pieces                 memory of stolen continuations: a program of 65,001 call statements whose `main` is a loop
                                           of 60 or 400 spawns of a function of 4.5 million instructions, in the modes run and
                                           sites with 2, 4 and 64 workers: the answer of one worker, and a peak memory of at most
                                           40 MB more than with one; then the same with continuations that call
                                           statements far apart from each other

Random programs are made by bench/reference/gen.py. A run that takes longer than a minute counts as wrong.
"""
import concurrent.futures
import os
import pathlib
import re
import statistics
import subprocess
import sys
import tempfile
import time

HERE = pathlib.Path(__file__).resolve().parent
EXAMPLES = HERE.parent / "examples"
sys.path.insert(0, str(HERE / "reference"))
CREWS = (2, 3, 4, 64)
MOST = 100000000
MEMORY = (6, "", "memory\n")

FIB = """int fib(int n) { if (n < 2) { return n; } int x = 0; int y = 0; x = cilk_spawn fib(n - 1); y = fib(n - 2); cilk_sync; return x + y; }
int main(int n) { int r = 0; r = fib(n); return r; }"""
CHAIN = """int f(int n) { if (n < 1) { return 0; } int x = 0; x = cilk_spawn f(n - 1); cilk_sync; return x + 1; }
int main(int n) { int r = 0; r = f(n); return r; }"""
ARRAYS = """reducer sum s;
void fill(int a[], int v) { int i = 0; while (i < len(a)) { a[i] = v; s += v; i = i + 1; } }
int main() { int a[9]; region cuts { cut a at 4 as l, r { cilk_spawn fill(l, 3); cut r at 2 as m, t { cilk_spawn fill(m, 5); fill(t, 7); } } }
print(a[0] + a[4] * 10 + a[8] * 100); return a[5]; }"""
LOOP = "int main() { int a[12]; cilk_for (int i = 0; i < 12; i++) grain 2 over (a) { a[i] = i * i; print(i); } return a[11]; }"
TRAP = """int bad(int z) { int q = 0; q = 1 / z; return q; }
int main(int z) { print(1); cilk_spawn bad(z); print(7); cilk_sync; return 0; }"""
LINES = "void p(int v) { print(v); } int main() { cilk_spawn p(1); cilk_spawn p(2); print(3); cilk_sync; return 0; }"
READS = """int sum(const int a[], int from, int to) { if (to - from < 2) { return a[from]; } int x = 0; int y = 0; int m = (from + to) / 2;
x = cilk_spawn sum(a, from, m); y = sum(a, m, to); cilk_sync; return x + y; }
int main() { int a[5]; int x = 0; a[0] = 2; a[4] = 7; x = cilk_spawn sum(a, 0, 5); print(len(a)); cilk_sync; a[0] = x; return a[0]; }"""
SMALL = [("fib", FIB, ["7"]), ("chain", CHAIN, ["20"]), ("arrays", ARRAYS, []), ("loop", LOOP, []), ("trap", TRAP, ["0"]), ("lines", LINES, []), ("reads", READS, [])]

# programs that trap or exceed their limit, with their arguments: a recursion without a base case; two parallel ones; a limit that is
# exceeded late; a trap after a loop in a continuation, which another worker may have stolen, with a loop in the spawned call; a
# limit within a loop whose iterations are calls; a trap while 300 endless continuations wait; the same with 64 open regions
NO_BASE = FIB.replace("if (n < 2) { return n; } ", "")
FORK = "void f() { cilk_spawn f(); f(); } int main() { f(); return 0; }"
AFTER_LOOP = """int loop(int n) { int i = 0; while (i < n) { i = i + 1; } return i; }
int main(int n) { int x = 0; int y = 0; x = cilk_spawn loop(n); y = loop(n); y = y / (n - y); cilk_sync; return x + y; }"""
ITERATIONS = "reducer sum s; int main(int n) { cilk_for (int i = 0; i < n; i++) grain 1 { s += i; } return n; }"
CONTINUATIONS = """void endless() { int k = 0; while (k >= 0) { k = 1 - k; } }
int f(int n) { int a[8]; int x = 0; if (n < 1) { return 1 / n; } x = cilk_spawn f(n - 1); endless(); a[1] = n; cilk_sync; return x + a[1]; }
int main(int n) { int r = 0; r = f(n); return r; }"""
REGIONS = """void endless() { int k = 0; while (k >= 0) { k = 1 - k; } }
int f(int n) { int x = 0; if (n < 1) { return 1 / n; } region inner { x = cilk_spawn f(n - 1); endless(); cilk_sync; } return x; }
int main(int n) { int r = 0; r = f(n); return r; }"""
GIVEN_UP = [
    ("no_base", NO_BASE, ["30"]),
    ("fork", FORK, []),
    ("limit", FIB, ["60", "--limit", "100000000"]),
    ("after_loop", AFTER_LOOP, ["10000000"]),
    ("iterations", ITERATIONS, ["1000000", "--limit", "20000000"]),
    ("continuations", CONTINUATIONS, ["300"]),
    ("regions", REGIONS, ["64"]),
]
GRIND = ["valgrind", "-q", "--leak-check=full", "--show-leak-kinds=all", "--errors-for-leak-kinds=all", "--error-exitcode=99"]

# programs of examples/ and of programs/ with a size for which they take about 0.1 s (the others end at once), and the limit of the
# processor time of two workers as a multiple of the time of one; NOISE is the limit of the run time. If a ratio is above its
# limit, twice as many rounds follow, and then four times as many: the median of all of them decides
NOISE = 1.03
MORE = (1, 2, 4)
TWO = [(f"examples/{name}", words.split(), most) for name, words, most in (
    ("collatz", "50000", 2), ("dot", "1600000", 2), ("fib", "31", 1.15), ("fib_cutoff", "31", 2), ("histogram", "3000000", 2),
    ("longest", "40000", 2), ("matrix", "200", 2), ("mergesort", "100000", 2), ("mergesort_parallel", "80000", 2), ("prefix", "800000", 2),
    ("primes", "250000", 2), ("primes_each", "200000", 2), ("primes_loop", "200000", 2), ("quarters", "128", 2), ("queens", "10", 2),
    ("roots", "400000", 2), ("roots_mended", "400000", 2), ("stencil", "200000 10", 2),
)] + [(f"bench/programs/{name}", words.split(), most) for name, words, most in (
    ("chain", "4000", 1.15), ("factors", "160", 2), ("loop", "10000", 2), ("matrix", "160", 2), ("shares", "2 200000", 2), ("sieve", "2000000", 2),
)]
# programs with their arguments, and the least speedup by four workers on a machine on which four processes have the speedup
# GIVEN; the last one, a loop of spawns without a sync, has no limit
SPEED = [("mergesort_parallel", ["400000"], 3.6), ("matrix_large", ["160"], 3.6), ("factors", ["160"], 3.6), ("fib_cutoff", ["32"], 3.6), ("fib", ["29"], 3.0), ("loop", ["10000"], 0)]
GIVEN = 3.8
MATRIX = """// rows of a product, each in its own call
void row(int a[], int b[], int c[], int n) { int j = 0; int k = 0; int t = 0; while (j < n) { t = 0; k = 0; while (k < n) { t = t + a[k] * b[k * n + j]; k = k + 1; } c[j] = t; j = j + 1; } }
void rows(int n, int seed, int c[]) { int a[n]; int b[n * n]; int i = 0; while (i < n) { a[i] = i + seed; i = i + 1; } i = 0; while (i < n * n) { b[i] = i - seed; i = i + 1; } row(a, b, c, n); }
void product(int n, int from, int to, int c[]) { int m = 0; if (to - from == 1) { rows(n, from, c); return; } m = (from + to) / 2; cut c at (m - from) * n as l, r { cilk_spawn product(n, from, m, l); product(n, m, to, r); } }
int main(int n) { int c[n * n]; product(n, 0, n, c); return c[n * n - 1]; }
"""

# spawns of programs/shares.cilk, numbers of workers, numbers in a row of its matrices, and the limit of the ratio of the run times
# with the larger matrices and with the smaller ones
SPAWNS, SHARERS, SIDES, MOST_RATIO = "100000", (1, 2, 4), ("1000", "2"), 1.25

# call statements outside of the spawned function and `main`, spawns, numbers of workers, and the MB that these may use in addition to
# the memory of one worker
STATEMENTS, PIECES, HOLDERS, MOST_MORE = 65000, ("60", "400"), (2, 4, 64), 40
WORK = "void work() { int i = 0; while (i < 500000) { i = i + 1; } }"
ROUND = "int main(int n) { int i = 0; while (i < n) { cilk_spawn work(); CALLS i = i + 1; } cilk_sync; return i; }"


def asked(program, words, environment=None):
    """Returns the status and both streams of one run."""
    try:
        done = subprocess.run([program, *words], capture_output=True, text=True, timeout=60, env=environment)
    except subprocess.TimeoutExpired:
        return None, "", "no answer within a minute"
    return done.returncode, done.stdout, done.stderr


def differs(program, words, workers, expected):
    """Returns whether a run with a number of workers has another answer than `expected`; prints it."""
    found = asked(program, [*words, "--workers", str(workers)])
    if found != expected:
        print("BAD", *words[:2], "with", workers, "workers: expected", expected, "answered", found)
    return found != expected


def random_programs(folder, count):
    from gen import Generator

    for seed in range(count):
        source = Generator(seed, True, True).program()
        path = folder / f"{seed}.cilk"
        path.write_text(source)
        params = re.search(r"int main\(([^)]*)\)", source).group(1)
        yield path, [str((seed * 7 + place * 3) % 11) for place in range(params.count("int"))]


def examples():
    for path in sorted(EXAMPLES.glob("*.cilk")):
        words = path.with_suffix(".args")
        yield path, words.read_text().split() if words.exists() else []


def same(program, count="200", times="50"):
    wrong = runs = 0
    with tempfile.TemporaryDirectory() as folder, concurrent.futures.ThreadPoolExecutor(3) as pool:
        for path, arguments in [*examples(), *random_programs(pathlib.Path(folder), int(count))]:
            for mode in (["run"], ["scale"], ["sites"], ["greedy", "3"], ["speedup"], ["page"]):
                words = [*mode, str(path), *arguments, "--limit"]
                expected = asked(program, [*words, str(MOST), "--workers", "1"])
                tries = [pool.submit(differs, program, [*words, str(MOST + k)], workers, expected) for workers in CREWS for k in range(int(times))]
                wrong += sum(it.result() for it in tries)
                runs += len(tries)
    print(runs, "runs with several workers compared with one:", wrong, "wrong")
    return wrong


def limits(program):
    wrong = runs = 0
    with tempfile.TemporaryDirectory() as folder:
        for name, source, arguments in SMALL:
            path = pathlib.Path(folder) / f"{name}.cilk"
            path.write_text(source)
            limit = 0
            while True:
                limit += 1
                words = ["scale", str(path), *arguments, "--limit", str(limit)]
                expected = asked(program, [*words, "--workers", "1"])
                wrong += sum(differs(program, words, workers, expected) for workers in CREWS)
                runs += len(CREWS)
                if expected[0] != 4:
                    break
    print(runs, "runs within each limit:", wrong, "wrong")
    return wrong


def deep(program):
    wrong = 0
    rows = [("300", (0, "return 300\n", "")), ("9998", (0, "return 9998\n", "")), ("9999", (3, "", "trap 6 line 1\n"))]
    with tempfile.TemporaryDirectory() as folder:
        path = pathlib.Path(folder) / "chain.cilk"
        path.write_text(CHAIN)
        for depth, expected in rows:
            for workers in (1, *CREWS):
                for _ in range(10):
                    wrong += differs(program, ["run", str(path), depth], workers, expected)
    print("nested spawns, 300 and 9,998 deep, and one too deep:", wrong, "wrong")
    return wrong


def refusals(program):
    wrong = 0
    with tempfile.TemporaryDirectory() as folder:
        library, count = f"{folder}/refuse.so", f"{folder}/count"
        subprocess.run(["gcc", "-O2", "-shared", "-fPIC", "-o", library, str(HERE / "refuse.c")], check=True)
        for name, source, arguments in SMALL:
            path = pathlib.Path(folder) / f"{name}.cilk"
            path.write_text(source)
            for workers in (1, 2, 4):
                words = ["scale" if name in ("fib", "loop") else "run", str(path), *arguments, "--workers", str(workers)]

                def run(refused):
                    return asked(program, words, {"LD_PRELOAD": library, "REFUSE": str(refused), "REFUSE_COUNT": count})

                whole, calls = run(0), int(pathlib.Path(count).read_text())
                # with several workers the number of allocations varies from run to run: try a few more
                found = [run(refused) for refused in range(1, calls + 1 + 8 * (workers - 1))]
                bad = [got for got in found if got not in (whole, MEMORY)]
                wrong += len(bad)
                print(f"{name}, {workers} workers: {len(found)} allocations, each fails in turn: {found.count(MEMORY)} times `memory`, {found.count(whole)} times the answer", *(["BAD", bad[:3]] if bad else []))
    return wrong


def seconds(commands):
    """Returns the run time of commands that start at once, up to the end of the last one."""
    began = time.perf_counter()
    running = [subprocess.Popen(it, stdout=subprocess.DEVNULL) for it in commands]
    for it in running:
        it.wait()
    return time.perf_counter() - began


def taken(command):
    """Returns the run time and the processor time of a command."""
    began = time.perf_counter()
    running = subprocess.Popen(command, stdout=subprocess.DEVNULL)
    used = os.wait4(running.pid, 0)[2]
    return time.perf_counter() - began, used.ru_utime + used.ru_stime


def speed(program, rounds="9"):
    crews = (1, 2, 4, 64)
    short = 0
    with tempfile.TemporaryDirectory() as folder:
        for name, arguments, expected in SPEED:
            path = next((it for it in (EXAMPLES / f"{name}.cilk", HERE / "programs" / f"{name}.cilk") if it.exists()), None)
            if not path:
                path = pathlib.Path(folder) / f"{name}.cilk"
                path.write_text(MATRIX)
            command = [program, "scale", str(path), *arguments, "--limit", "100000000000", "--workers"]
            took = {it: [] for it in (*crews, "apart")}
            for _ in range(int(rounds)):
                for workers in crews:
                    took[workers].append(seconds([[*command, str(workers)]]))
                took["apart"].append(seconds([[*command, "1"]] * 4))
            mid = {it: statistics.median(times) for it, times in took.items()}
            gains, machine = mid[1] / mid[4], 4 * mid[1] / mid["apart"]
            short += gains < expected and gains / machine < expected / GIVEN
            print(f"{name} {' '.join(arguments)}: " + "  ".join(f"{it}: {mid[it]:.3f} s ({min(took[it]):.3f})" for it in took), flush=True)
            ratios = "  ".join(f"1 by {workers}: {mid[1] / mid[workers]:.2f}" for workers in crews[1:])
            print(f"    {ratios}  (1 by 4 expected: {expected}; speedup of four processes {machine:.2f}, share of four workers {gains / machine:.2f})", flush=True)
    return short


def both(command, took, rounds):
    """Adds `rounds` runs of a command with one and with two workers; returns the medians of one worker and of the ratios."""
    for number in range(rounds):
        # one and two workers alternate as the first; other work on the machine affects both runs of a round alike, so the ratio of a round counts
        for workers in (("1", "2"), ("2", "1"))[number % 2]:
            took[workers].append(taken([*command, workers]))
    one = [statistics.median(it) for it in zip(*took["1"])]
    return one, [statistics.median(b / a for a, b in zip(*it)) for it in zip(*(zip(*found) for found in took.values()))]


def two(program, rounds="15"):
    slow = 0
    for name, arguments, most in TWO:
        command = [program, "run", str(HERE.parent / f"{name}.cilk"), *arguments, "--limit", "100000000000", "--workers"]
        took = {workers: [] for workers in ("1", "2")}
        for more in MORE:
            one, (clock, processor) = both(command, took, more * int(rounds))
            bad = ["clock"] * (clock > NOISE) + ["processor"] * (processor > most)
            if not bad:
                break
        slow += bool(bad)
        print(f"{name} {' '.join(arguments)}: one worker {one[0]:.3f} s, processor {one[1]:.3f} s; two workers {clock:.2f} times the run time, {processor:.2f} times the processor time, in {len(took['1'])} rounds", *(["BAD", *bad] if bad else []), flush=True)
    return slow


def measured(words):
    """Returns the answer of a run, its run time, its processor time, and its peak memory in bytes."""
    with tempfile.TemporaryDirectory() as folder:
        output, used = pathlib.Path(folder) / "output", pathlib.Path(folder) / "used"
        with output.open("wb") as out:
            began = time.perf_counter()
            # a small process starts the program, since the memory of the starting process counts as the memory of the program
            status = subprocess.run(["/usr/bin/time", "-q", "-o", str(used), "-f", "%U %S %M", "timeout", "60", *words], stdout=out, stderr=subprocess.STDOUT).returncode
            took = time.perf_counter() - began
        user, system, kilobytes = used.read_text().split()
        return (status, output.read_bytes()), took, float(user) + float(system), 1024 * int(kilobytes)


def least(words, rounds):
    """Returns the answers of `rounds` runs, the minimum of run time and of processor time, and the maximum of memory."""
    found = [measured(words) for _ in range(rounds)]
    return {it[0] for it in found}, min(it[1] for it in found), min(it[2] for it in found), max(it[3] for it in found)


def grinds(program, path, words):
    """Returns the number of runs under valgrind that leak or have another answer."""
    wrong = 0
    expected = asked(program, ["run", path, *words, "--workers", "1"])
    for workers in ("2", "4", "16"):
        found = asked("valgrind", [*GRIND[1:], program, "run", path, *words, "--workers", workers])
        print("BAD" if found != expected else "ok ", "valgrind", pathlib.Path(path).stem, "with", workers, "workers", found if found != expected else "", flush=True)
        wrong += found != expected
    return wrong


def given_up(program, rounds="3"):
    wrong = 0
    with tempfile.TemporaryDirectory() as folder:
        for name, source, words in GIVEN_UP:
            path = pathlib.Path(folder) / f"{name}.cilk"
            path.write_text(source)
            if "GRIND" in os.environ:
                # valgrind is slow: divide large arguments by 100
                wrong += grinds(program, str(path), [str(int(it) // 100) if it.isdigit() and int(it) > 99999 else it for it in words])
                continue
            for mode, times in (("run", 2.5), ("scale", 2), ("sites", 2)):
                command = [program, mode, str(path), *words, "--workers"]
                answer, clock, processor, memory = least([*command, "1"], int(rounds))
                cells = [f"1: {clock:.3f} s {processor:.3f} s {memory / 1e6:.1f} MB"]
                for workers in (2, 4, 16, 64):
                    found, *used = least([*command, str(workers)], int(rounds))
                    most = times * clock + 0.05, 4 * processor + 0.1, 2 * memory + 1e6 * workers
                    bad = ["answer"] * (found != answer) + [it for it, have, may in zip(("clock", "processor", "memory"), used, most) if have > may]
                    wrong += bool(bad)
                    cells.append(f"{workers}: {used[0]:.3f} s {used[1]:.3f} s {used[2] / 1e6:.1f} MB" + "".join(f" BAD {it}" for it in bad))
                print(f"{name} {mode}: " + "  ".join(cells), flush=True)
    return wrong


def shares(program, rounds="9"):
    path, wrong = str(HERE / "programs" / "shares.cilk"), 0
    for workers in map(str, SHARERS):
        run = {(side, spawns): ["run", path, side, spawns, "--workers", workers] for side in SIDES for spawns in ("0", SPAWNS)}
        found = [asked(program, run[side, SPAWNS]) for side in SIDES]
        if found != [(0, f"return {2 * (int(SPAWNS) - 1)}\n", "")] * len(SIDES):
            print("BAD shares with", workers, "workers:", found)
            wrong += 1
            continue
        took = {it: [] for it in run}
        for _ in range(int(rounds)):
            for it in run:
                took[it].append(seconds([[program, *run[it]]]))
        large, small = (statistics.median(took[side, SPAWNS]) - statistics.median(took[side, "0"]) for side in SIDES)
        wrong += large > MOST_RATIO * small
        print(f"shares, workers {workers}: with 1,000,000 elements {large:.3f} s, with 4 {small:.3f} s, ratio {large / small:.2f} (at most {MOST_RATIO})", flush=True)
    return wrong


def of_many_statements(calls):
    """Returns a program of 65,001 call statements: functions of 64 calls each, and a loop of spawns that calls some of them."""
    empty = [f"void f{first}() {{ {'none(); ' * min(64, STATEMENTS - len(calls) - first)}}}" for first in range(0, STATEMENTS - len(calls), 64)]
    return "\n".join(["void none() { }", *empty, WORK, ROUND.replace("CALLS", " ".join(f"f{64 * it}();" for it in calls))]) + "\n"


def memory(program, words):
    """Returns the status with both streams, and the peak memory in MB, of one run."""
    with tempfile.TemporaryFile() as out, tempfile.TemporaryFile() as said:
        running = subprocess.Popen(["timeout", "60", program, *words], stdout=out, stderr=said)
        _, status, used = os.wait4(running.pid, 0)
        running.returncode = os.waitstatus_to_exitcode(status)
        out.seek(0)
        said.seek(0)
        return (running.returncode, out.read(), said.read()), used.ru_maxrss / 1024


def pieces(program):
    wrong = 0
    with tempfile.TemporaryDirectory() as folder:
        for name, calls in (("near", []), ("far", range(0, 1000, 250))):
            path = pathlib.Path(folder) / f"{name}.cilk"
            path.write_text(of_many_statements(calls))
            for mode in ("run", "sites"):
                for count in PIECES:
                    words = [mode, str(path), count, "--limit", "100000000000", "--workers"]
                    expected, single = memory(program, [*words, "1"])
                    cells = [f"1: {single:.0f} MB"]
                    for workers in HOLDERS:
                        found, used = memory(program, [*words, str(workers)])
                        wrong += found != expected or used > single + MOST_MORE
                        cells.append(f"{workers}: {used:.0f} MB" + ("" if found == expected else " BAD"))
                    print(f"{name}, {mode}, {count} spawns, workers {'  '.join(cells)} (at most {MOST_MORE} MB more than one)", flush=True)
    return wrong


if __name__ == "__main__":
    parts = {"same": same, "limits": limits, "deep": deep, "refusals": refusals, "given_up": given_up, "speed": speed, "two": two, "shares": shares, "pieces": pieces}
    if len(sys.argv) < 3 or sys.argv[2] not in parts:
        sys.exit(__doc__)
    bad = parts[sys.argv[2]](str(pathlib.Path(sys.argv[1]).resolve()), *sys.argv[3:])
    print("all as expected" if not bad else f"{bad} not as expected")
    sys.exit(bad != 0)
