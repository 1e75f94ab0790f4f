"""Tests the built program with hostile sources, limits and environments.

    python3 bench/hostile.py PROGRAM PART

    rows      hostile sources with known answers, on a stack of 1 MiB
    limits    every limit from 1 to 400 on six programs that together use every instruction
    sources   the slowest sources of about 1 MiB of each kind: time and memory of `check`
    verifier  sources of 1 MiB that are slow for the verifier: time and memory of `check`
    cuts      100,000 cuts of an array of 16,777,216 elements, whose parts are passed to calls
    arrays    an array of 16,777,216 elements that each iteration of a loop declares: memory holds only one at a time
    paths     runs with long paths: spawns without a join, long paths below many joins
    greedy    schedules of 1,000,000 strands: processor time, memory, and the same lengths with several workers
    memory    six programs with less and less memory: the answer, or `memory`
    explain   sources that are slow to explain, and a search for slower ones: time, memory and length of the output of
              `check --explain`, compared with `check`
    refusals  each single allocation of twelve runs and checks fails in turn: the answer, or only `memory`; requires gcc,
              which compiles bench/refuse.c

The last line is `all as expected`, or the number of cases that differ; then the status is 1. Expected answers follow from
the rules of docs/LANGUAGE.md.
"""

import os
import pathlib
import random
import resource
import subprocess
import sys
import tempfile
import time

STACK = 1 << 20
MOST_SECONDS = 2.0
MOST_BYTES = 600 << 20
# limits of processor time and memory for each source of verify_sources.py
VERIFIER_SECONDS = 1.5
VERIFIER_BYTES = 300 << 20


def answer(program, words, source, memory=None):
    """Returns the status, standard output, standard error, seconds and peak memory in bytes of one run."""
    with tempfile.NamedTemporaryFile("w", suffix=".cilk") as file:
        file.write(source)
        file.flush()

        def limits():
            resource.setrlimit(resource.RLIMIT_STACK, (STACK, STACK))
            if memory is not None:
                resource.setrlimit(resource.RLIMIT_AS, (memory, memory))

        began = time.monotonic()
        # files, because `communicate` does not work after `wait4`, which returns the resources of this child only
        with tempfile.TemporaryFile() as out, tempfile.TemporaryFile() as err:
            child = subprocess.Popen(
                [program, words[0], file.name, *words[1:]],
                stdin=subprocess.DEVNULL,
                stdout=out,
                stderr=err,
                preexec_fn=limits,
            )
            _, ended, used = os.wait4(child.pid, 0)
            seconds = time.monotonic() - began
            child.returncode = os.waitstatus_to_exitcode(ended)
            out.seek(0)
            err.seek(0)
            return child.returncode, out.read().decode(), err.read().decode(), seconds, used.ru_maxrss << 10


def returns(value):
    return 0, f"return {value}\n", ""


def refused(number, line=1):
    return 2, "", f"refused {number} line {line}\n"


def trap(number, line=1):
    return 3, "", f"trap {number} line {line}\n"


OVER = (4, "", "over limit\n")
CALLS = "int f(){return 0;}int main(){" + "f();" * 65535 + "return 0;}"
RECURSION = (
    "int f(int n) { if (n < 1) { return 0; } int x = 0; x = cilk_spawn f(n - 1); cilk_sync; return x + 1; }"
    " int main(int n) { int r = 0; r = f(n); return r; }"
)
LOOP = "int main() {{ cilk_for (int i = {}; i < 9223372036854775807; i++) {{ }} return 0; }}"
ROWS = [
    ("63 parentheses", "int main(){return " + "(" * 63 + "0" + ")" * 63 + ";}", ["run"], returns(0)),
    ("64 parentheses", "int main(){return " + "(" * 64 + "0" + ")" * 64 + ";}", ["run"], refused(5)),
    ("254 signs at their cost", "int main(){return " + "-" * 254 + "1;}", ["run", "--limit", "256"], returns(1)),
    ("254 signs, one less", "int main(){return " + "-" * 254 + "1;}", ["run", "--limit", "255"], OVER),
    ("255 signs", "int main(){return " + "-" * 255 + "1;}", ["run"], refused(5)),
    ("65,535 call statements", CALLS, ["run", "--limit", "196607"], returns(0)),
    ("65,535 call statements, one less", CALLS, ["run", "--limit", "196606"], OVER),
    ("65,536 call statements", CALLS.replace("main(){", "main(){f();"), ["run"], refused(5)),
    ("2^64 - 1 iterations", LOOP.format("-9223372036854775807 - 1"), ["run"], trap(5)),
    ("one iteration at the largest number", LOOP.format("9223372036854775806"), ["run", "--limit", "30"], returns(0)),
    ("one iteration, one less", LOOP.format("9223372036854775806"), ["run", "--limit", "29"], OVER),
    ("depth 10,000", RECURSION, ["run", "9998"], returns(9998)),
    ("depth 10,001", RECURSION, ["run", "9999"], trap(6)),
    (
        "257 declarations",
        "int main(){" + "".join(f"int x{n}=0;" for n in range(257)) + "return 0;}",
        ["run"],
        refused(5),
    ),
    ("a tag of 33 bytes", "int main(){region " + "t" * 33 + " { } return 0;}", ["run"], refused(5)),
    ("a tag of 32 bytes", "int main(){region " + "t" * 32 + " { } return 0;}", ["run"], returns(0)),
    ("2^63 as a number", "int main(){return 9223372036854775808;}", ["run"], refused(1)),
    ("the smallest number divided by -1", "int main(){int a=-9223372036854775807-1;return a/(0-1);}", ["run"], trap(1)),
    ("an endless loop", "int main(){while(1){}return 0;}", ["run", "--limit", "1000000"], OVER),
    ("an array too long", "int main(){int a[16777217];return 0;}", ["run"], trap(4)),
    ("an array of negative length", "int main(){int a[0-1];return 0;}", ["run"], trap(4)),
]

# programs that together use every instruction, with the output of `run`
PROGRAMS = [
    (
        "int fib(int n) { if (n < 2) { return n; } int x = 0; int y = 0; x = cilk_spawn fib(n - 1); y = fib(n - 2);"
        " cilk_sync; return x + y; } int main() { int r = 0; r = fib(5); print(r); return r; }",
        "5\nreturn 5\n",
    ),
    (
        "int fill(int a[], int v) { a[0] = v; return len(a); } int main() { int a[4]; int x = 0; int y = 0;"
        " cut a at 2 as l, r { x = cilk_spawn fill(l, 5); y = fill(r, 7); } print(x * y); return a[0] * 10 + a[2]; }",
        "4\nreturn 57\n",
    ),
    (
        "int main() { int a[4]; cilk_for (int i = 0; i < 4; i++) grain 2 over (a) { a[i] = i * i; }"
        " print(a[3]); return 0; }",
        "9\nreturn 0\n",
    ),
    (
        "reducer sum s; void add(int v) { s += v; } int main() { region out { cilk_scope { cilk_spawn add(3);"
        " cilk_spawn add(-5); } } if (!0) { print(7 % 4); } else { print(0); } return 2; }",
        "3\nsum s = -2\nreturn 2\n",
    ),
    (
        "void p(int v) { print(v); } int main() { cilk_spawn p(1); cilk_spawn p(2); print(3); cilk_sync;"
        " int n = 3; while (n >= 1) { n = n - 1; } return n; }",
        "1\n2\n3\nreturn 0\n",
    ),
    (
        "int get(const int a[], int i) { return a[i] + len(a); } int both(const int a[], const int b[]) { int x = 0;"
        " x = cilk_spawn get(a, 0); cilk_sync; return x + b[1]; } int main() { int a[2]; int x = 0; a[1] = 5;"
        " x = cilk_spawn both(a, a); print(a[1]); cilk_sync; cut a at 1 as l, r { l[0] = x; } return a[0]; }",
        "5\nreturn 7\n",
    ),
]


def rows(program):
    wrong = 0
    for name, source, words, expected in ROWS:
        got = answer(program, words, source)
        fine = got[:3] == expected
        wrong += not fine
        print(f"{'ok ' if fine else 'BAD'} {name}: {got[3]:.2f} s" + ("" if fine else f", got {got[:3]}, expected {expected}"))
    return wrong


def limits(program):
    wrong = 0
    for number, (source, text) in enumerate(PROGRAMS):
        cost = None
        for limit in range(1, 401):
            got = answer(program, ["run", "--limit", str(limit)], source)
            if got[:3] == (0, text, ""):
                cost = cost or limit
            elif got[:3] != OVER or cost is not None:
                wrong += 1
                print(f"BAD program {number} within {limit}: {got[:3]}")
        print(f"program {number}: over limit up to {cost - 1 if cost else 400}, then its answer")
        wrong += cost is None
    return wrong


def sources(program):
    here = pathlib.Path(__file__).parent
    wrong = 0
    with tempfile.TemporaryDirectory() as folder:
        for kind in ("parse", "type"):
            subprocess.run([sys.executable, str(here / f"{kind}_sources.py"), f"{folder}/{kind}"], check=True)
        for path in sorted(pathlib.Path(folder).glob("*/*.cilk")):
            if path.stem.endswith(("_half", "_tree")):
                continue
            status, said, seconds, _, peak = checked(program, path)
            fine = status in (0, 2) and seconds <= MOST_SECONDS and peak <= MOST_BYTES
            wrong += not fine
            print(f"{'ok ' if fine else 'BAD'} {path.parent.name} {path.stem}: {path.stat().st_size} bytes, {seconds:.2f} s, {peak >> 20} MiB, {said}")
    return wrong


def checked(program, path):
    """Returns the status of a check, its first line of output, its run time, its processor time, and its peak memory in bytes."""
    timed = subprocess.run(
        ["/usr/bin/env", "bash", "-c", f"ulimit -s {STACK >> 10}; exec /usr/bin/time -f '%e %U %M' {program} check {path}"],
        capture_output=True,
        text=True,
    )
    last = timed.stderr.strip().splitlines()[-1].split()
    said = (timed.stdout + timed.stderr).splitlines()[0]
    return timed.returncode, said, float(last[0]), float(last[1]), int(last[2]) << 10


def verifier(program):
    script = pathlib.Path(__file__).parent / "verify_sources.py"
    wrong = 0
    with tempfile.TemporaryDirectory() as folder:
        subprocess.run([sys.executable, str(script), folder], check=True)
        for path in sorted(pathlib.Path(folder).glob("*.cilk")):
            status, said, _, seconds, peak = checked(program, path)
            fine = (status, said) == (0, "ok") and seconds <= VERIFIER_SECONDS and peak <= VERIFIER_BYTES
            wrong += not fine
            print(f"{'ok ' if fine else 'BAD'} {path.stem}: {path.stat().st_size} bytes, {seconds:.2f} s, {peak >> 20} MiB, {said}")
    return wrong


CUTS = (
    "void f(int a[]) { } int main() { int a[16777216]; int n = 0; while (n < 100000) {"
    " cut a at n as l, r { cilk_spawn f(l); f(r); } n = n + 1; } return n; }"
)


def cuts(program):
    got = answer(program, ["run"], CUTS)
    fine = got[:3] == returns(100000) and got[3] < 1.0
    print(f"{'ok ' if fine else 'BAD'} 100,000 cuts of 16,777,216 elements: {got[3]:.2f} s, {got[:3]}")
    return not fine


# an array of this program takes 128 MiB
DECLARED = "int main() { int n = 0; while (n < 30) { int a[16777216]; a[n] = 1; n = n + 1; } return n; }"
DECLARED_BYTES = 160 << 20


def arrays(program):
    got = answer(program, ["run"], DECLARED)
    fine = got[:3] == returns(30) and got[3] <= 6.0 and got[4] <= DECLARED_BYTES
    print(f"{'ok ' if fine else 'BAD'} 30 arrays of 16,777,216 elements, one at a time: {got[3]:.2f} s, {got[4] >> 20} MiB, {got[:3]}")
    return not fine


# 11 instructions and one burden for each iteration, 10 of the instructions on the path; 6 for the rest
SPAWNS = "void f() { } int main(int n) { while (n > 0) { cilk_spawn f(); n = n - 1; } return 0; }"
SCALE = "tag,work,span,parallelism,burdened_span,burdened_parallelism\n"
# 65,000 sites on one path, and 220,000 joins with a short child
DEEP = (
    "void e() { }\nvoid l() { " + "e(); " * 65000 + "}\nvoid g(int n) { if (n < 1) { l(); return; } "
    + "cilk_scope { cilk_spawn e(); " * 55 + "g(n - 1); " + "} " * 55 + "}\nint main(int n) { g(n); return 0; }\n"
)
SITES = "site,kind,line,callee,calls,own_work,own_span,work,span\n"
# name, source, arguments, start of the output, maximum of seconds, maximum of bytes
PATHS = [
    (
        "10,000,000 spawns without a join",
        SPAWNS,
        ["scale", "10000000", "--limit", "2000000000"],
        SCALE + ",110000006,100000006,1.099,150100000006,0.000\n",
        3.0,
        16 << 20,
    ),
    (
        "100,000,000 spawns without a join",
        SPAWNS,
        ["scale", "100000000", "--limit", "2000000000"],
        SCALE + ",1100000006,1000000006,1.099,1501000000006,0.000\n",
        30.0,
        16 << 20,
    ),
    (
        "65,000 sites on a path below 220,000 joins",
        DEEP,
        ["sites", "4000"],
        SITES + "0,root,4,main,1,4,4,1046011,826011\n",
        1.5,
        300 << 20,
    ),
]


def paths(program):
    wrong = 0
    for name, source, words, begins, seconds, most in PATHS:
        status, out, err, taken, peak = answer(program, words, source)
        fine = (status, err) == (0, "") and out.startswith(begins) and taken <= seconds and peak <= most
        wrong += not fine
        said = "" if fine else f", got {status}, {out[:200]!r}, {err!r}"
        print(f"{'ok ' if fine else 'BAD'} {name}: {taken:.2f} s, {peak >> 20} MiB{said}")
    return wrong


# a `cilk_for` with 333,334 iterations has 1,000,000 strands, the maximum
STRANDS = "int main() {{ cilk_for (int i = 0; i < {}; i++) grain 1 {{ }} return 0; }}"
GREEDY_SECONDS, GREEDY_BYTES = 2.0, 100 << 20
ROWS, SCHEDULE_BYTES = 21, 60 << 20  # rows of `speedup` up to 1,000,000 processors; what each further worker may take for a schedule


def scheduled(program, words, iterations):
    """Returns the status, both streams, the processor time and the peak memory of a run of `STRANDS`."""
    with tempfile.NamedTemporaryFile("w", suffix=".cilk") as file, tempfile.TemporaryFile() as out, tempfile.TemporaryFile() as err:
        file.write(STRANDS.format(iterations))
        file.flush()
        child = subprocess.Popen([program, *words[:2], file.name, *words[2:]], stdin=subprocess.DEVNULL, stdout=out, stderr=err)
        _, ended, used = os.wait4(child.pid, 0)
        child.returncode = os.waitstatus_to_exitcode(ended)
        out.seek(0)
        err.seek(0)
        return child.returncode, out.read().decode(), err.read().decode(), used.ru_utime + used.ru_stime, used.ru_maxrss << 10


def greedy(program):
    wrong = 0
    for processors in (1, 2, 16, 1000, 1000000):
        reports = []
        for workers in (1, 4):
            words = ["greedy", str(processors), "--workers", str(workers)]
            status, out, err, seconds, peak = scheduled(program, words, 333334)
            reports.append(out)
            fine = (status, err) == (0, "") and out == reports[0] and seconds < GREEDY_SECONDS and peak <= GREEDY_BYTES
            wrong += not fine
            last = (out or err).strip().splitlines()[-1]
            print(f"{'ok ' if fine else 'BAD'} {processors} processors, {workers} workers: {last}, {seconds:.2f} s of a processor, {peak >> 20} MiB")
    reports = []
    for workers in (1, 4, 64):
        words = ["speedup", f"--workers={workers}", "--processors", "1000000"]
        status, out, err, seconds, peak = scheduled(program, words, 333334)
        reports.append(out)
        most = GREEDY_BYTES + (min(workers, ROWS) - 1) * SCHEDULE_BYTES
        fine = (status, err) == (0, "") and out.count("\n") == ROWS + 1 and out == reports[0] and seconds < ROWS * GREEDY_SECONDS and peak <= most
        wrong += not fine
        print(f"{'ok ' if fine else 'BAD'} speedup, {workers} workers: {seconds:.2f} s of a processor, {peak >> 20} MiB")
    for workers in (1, 4, 64):
        status, out, err, *_ = scheduled(program, ["greedy", "1", "--workers", str(workers)], 333335)
        fine = (out, err) == ("", "too many strands\n")
        wrong += not fine
        print(f"{'ok ' if fine else 'BAD'} 1,000,003 strands, {workers} workers: status {status}, {err.strip()}")
    return wrong


def memory(program):
    wrong = 0
    for number, (source, text) in enumerate(PROGRAMS):
        for kib in range(1024, 16384, 256):
            got = answer(program, ["run"], source, kib << 10)
            said = "memory" if got[:3] == (6, "", "memory\n") else "answer" if got[:3] == (0, text, "") else "start"
            if said == "start" and got[0] in (0, 6):
                wrong += 1
                print(f"BAD program {number} in {kib} KiB: {got[:3]}")
        print(f"program {number}: with each size of memory its answer, `memory`, or no start")
    return wrong


# programs that trap, are rejected or use everything that allocates: arguments, source, and the answer if no allocation fails
REFUSALS = [
    *[(["run"], source, (0, text, "")) for source, text in PROGRAMS],
    (
        ["run", "0"],
        "int main(int z) { int i = 0; while (i < 40) { print(i); i = i + 1; } return 1 / z; }",
        (3, "".join(f"{i}\n" for i in range(40)), "trap 2 line 1\n"),
    ),
    (["check"], "int main() { int a[2]; cut a at 1 as l, r { print(len(a)); } return 0; }", (2, "", "refused 4 line 1\n")),
    (["check"], "int main() { return x; }", (2, "", "refused 3 line 1\n")),
    (["check"], "int main() { return 0; } }", (2, "", "refused 2 line 1\n")),
    (
        ["scale", "--burden", "0"],
        "reducer sum s; int main() { region t { cilk_for (int i = 0; i < 4; i++) grain 2 { s += i; } } return 0; }",
        (
            0,
            "tag,work,span,parallelism,burdened_span,burdened_parallelism\n"
            ",108,68,1.588,68,1.588\nt,104,64,1.625,64,1.625\n",
            "",
        ),
    ),
    (
        ["sites", "3"],
        "int f(int n) { if (n < 2) { return n; } int x = 0; int y = 0; x = cilk_spawn f(n - 1); y = f(n - 2); cilk_sync;"
        " return x + y; } int main(int n) { int r = 0; r = f(n); return r; }",
        None,
    ),
]


def refusals(program):
    here = pathlib.Path(__file__).parent
    wrong = 0
    with tempfile.TemporaryDirectory() as folder:
        library, count = f"{folder}/refuse.so", f"{folder}/count"
        subprocess.run(["gcc", "-O2", "-shared", "-fPIC", "-o", library, str(here / "refuse.c")], check=True)
        for number, (words, source, expected) in enumerate(REFUSALS):
            path = f"{folder}/{number}.cilk"
            pathlib.Path(path).write_text(source)

            def run(refused):
                done = subprocess.run(
                    [program, words[0], path, *words[1:]],
                    capture_output=True,
                    text=True,
                    env={"LD_PRELOAD": library, "REFUSE": str(refused), "REFUSE_COUNT": count},
                )
                return done.returncode, done.stdout, done.stderr

            whole = run(0)
            wrong += expected is not None and whole != expected
            calls = int(pathlib.Path(count).read_text())
            memory = 0
            for refused in range(1, calls + 1):
                got = run(refused)
                memory += got == (6, "", "memory\n")
                if got not in (whole, (6, "", "memory\n")):
                    wrong += 1
                    print(f"BAD {' '.join(words)} of program {number}, allocation {refused}: {got}")
            print(f"{' '.join(words)} of program {number}: {calls} allocations, each fails in turn: {memory} times `memory`, otherwise the answer")
    return wrong


# what an explanation may take: so many times the seconds of the processor of the check alone, and so many more; so many
# times its memory; bytes of text
EXPLAIN_TIMES, EXPLAIN_SECONDS, EXPLAIN_MEMORY, EXPLAIN_BYTES = 3.0, 0.02, 1.5, 20480
# shapes that the search tries
EXPLAIN_TRIES = 80
# starts of blocks, and the parameter of the spawned function for each way to take a name
BLOCKS = ["if(1){", "while(1){", "cilk_scope{", "region t{", "if(1){}else{"]
TAKEN_BY = {"const": "const int {}[]", "array": "int {}[]", "int": "int {}"}
TAILS = ["if(1){}", "while(1){}", "if(1){}else{}", "cilk_scope{}", "region t{}", "x=1;", "cilk_sync;"]


def held(depth, block, names, taken, width, tail, count, sync=False, fault="y=cilk_spawn g();y=1;"):
    """Returns a source with nested blocks, each with spawns that take all names, `width` names in each spawn, then `count` copies
    of a statement, all in line 2, and a fault in line 3."""
    if taken == "int":
        declared = "".join(f"int a{i}=0;" for i in range(names))
        spawns = "".join(f"a{i}=cilk_spawn g();" for i in range(names))
        head = ""
    else:
        declared = "".join(f"int a{i}[1];" for i in range(names))
        parts = [range(i, min(i + width, names)) for i in range(0, names, width)]
        spawns = "".join(f"cilk_spawn f{len(part)}({','.join(f'a{i}' for i in part)});" for part in parts)
        head = "".join(
            f"void f{n}({','.join(TAKEN_BY[taken].format(f'p{i}') for i in range(n))}){{}} " for n in sorted({len(part) for part in parts})
        )
    inside = spawns + ("cilk_sync;" if sync else "")
    return (
        head + "int g(){return 1;}\nint main(){int x=0;int y=0;" + declared
        + (block + inside) * depth + "}" * depth + tail * count + "\n" + fault + "return y;}\n"
    )


def filled(make, size):
    """Returns the source of about `size` bytes, by the number of copies of its statement."""
    one = len(make(1)) - len(make(0))
    return make(max(0, (size - len(make(0))) // one))


def tried(rng):
    """Returns a random source with its description."""
    depth, names, width = rng.choice([1, 7, 29, 57]), rng.choice([1, 16, 120, 240]), rng.choice([1, 4, 16])
    block, taken, tail = rng.choice(BLOCKS), rng.choice(sorted(TAKEN_BY)), rng.choice(TAILS)
    size, sync = rng.choice([20_000, 200_000, 1_040_000]), rng.random() < 0.3
    per_block = names * 18 if taken == "int" else names * 6
    while depth * per_block > 900_000:
        depth //= 2
    source = filled(lambda count: held(depth, block, names, taken, width, tail, count, sync), size)
    return f"depth {depth} of {block}, {names} names taken as {taken}, {width} in a spawn, then {tail}, {len(source)} bytes" + (", joined" if sync else ""), source


def explained():
    """Returns sources that were slow once, each with its description and the command."""
    plain = ["check", "--explain"]
    tags = "int main(){" + "".join(f"region t{i:x}{{}}" for i in range(70_000)) + "return 0;}"
    body = "x=x*3+1;\n" * 116_000
    long = "n" * 60
    return [
        ("58 blocks that read 240 arrays, 11 branches", held(58, "if(1){", 240, "const", 16, "if(1){}", 11), plain),
        ("58 blocks that read 240 arrays, branches up to 1 MiB", filled(lambda n: held(58, "if(1){", 240, "const", 16, "if(1){}", n), 1_040_000), plain),
        ("58 loops that take 100 arrays", held(57, "while(1){", 100, "array", 16, "if(1){}", 0), plain),
        ("29 loops that read 240 arrays", held(29, "while(1){", 240, "const", 16, "while(1){}", 0), plain),
        ("29 loops that read 240 arrays, up to 1 MiB", filled(lambda n: held(29, "while(1){", 240, "const", 16, "while(1){}", n), 1_040_000), plain),
        ("a syntax fault at the end of 1 MiB", "int main(int x){\n" + body + "return x 1;}", plain),
        ("a syntax fault at the end of 1 MiB in one line", "int main(int x){" + body.replace("\n", " ") + "return x 1;}", plain),
        ("a missing bracket at the end of 1 MiB", "int main(int x){\n" + body + "return x;", plain),
        ("a syntax fault before 1 MiB", "int main(){x 1;return 0;}\nint g(int x){\n" + body + "return x;}", plain),
        ("a byte that starts no token before 1 MiB", "@\nint main(int x){\n" + body + "return x;}", plain),
        ("a byte that starts no token at the end of 1 MiB", "int main(int x){\n" + body + "@return x;}", plain),
        ("a declaration without a value in each line of 1 MiB", "int main(){\n" + "int x;\n" * 148_000 + "return 0;}", plain),
        ("declarations without values in one line of 1 MiB", "int main(){" + "int x;" * 172_000 + "return 0;}", plain),
        ("a broken function in each line of 1 MiB", "int main(){return 0;}\n" + "int f(int x){x 1;return x;}\n" * 37_000, plain),
        ("an if without braces in each line of 1 MiB", "int main(int x){\n" + "if(x)x=1;\n" * 104_000 + "return 0;}", plain),
        ("a pointer in each line of 1 MiB", "int main(){return 0;}\n" + "void f(int*a){a[0]=1;}\n" * 45_000, plain),
        ("70,000 different tags", tags, plain),
        ("a number of 1 MB", "int main(){return " + "1" * 1_000_000 + ";}", plain),
        ("a name of 1 MB", "int main(){return " + "n" * 1_000_000 + ";}", plain),
        ("a line of 1 MB of control characters", "int main(){return 1 2;}//" + "\x1b" * 1_000_000, plain),
        ("an unknown name at the end of 1 MiB", "int main(int x){\n" + body + "return z;}", plain),
        ("a missing return at the end of 1 MiB", "int main(int x){\n" + body + "}", plain),
        ("a directive in each line of 1 MiB", "#d\n" * 340_000, plain),
        ("bytes above 127 in the last line of 1 MiB of comments", "@\n" + "// c\n" * 200_000 + "\u00e9" * 1_000 + "\n", plain),
        ("a for in each line of 1 MiB", "int main(int x){\n" + "for(;;){x=1;}\n" * 72_000 + "}", plain),
        ("statements of C in one line of 1 MiB", "int main(int x){" + "x++;break;long y;" * 60_000 + "}", plain),
        ("unknown names in one line of 1 MiB", "int main(int x){" + "totl=totl+total;" * 64_000 + "return x;}", plain),
        ("an unknown name in each line of 1 MiB", "int main(int x){\n" + "z=1;\n" * 200_000 + "return x;}", plain),
        ("a reducer that is read in each line of 1 MiB", "int main(int x){\n" + "x=z;\n" * 200_000 + "return x;}\nreducer max z;\n", plain),
        ("a long name that is taken in each line of 1 MiB", f"int g(){{return 1;}} int main(){{int {long}=0;{long}=cilk_spawn g();\n" + f"{long}=1;\n" * 15_000 + "return 0;}", plain),
        ("an array from outside in each line of a loop", f"int main(){{int {long}[1];cilk_for(int i=0;i<1;i++){{\n" + f"{long}[0]=1;\n" * 15_000 + "}return 0;}", plain),
        ("1,000 functions, and a call of none of them", "".join(f"int f{i:04}(){{return 1;}}" for i in range(1_000)) + "\nint main(){f10000();return 0;}", plain),
    ]


def fastest(program, words, source):
    """Returns the status, standard error, and the minimum of processor time and of peak memory of three runs."""
    with tempfile.NamedTemporaryFile("w", suffix=".cilk") as file:
        file.write(source)
        file.flush()
        least, most = None, None
        for _ in range(3):
            with tempfile.TemporaryFile() as err:
                child = subprocess.Popen([program, words[0], file.name, *words[1:]], stdin=subprocess.DEVNULL, stdout=subprocess.DEVNULL, stderr=err)
                _, ended, used = os.wait4(child.pid, 0)
                child.returncode = os.waitstatus_to_exitcode(ended)
                err.seek(0)
                said = err.read()
            seconds = used.ru_utime + used.ru_stime
            least = seconds if least is None else min(least, seconds)
            most = used.ru_maxrss if most is None else min(most, used.ru_maxrss)
        return child.returncode, said, least, most << 10


def weighed(program, name, source, words):
    """Returns whether an explanation keeps its limits, its time as a part of the limit, and a line for the output."""
    plain_check = fastest(program, ["check"], source)
    more = fastest(program, words, source)
    within = EXPLAIN_TIMES * plain_check[2] + EXPLAIN_SECONDS
    text = more[1][len(plain_check[1]):]
    plain = all(byte == 10 or 32 <= byte <= 126 for byte in text)
    fine = (
        (plain_check[0], more[0]) == (2, 2)
        and more[1].startswith(plain_check[1])
        and more[2] <= within
        and more[3] <= EXPLAIN_MEMORY * plain_check[3]
        and 0 < len(text) <= EXPLAIN_BYTES
        and plain
    )
    figures = f"{plain_check[2]:.3f} s and {plain_check[3] >> 20} MiB, explained {more[2]:.3f} s and {more[3] >> 20} MiB, {len(text)} bytes"
    return fine, more[2] / within, f"{'ok ' if fine else 'BAD'} {name}: {figures}"


def explain(program):
    wrong = 0
    for name, source, words in explained():
        fine, _, line = weighed(program, name, source, words)
        wrong += not fine
        print(line)
    many = fastest(program, ["check", *["--explain"] * 100_000], "int main() { return x; }")
    fine = many[0] == 2 and many[2] <= 1.0
    wrong += not fine
    print(f"{'ok ' if fine else 'BAD'} --explain 100,000 times: {many[2]:.2f} s")
    rng = random.Random(57)
    found = []
    for _ in range(EXPLAIN_TRIES):
        name, source = tried(rng)
        found.append(weighed(program, name, source, ["check", "--explain"]))
    wrong += sum(not fine for fine, _, _ in found)
    for fine, part, line in sorted(found, key=lambda it: (it[0], -it[1]))[:5]:
        print(f"{line}; {part:.2f} of its limit")
    return wrong


if __name__ == "__main__":
    parts = {"rows": rows, "limits": limits, "sources": sources, "verifier": verifier, "cuts": cuts, "arrays": arrays, "paths": paths, "greedy": greedy, "memory": memory, "explain": explain, "refusals": refusals}
    if len(sys.argv) != 3 or sys.argv[2] not in parts:
        sys.exit(__doc__)
    bad = parts[sys.argv[2]](str(pathlib.Path(sys.argv[1]).resolve()))
    print("all as expected" if not bad else f"{bad} not as expected")
    sys.exit(bad != 0)
