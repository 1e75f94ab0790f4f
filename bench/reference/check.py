#!/usr/bin/env python3
"""Tests the independent implementation with answers worked out by hand, and prints the number of answers that are as expected."""
import os
import sys

import ref
from ref import Program, Run, report
from rules import broken
from trees import Burden

FIB = """int fib(int n) {
  if (n < 2) { return n; }
  int x = 0;
  int y = 0;
  x = cilk_spawn fib(n - 1);
  y = fib(n - 2);
  cilk_sync;
  return x + y;
}
int main(int n) {
  int r = 0;
  r = fib(n);
  return r;
}
"""
BAD = """int bad(int z) { int q = 0; q = 1 / z; return q; }
int main(int z) { cilk_spawn bad(z); %s cilk_sync; return 0; }
"""
LINES = "void p(int v) { print(v); } int main() { cilk_spawn p(1); cilk_spawn p(2); print(3); cilk_sync; return 0; }"
SUM = "reducer sum s; int main() { cilk_for (int i = %s; i < %s; i++) grain 2 { s += i; } return 0; }"
MAX = "reducer max m; int main() { cilk_for (int i = %s; i < %s; i++) grain 2 { m max= i * (3 - i); } return 0; }"
WIDE = ("reducer sum s; void add() { s += 9223372036854775807; } "
        "int main() { cilk_spawn add(); cilk_spawn add(); cilk_sync; return 0; }")
RESULT = ("int f(int v) { return v; } int main() { int x = 0; x = cilk_spawn f(1); cilk_sync; print(x); cilk_sync; "
          "return 0; }")
CUT = "int main() { int a[3]; cut a at %s as l, r { print(len(r)); } return 0; }"
ENDLESS = "int f(int n) { int r = 0; r = f(n + 1); return r; } int main() { int r = 0; r = f(0); return r; }"
SQUARES = ("int main() { int a[4]; cilk_for (int i = 0; i < %s; i++) grain 2 over (a) { a[i] = i * i; } print(a[3]); "
           "return 0; }")
REGION = "void p(int v) { print(v); } int main() { region r { cilk_spawn p(1); print(2); } return 0; }"
GREATEST = "int main() { return 9223372036854775807 + 1; }"
ITERATIONS = "int main() { cilk_for (int i = 0; i < %s; i++) { } return 0; }"
FILL = ("int fill(int a[], int v) { a[0] = v; return len(a); } int main() { int a[4]; int x = 0; int y = 0; "
        "cut a at 2 as l, r { x = cilk_spawn fill(l, 5); y = fill(r, 7); } return a[0] * 10 + a[2]; }")
LOOP = ("int main() { int a[%s]; cilk_for (int i = %s; i < %s; i++) grain 2 over (a) { a[i] = i * i; } "
        "return a[%s]; }")
TIE = "int f() { return 0; } int main() { cilk_spawn f(); print(1); cilk_sync; return 0; }"
CHAIN = ("int f(int n) { if (n < 1) { return 0; } int x = 0; x = cilk_spawn f(n - 1); cilk_sync; return x + 1; } "
         "int main(int n) { int r = 0; r = f(n); return r; }")
SIZE = "int main() { int a[%s]; return 0; }"
EDGE = "int main() { cilk_for (int i = %s; i < 9223372036854775807; i++) { } return 0; }"
READ = ("int get(const int a[], int i) { return a[i]; } int main() { int a[2]; int x = 0; a[1] = 5; "
        "x = cilk_spawn get(a, 1); print(a[1]); cilk_sync; a[0] = x; return a[0]; }")
CALLS = "int f(){return 0;}int main(){" + 65535 * "f();" + "return 0;}"

NEAR_TIE = ("void f() { print(1); print(2); print(3); print(4); } void g() { print(1); print(2); } "
            "int main() { cilk_spawn f(); g(); return 0; }")
HALVES = """
void h(int n) { if (0 < n) { cilk_spawn h(n - 1); h(n - 1); } }
int main(int n) { h(n); return 0; }
"""
LOOP_IN_REGION = ("void p() { } int main() { region t { cilk_for (int i = 0; i < 2; i++) grain 1 { p(); } } return 0; }")
SAME_OWN_SPAN = "void f() { print(1); } void g() { print(2); } int main() { g(); f(); return 0; }"

SCALE = "tag,work,span,parallelism,burdened_span,burdened_parallelism\n"
SITES = "site,kind,line,callee,calls,own_work,own_span,work,span\n"
GAIN = "function,line,calls,own_work,own_span,span_if_free,parallelism_if_free,burdened_span_if_free\n"
BILLION = 1000000000
BOTH_10, BOTH_100, BOTH_15000 = (Burden(charge, "both") for charge in (10, 100, 15000))


def example(name):
    """Returns the source of a program of examples/."""
    with open(os.path.join(os.path.dirname(os.path.abspath(__file__)), "..", "..", "examples", name + ".cilk")) as file:
        return file.read()


# source, arguments, mode (for `gain` with the number of functions, unless it is 10), limit, burden (a number is charged only on
# continuation edges), and the answer
CASES = [
    (FIB, [0], "run", BILLION, 0, "return 0\n"),
    (FIB, [0], "scale", BILLION, 15000, SCALE + ",12,12,1.000,12,1.000\n"),
    (FIB, [4], "run", BILLION, 100, "return 3\n"),
    (FIB, [4], "scale", BILLION, 100, SCALE + ",120,67,1.791,254,0.472\n"),
    (FIB, [4], "scale", BILLION, BOTH_100, SCALE + ",120,67,1.791,367,0.326\n"),
    (FIB, [4], "sites", BILLION, 0, SITES + "0,root,10,main,1,6,6,120,67\n1,spawn,5,fib,4,54,38,66,50\n"
     "2,call,6,fib,4,39,6,45,39\n3,call,12,fib,1,21,17,114,61\n"),
    (FIB, [4], "run", 120, 0, "return 3\n"),
    (FIB, [4], "run", 119, 0, (4, "", "over limit\n")),
    (BAD % "print(7);", [1], "run", BILLION, 0, "7\nreturn 0\n"),
    (BAD % "print(7);", [1], "scale", BILLION, 15000, SCALE + ",15,13,1.153,15007,0.000\n"),
    (BAD % "print(7);", [1], "scale", BILLION, BOTH_15000, SCALE + ",15,13,1.153,15013,0.000\n"),
    (BAD % "print(7);", [0], "run", BILLION, 0, (3, "", "trap 2 line 1\n")),
    (BAD % "print(7);", [0], "run", 7, 0, (3, "", "trap 2 line 1\n")),
    (BAD % "print(7);", [0], "run", 6, 0, (4, "", "over limit\n")),
    (BAD % "while (1) { }", [0], "run", 1000000, 0, (3, "", "trap 2 line 1\n")),
    (LINES, [], "run", BILLION, 0, "1\n2\n3\nreturn 0\n"),
    (LINES, [], "scale", BILLION, 0, SCALE + ",15,10,1.500,10,1.500\n"),
    (SUM % (0, 4), [], "run", BILLION, 0, "sum s = 6\nreturn 0\n"),
    (SUM % (0, 4), [], "scale", BILLION, 15000, SCALE + ",106,66,1.606,15066,0.007\n"),
    (SUM % (5, 3), [], "run", BILLION, 0, "sum s = 0\nreturn 0\n"),
    (SUM % (5, 3), [], "scale", BILLION, 15000, SCALE + ",19,19,1.000,19,1.000\n"),
    (MAX % (0, 4), [], "run", 122, 0, "max m = 2\nreturn 0\n"),
    (MAX % (0, 4), [], "run", 121, 0, (4, "", "over limit\n")),
    (MAX % (0, 4), [], "scale", BILLION, 0, SCALE + ",122,74,1.648,74,1.648\n"),
    (MAX % (5, 3), [], "run", BILLION, 0, "max m = none\nreturn 0\n"),
    (WIDE, [], "run", BILLION, 0, "sum s = 18446744073709551614\nreturn 0\n"),
    (WIDE, [], "scale", BILLION, 0, SCALE + ",11,8,1.375,8,1.375\n"),
    (RESULT, [], "run", BILLION, 0, "1\nreturn 0\n"),
    (RESULT, [], "scale", BILLION, 0, SCALE + ",12,12,1.000,12,1.000\n"),
    (CUT % 4, [], "run", BILLION, 0, (3, "", "trap 3 line 1\n")),
    (CUT % 3, [], "run", 9, 0, "0\nreturn 0\n"),
    (CUT % 3, [], "run", 8, 0, (4, "", "over limit\n")),
    (ENDLESS, [], "run", 59998, 0, (3, "", "trap 6 line 1\n")),
    (ENDLESS, [], "run", 59997, 0, (4, "", "over limit\n")),
    (SQUARES % 4, [], "run", BILLION, 0, "9\nreturn 0\n"),
    (SQUARES % 4, [], "scale", BILLION, 15000, SCALE + ",136,86,1.581,15086,0.009\n"),
    (SQUARES % 5, [], "run", BILLION, 0, (3, "", "trap 3 line 1\n")),
    (REGION, [], "run", BILLION, 10, "1\n2\nreturn 0\n"),
    (REGION, [], "scale", BILLION, 10, SCALE + ",11,9,1.222,18,0.611\nr,7,5,1.400,14,0.500\n"),
    (REGION, [], "scale", BILLION, BOTH_10, SCALE + ",11,9,1.222,19,0.578\nr,7,5,1.400,15,0.466\n"),
    (GREATEST, [], "run", 3, 0, (3, "", "trap 1 line 1\n")),
    (GREATEST, [], "run", 2, 0, (4, "", "over limit\n")),
    (ITERATIONS % 2147483648, [], "run", 3, 0, (3, "", "trap 5 line 1\n")),
    (ITERATIONS % 2147483647, [], "run", 3, 0, (4, "", "over limit\n")),
    (FILL, [], "run", 31, 0, "return 57\n"),
    (FILL, [], "run", 30, 0, (4, "", "over limit\n")),
    (FILL, [], "scale", BILLION, 0, SCALE + ",31,26,1.192,26,1.192\n"),
    (SIZE % "0 - 1", [], "run", BILLION, 0, (3, "", "trap 4 line 1\n")),
    (SIZE % "16777217", [], "run", BILLION, 0, (3, "", "trap 4 line 1\n")),
    (SIZE % "0", [], "run", BILLION, 0, "return 0\n"),
    (LOOP % (4, 0, 4, 3), [], "run", 134, 0, "return 9\n"),
    (LOOP % (4, 0, 4, 3), [], "run", 133, 0, (4, "", "over limit\n")),
    (LOOP % (4, 0, 5, 3), [], "run", BILLION, 0, (3, "", "trap 3 line 1\n")),
    (LOOP % (5, 0, 5, 4), [], "run", 192, 0, "return 16\n"),
    (LOOP % (5, 0, 5, 4), [], "run", 191, 0, (4, "", "over limit\n")),
    (LOOP % (4, 9, 4, 3), [], "run", 22, 0, "return 0\n"),
    (LOOP % (4, 9, 4, 3), [], "run", 21, 0, (4, "", "over limit\n")),
    (TIE, [], "sites", BILLION, 0, SITES + "0,root,1,main,1,6,4,8,6\n1,spawn,1,f,1,2,2,2,2\n"),
    (CHAIN, [300], "run", BILLION, 0, "return 300\n"),
    (CHAIN, [300], "scale", BILLION, 15000, SCALE + ",4512,4512,1.000,19506,0.231\n"),
    (CHAIN, [300], "scale", BILLION, 0, SCALE + ",4512,4512,1.000,4512,1.000\n"),
    (CHAIN, [9998], "run", 149982, 0, "return 9998\n"),
    (CHAIN, [9998], "run", 149981, 0, (4, "", "over limit\n")),
    (CHAIN, [9999], "run", BILLION, 0, (3, "", "trap 6 line 1\n")),
    (EDGE % "-9223372036854775807 - 1", [], "run", BILLION, 0, (3, "", "trap 5 line 1\n")),
    (EDGE % "9223372036854775806", [], "run", 30, 0, "return 0\n"),
    (EDGE % "9223372036854775806", [], "run", 29, 0, (4, "", "over limit\n")),
    (CALLS, [], "run", 196607, 0, "return 0\n"),
    (CALLS, [], "run", 196606, 0, (4, "", "over limit\n")),
    (READ, [], "run", BILLION, 0, "5\nreturn 5\n"),
    (READ, [], "scale", BILLION, 0, SCALE + ",22,19,1.157,19,1.157\n"),
    (NEAR_TIE, [], "gain", BILLION, 10, GAIN + ",0,0,18,11,11,1.636,19\nf,1,1,9,9,9,2.000,19\n"
     "main,1,1,4,2,9,2.000,15\n"),
    (HALVES, [2], "gain", BILLION, 10, GAIN + ",0,0,63,35,35,1.800,55\nh,2,7,59,31,4,15.750,24\n"
     "main,3,1,4,4,31,2.032,51\n"),
    (LOOP_IN_REGION, [], "gain", BILLION, 10, GAIN + ",0,0,82,55,55,1.490,65\nmain,1,1,80,54,1,82.000,11\n"
     "p,1,2,2,1,54,1.518,64\n"),
    (SAME_OWN_SPAN, [], "gain", BILLION, 0, GAIN + ",0,0,10,10,10,1.000,10\nmain,1,1,4,4,6,1.666,6\n"
     "f,1,1,3,3,7,1.428,7\ng,1,1,3,3,7,1.428,7\n"),
    (SAME_OWN_SPAN, [], "gain 2", 10, 0, GAIN + ",0,0,10,10,10,1.000,10\nmain,1,1,4,4,6,1.666,6\n"
     "f,1,1,3,3,7,1.428,7\n"),
    (SAME_OWN_SPAN, [], "gain", 9, 0, (4, "", "over limit\n")),
    (BAD % "print(7);", [0], "gain", BILLION, 0, (3, "", "trap 2 line 1\n")),
    (example("fib"), [10], "gain", BILLION, 15000, GAIN + ",0,0,2388,169,169,14.130,75117\n"
     "fib,6,177,2382,163,6,398.000,75006\nmain,18,1,6,6,163,14.650,75111\n"),
    (example("mergesort"), [400], "gain", BILLION, 15000, GAIN + ",0,0,194975,47944,47944,4.066,182837\n"
     "merge,8,399,175764,39737,8210,23.748,143210\nmain,52,1,8030,8030,39914,4.884,174807\n"
     "sort,38,799,11181,177,47767,4.081,182657\n"),
]

SPAWN = "int f(int v) { return v; } int main() { int x = 0; %s return x; }"
LOOPS = "int main() { int a[4]; int b[4]; int t = 0; cilk_for (int i = 0; i < 4; i++) over (a) { %s } return t; }"
TWO = "void g(int a[], int b[]) { } int main() { int a[4]; int b[4]; %s return 0; }"

READS = ("int f(const int a[]) { return len(a); } int g(int a[]) { return 0; } void h(int a[], const int b[]) { } "
         "int q(const int a[], const int b[]) { return a[0] + b[0]; } "
         "int main() { int a[4]; int b[4]; int x = 0; %s return 0; }")
CONST = ("int f(const int a[]) { return len(a); } int g(int a[]) { return 0; } "
         "int n(const int a[], int x) { %s return 0; } int main() { return 0; }")

UPDATES = "reducer sum s; reducer max m; int main() { %s return 0; }"

KEPT = [
    UPDATES % "s += 1; m max= 2;",
    SPAWN % "x = cilk_spawn f(x); cilk_sync;",
    SPAWN % "while (x < 1) { x = cilk_spawn f(1); cilk_sync; }",
    SPAWN % "if (x) { x = cilk_spawn f(1); return 1; } x = 2;",
    SPAWN % "cilk_scope { x = cilk_spawn f(1); } x = 2;",
    LOOPS % "a[i] = a[i] + t;",
    LOOPS % "int c[2]; c[0] = i; a[i] = c[0];",
    TWO % "cut a at 1 as l, r { cilk_spawn g(l, r); } g(a, b);",
    READ,
    READS % "cilk_spawn f(a); print(a[0]); print(len(a)); x = f(a); cilk_spawn f(a); cilk_sync; a[0] = 1;",
    READS % "f(a); a[0] = 1;",
    READS % "q(a, a); cilk_spawn q(a, a);",
    READS % "cilk_spawn h(a, b); print(b[0]);",
    READS % "if (x) { cilk_spawn f(a); } print(a[0]);",
    READS % "while (x) { print(a[0]); cilk_spawn f(a); }",
    READS % "cilk_scope { int z[1]; cilk_spawn f(z); cilk_spawn f(a); } a[0] = 1;",
    READS % "cut a at 1 as l, r { cilk_spawn f(l); cilk_spawn g(r); print(l[0]); }",
    READS % "cilk_for (int i = 0; i < 4; i++) over (a) { int z[1]; cilk_spawn f(z); print(z[0]); }",
    CONST % "print(a[x]); print(len(a)); x = f(a); cilk_spawn f(a);",
]

BROKEN = [
    UPDATES % "s max= 1;",
    UPDATES % "m += 1;",
    UPDATES % "n max= 1;",
    UPDATES % "int m = 1;",
    SPAWN % "x = cilk_spawn f(1); int y = x; cilk_sync;",
    SPAWN % "x = g(1);",
    SPAWN % "x = f(1, 2);",
    SPAWN % "int x = 1;",
    SPAWN % "int y = y;",
    SPAWN % "return 1;",
    SPAWN % "x = main();",
    SPAWN % "region r { return 1; }",
    SPAWN % "while (x < 1) { x = cilk_spawn f(1); } cilk_sync;",
    SPAWN % "int y = 0; while (x < 1) { y = cilk_spawn f(1); } cilk_sync;",
    SPAWN % "x = cilk_spawn f(1); cilk_scope { cilk_sync; } x = 2;",
    SPAWN % "if (x) { int y = 0; y = cilk_spawn f(1); }",
    SPAWN % "if (1) { x = cilk_spawn f(1); } x = 2;",
    LOOPS % "t = t + i;",
    LOOPS % "i = 1;",
    LOOPS % "a[0] = 1;",
    LOOPS % "a[i] = b[i];",
    LOOPS % "print(len(a));",
    LOOPS % "cilk_for (int j = 0; j < 2; j++) { a[i] = j; }",
    LOOPS % "cilk_for (int j = 0; j < a[i]; j++) { }",
    TWO % "g(a, a);",
    TWO % "cut a at 1 as l, r { cilk_sync; print(len(a)); }",
    TWO % "cilk_spawn g(a, b); print(a[0]);",
    TWO % "a = 1;",
    TWO % "g(a, 1);",
    READ.replace("print", "a[0] = 1; print"),
    READ.replace("return a[i]", "a[i] = 0; return a[i]"),
    READS % "cilk_spawn f(a); a[0] = 1;",
    READS % "cilk_spawn f(a); g(a);",
    READS % "cilk_spawn f(a); cilk_spawn g(a);",
    READS % "cilk_spawn g(a); cilk_spawn f(a);",
    READS % "cilk_spawn g(a); f(a);",
    READS % "cilk_spawn f(a); cut a at 1 as l, r { }",
    READS % "cilk_spawn f(a); cilk_for (int i = 0; i < 4; i++) over (a) { }",
    READS % "if (x) { int z[1]; cilk_spawn f(z); }",
    READS % "if (x) { cilk_spawn f(a); } a[0] = 1;",
    READS % "if (x) { cilk_spawn f(a); } else { cilk_spawn g(a); } print(a[0]);",
    READS % "while (x) { a[0] = 1; cilk_spawn f(a); }",
    READS % "cilk_spawn f(a); cilk_scope { cilk_sync; } a[0] = 1;",
    READS % "x = cilk_spawn f(a); print(x);",
    READS % "h(a, a);",
    READS % "cilk_for (int i = 0; i < 4; i++) over (a) { f(a); }",
    READS % "cilk_for (int i = 0; i < 4; i++) over (a) { f(b); }",
    READS % "cut a at 1 as l, r { f(a); }",
    CONST % "a[0] = 1;",
    CONST % "g(a);",
    CONST % "cut a at 1 as l, r { }",
    CONST % "cilk_for (int i = 0; i < 4; i++) over (a) { }",
    CONST % "print(a);",
    CONST % "f(x);",
    CONST % "int a[1];",
    "int main(const int a[]) { return 0; }",
    "int f() { if (1) { return 1; } } int main() { return 0; }",
    "int f() { return 1; } int f() { return 2; } int main() { return 0; }",
    "void main() { }",
    "int main(int a[]) { return 0; }",
]


def check_rules():
    wrong = [source for source in KEPT if broken(Program(source))]
    wrong += [source for source in BROKEN if not broken(Program(source))]
    for source in wrong:
        print("unexpected result for the rules:", source)
    return len(wrong)


def check():
    held = 0
    for source, arguments, mode, limit, burden, expected in CASES:
        charged = burden if isinstance(burden, Burden) else Burden(burden)
        words = mode.split()
        answer = report(words[0], Run(Program(source), arguments, limit), charged, top=int((words + ["10"])[1]))
        expected = expected if isinstance(expected, tuple) else (0, expected, "")
        held += answer == expected
        if answer != expected:
            print("expected", expected, "got", answer, "from", mode, arguments, limit, charged.charge, charged.edges, source)
    rules = len(KEPT) + len(BROKEN)
    held += rules - check_rules()
    print("%d of %d are as expected" % (held, len(CASES) + rules))
    return 0 if held == len(CASES) + rules else 1


if __name__ == "__main__":
    sys.exit(ref.deep(check))
