"""Writes sources of about 1 MiB, one for each kind of statement that is slow to parse, into a folder: parse_sources.py FOLDER."""

import pathlib
import sys

SIZE = 1 << 20

# each source repeats one statement in the body of `main`; none exceeds a limit of nesting
STATEMENTS = {
    "declarations": "int x=1;",
    "assignments": "x=y;",
    "signs": "x=" + "-" * 250 + "y;",
    "parentheses": "x=" + "(" * 60 + "1" + ")" * 60 + ";",
    "right_operands": "x=" + "1==(" * 40 + "1" + ")" * 40 + ";",
    "sums": "x=" + "+".join(["1"] * 120) + ";",
    "levels": "x=" + "a==b<c+d*e-" * 12 + "f;",
    "elements": "x=" + "a[" * 60 + "0" + "]" * 60 + ";",
    "calls": "x=cilk_spawn f(" + ",".join(["1"] * 120) + ");",
    "short_calls": "f();",
    "syncs": "cilk_sync;",
    "blocks": "cilk_scope{" * 60 + "}" * 60,
    "deepest": "cilk_scope{" * 63 + "x=" + "-" * 253 + "y;" + "}" * 63,
    "choices": "if(x){x=1;}else{x=2;}",
    "loops": "cilk_for(int i=0;i<n;i++)grain 8 over(" + ",".join(["a"] * 100) + "){}",
    "cuts": "cut a at 1 as l,r{}",
    "regions": "region t{}",
}


def source(statement):
    before, after = "int main(){", "return 0;}"
    return before + statement * ((SIZE - len(before + after)) // len(statement)) + after


def main():
    folder = pathlib.Path(sys.argv[1])
    folder.mkdir(parents=True, exist_ok=True)
    for name, statement in STATEMENTS.items():
        text = source(statement)
        (folder / f"{name}.cilk").write_text(text)


main()
