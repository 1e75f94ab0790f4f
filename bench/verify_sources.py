"""Writes sources of about 1 MiB that are slow for the verifier, into a folder: verify_sources.py FOLDER.

Each source declares 190 names, nests blocks and loops to the maximum depth, each of which takes a name (`AROUND`), and
repeats one statement in the innermost one as often as the size allows (`STATEMENTS`).
"""

import pathlib
import sys

SIZE = 1 << 20
MOST_INSTRUCTIONS = 1 << 20
NAMES = 190
CALLED = "int f(){return 0;}void g(int a[]){}void r(const int a[]){}\n"


def declared(count):
    return "".join(f"int x{i}=0;" for i in range(count))


# statements, each with its number of instructions; nothing else takes the names x0 and x1 and the array
STATEMENTS = {
    "regions": ("region t{}", 2),
    "signs": ("x0=" + "-" * 250 + "1;", 252),
    "sums": ("x0=x1" + "+x1" * 125 + ";", 252),
    "inside": ("if(1){region t{}}", 4),
    "branches": ("if(1){}", 2),
    "either": ("if(1){}else{}", 3),
    "loops": ("while(0){}", 3),
    "syncs": ("cilk_sync;", 1),
    "taken": ("x0=cilk_spawn f();cilk_sync;", 2),
    "kept": ("if(1){x0=cilk_spawn f();cilk_sync;}", 4),
    "turned": ("while(x1){cilk_sync;x0=cilk_spawn f();}cilk_sync;", 6),
    "scopes": ("cilk_scope{x0=cilk_spawn f();}", 3),
    "passed": ("cilk_spawn g(a);cilk_sync;", 2),
    "lent": ("cilk_spawn r(a);cilk_sync;", 2),
}


def taking(d):
    return f"x{d + 2}=cilk_spawn f();"


def flat(inner):
    """Returns the statements without a block around them."""
    return inner


def deep(inner):
    """Returns nested blocks, in each of which a name is taken."""
    return "".join(f"{taking(d)}region t{{" for d in range(60)) + inner + "}" * 60


def turned(inner):
    """Returns nested blocks that take names, in a loop that takes one more name at the end of each iteration."""
    return "while(x1){" + "".join(f"region t{{{taking(d)}" for d in range(58)) + inner + "}" * 58 + "cilk_sync;x100=cilk_spawn f();}"


def loops(inner):
    """Returns nested loops, each of which takes a name in each iteration."""
    return "while(x1){" * 59 + inner + "".join(f"cilk_sync;{taking(d)}}}" for d in range(59)) + "cilk_sync;"


def pairs(inner):
    """Returns loops and blocks that alternate, nested, each loop with a name that it takes in each iteration."""
    return "while(x1){region t{" * 29 + inner + "".join(f"}}cilk_sync;{taking(d)}}}" for d in range(29)) + "cilk_sync;"


def delays(inner):
    """Returns a loop with nests of loops of each depth before and after the statements."""
    nests = "".join("while(x1){" * k + f"x{k + 2}=cilk_spawn f();cilk_sync;" + "}" * k for k in range(1, 58))
    late = "".join("while(x1){" * k + f"cilk_sync;x{k + 60}=cilk_spawn f();" + "}" * k for k in range(1, 58))
    return "while(x1){" + nests + inner + late + "}cilk_sync;"


AROUND = {"flat": flat, "deep": deep, "turned": turned, "loops": loops, "pairs": pairs, "delays": delays}


def source(around, statement, cost):
    """Returns the source with as many copies of the statement as the limits allow."""

    def whole(inner):
        return f"{CALLED}int main(){{{declared(NAMES)}int a[1];{around(inner)}return 0;}}\n"

    room = SIZE - len(whole(""))
    calls = whole("").count("f()") - 1
    each = sum(map(statement.count, ("f()", "g(a)", "r(a)")))
    count = min(room // len(statement), (MOST_INSTRUCTIONS - 20000) // cost, (65535 - calls) // each if each else SIZE)
    return whole(statement * count)


def many_functions():
    """Returns a source of functions of 255 names each."""
    names = "".join(f"int {chr(97 + i % 26)}{i // 26}=0;" for i in range(255)) + "region t{" * 3 + "}" * 3
    body = "".join(f"void own{n}(){{{names}}}\n" for n in range(SIZE // (len(names) + 16)))
    return body[: SIZE - 100].rsplit("void", 1)[0] + "int main(){return 0;}\n"


def wide_calls(kind="int"):
    """Returns a source of spawned calls, each of which takes 16 arrays, or reads them if they are `const`."""
    params = ",".join(f"{kind} p{i}[]" for i in range(16))
    arrays = "".join(f"int a{i}[1];" for i in range(16))
    call = f"cilk_spawn h({','.join(f'a{i}' for i in range(16))});cilk_sync;"
    head = f"void h({params}){{}}int main(){{{declared(NAMES)}{arrays}"
    return head + call * ((SIZE - len(head) - 20) // len(call)) + "return 0;}\n"


def main():
    folder = pathlib.Path(sys.argv[1])
    folder.mkdir(parents=True, exist_ok=True)
    issue = "".join(f"int v{i}=0;" for i in range(255)) + "region t{" * 60
    room = SIZE - len(issue) - 100
    texts = {"nested_regions": f"int main(){{{issue}{'region t{}' * (room // 10)}{'}' * 60}return 0;}}\n"}
    for around, put in AROUND.items():
        for name, (statement, cost) in STATEMENTS.items():
            texts[f"{around}_{name}"] = source(put, statement, cost)
    texts |= {"many_functions": many_functions(), "wide_calls": wide_calls(), "wide_loans": wide_calls("const int")}
    for name, text in texts.items():
        (folder / f"{name}.cilk").write_text(text)


main()
