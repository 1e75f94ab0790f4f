"""Writes sources of about 1 MiB, with the largest functions that the limits allow, into a folder: type_sources.py FOLDER.

For each kind it writes NAME.cilk; NAME_half.cilk, which is half as long; and NAME_tree.cilk, which has one more byte `;`
at its end, so the parser rejects it after it has read the whole tree. The difference of the times of NAME.cilk and
NAME_tree.cilk is the time of names, types and ownership.
"""

import pathlib
import sys

SIZE = 1 << 20
FIRST = "int main(){return 0;}\n"
MOST_FUNCTIONS = 1024


def declared(count):
    return "".join(f"int x{i}=0;" for i in range(count))


def locals_in(n):
    """Returns a function of 256 names, and statements that use them in a scattered order."""
    uses = "".join(f"x{i * 7 % 256}=x{i * 11 % 256}+x{i * 13 % 256};" for i in range(900))
    return f"void w{n}(){{{declared(256)}{uses}}}\n"


def blocks_in(n):
    """Returns a function of 256 names that end with a block, and one statement for each of them."""
    uses = "".join(f"x{i}=1;" for i in range(256))
    return f"void w{n}(){{cilk_scope{{{declared(256)}{uses}}}}}\n"


def nested_in(n):
    """Returns a function of blocks nested to the maximum depth, each with its own names."""
    inner = ""
    for depth in range(60):
        inner = f"int a{depth}=0;while(a{depth}){{int b{depth}[1];if(a{depth}){{}}else{{}}{inner}}}"
    return f"void w{n}(){{{inner}}}\n"


def returns_in(n):
    """Returns a function of branches nested to the maximum depth, all of which return."""
    inner = "return 0;"
    for _ in range(60):
        inner = f"if(1){{return 0;}}else{{{inner}}}"
    return f"int w{n}(){{{inner}}}\n"


def loops_in(n):
    """Returns a function of loops nested to the maximum depth, each of which captures all integers of the function."""
    heads = "".join(f"cilk_for(int i{i}=x{i};i{i}<x{i + 60};i{i}++){{" for i in range(60))
    uses = "".join(f"s+=x{i * 7 % 196};" for i in range(1550))
    return f"void w{n}(){{{declared(196)}{heads}{uses}{'}' * 60}}}\n"


def arrays_in(n):
    """Returns a function of cuts nested to the maximum depth, and a loop over all right parts."""
    cuts = "".join(f"cut a{i} at 0 as a{i + 1},r{i}{{" for i in range(58))
    over = ",".join(f"r{i}" for i in range(58))
    uses = "".join(f"r{i}[i]=r{57 - i}[i];" for i in range(58))
    return f"void w{n}(int a0[]){{{cuts}cilk_for(int i=0;i<1;i++)over({over}){{{uses}}}{'}' * 58}}}\n"


def calls_in(n):
    """Returns a function that calls the last one with 16 arguments."""
    params = ",".join(f"int a{i}[]" if i % 2 else f"int a{i}" for i in range(16))
    call = f"last({','.join(f'a{i}' for i in range(16))});"
    return f"void w{n}({params}){{{call * 14}}}\n"


def short_calls_in(n):
    """Returns a function that calls the last of 1,024 functions."""
    return f"void w{n}(){{{'l();' * 250}}}\n"


def regions_in(n):
    """Returns a function with a region for each of the 64 tags."""
    return f"void w{n}(){{{''.join(f'region t{i}{{}}' for i in range(64))}}}\n"


def sums_in(n):
    """Returns a function that updates each of the 32 reducers four times."""
    return f"void w{n}(){{{''.join(f's{i}+=1;' for i in range(32)) * 4}}}\n"


def names_in(n):
    """Returns a function of assignments between names of one byte, for which the tree is large relative to the source."""
    return f"void w{n}(){{int x=1;int y=1;{'x=y;' * 250}}}\n"


def operands_in(n):
    """Returns a function of sums whose operands are names of one byte."""
    return f"void w{n}(){{int x=1;{('x=' + '+'.join(['x'] * 120) + ';') * 4}}}\n"


def spawns_in(n):
    """Returns a function of 256 names with 60 nested loops, and 60 spawns with their syncs in the innermost one."""
    heads = "".join(f"while(x{w}<1){{x{w}=x{w}+1;" for w in range(60))
    spawns = "".join(f"x{w + 60}=cilk_spawn f(1);cilk_sync;" for w in range(60))
    return f"void w{n}(){{{declared(256)}{heads}{spawns}{'}' * 60}}}\n"


def spawns_apart_in(n):
    """Returns the statements of `spawns_in` with the 60 loops in sequence; the check must take about as long."""
    loops = "".join(f"while(x{w}<1){{x{w}=x{w}+1;x{w + 60}=cilk_spawn f(1);cilk_sync;}}" for w in range(60))
    return f"void w{n}(){{{declared(256)}{loops}}}\n"


LAST = "void last({}){{}}\n".format(",".join(f"int a{i}[]" if i % 2 else f"int a{i}" for i in range(16)))
REDUCERS = "".join(f"reducer sum s{i};\n" for i in range(32))

# the function that writes the N-th function of a source, and the items at the end of the source
KINDS = {
    "locals": (locals_in, ""),
    "blocks": (blocks_in, ""),
    "nested": (nested_in, ""),
    "returns": (returns_in, ""),
    "loops": (loops_in, "reducer sum s;\n"),
    "arrays": (arrays_in, ""),
    "calls": (calls_in, LAST),
    "short_calls": (short_calls_in, "void l(){}\n"),
    "regions": (regions_in, ""),
    "sums": (sums_in, REDUCERS),
    "names": (names_in, ""),
    "operands": (operands_in, ""),
    "spawns": (spawns_in, "int f(int v){return v;}\n"),
    "spawns_apart": (spawns_apart_in, "int f(int v){return v;}\n"),
}


def source(function, last, size):
    """Returns a source of at most `size` bytes: functions, then the last items."""
    parts, left = [FIRST], size - len(FIRST) - len(last) - 1
    for n in range(MOST_FUNCTIONS - 2):
        part = function(n)
        if left < len(part):
            break
        parts.append(part)
        left -= len(part)
    return "".join(parts) + last


def main():
    folder = pathlib.Path(sys.argv[1])
    folder.mkdir(parents=True, exist_ok=True)
    for name, (function, last) in KINDS.items():
        text = source(function, last, SIZE)
        (folder / f"{name}.cilk").write_text(text)
        (folder / f"{name}_tree.cilk").write_text(text + ";")
        (folder / f"{name}_half.cilk").write_text(source(function, last, SIZE // 2))


main()
