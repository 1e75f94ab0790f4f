#!/usr/bin/env python3
"""The independent implementation of the language: meaning, costs, strand tree and reports, for expected values.

    ref.py run|scale|sites FILE [ARGS..] [--limit N] [--burden B] [--edges spawn|both]
    ref.py gain FILE [ARGS..] [--limit N] [--burden B] [--edges spawn|both] [--top N]
    ref.py greedy P FILE [ARGS..] [--limit N]
    ref.py speedup FILE [ARGS..] [--limit N] [--burden B] [--edges spawn|both] [--processors N]

With --table, scale, sites, gain and speedup print aligned columns.

The program must be one that `cilkwork check` accepts. The script prints what `cilkwork` must print, and ends with its status.
"""
import os
import sys
import threading

sys.path.insert(0, os.path.dirname(os.path.abspath(__file__)))
from syntax import Program
from greedy import greedy_length
from table import table
from trees import Block, Burden, Mark, Rows, Tree, burdened_span, freed

# the modes whose reports can be tables
TABLES = ("scale", "sites", "gain", "speedup")
LEAST, GREATEST = -2**63, 2**63 - 1
OVERFLOW, ZERO_DIVISOR, OUT_OF_BOUNDS, BAD_LENGTH, TOO_MANY_ITERATIONS, TOO_DEEP = range(1, 7)


class Trap(Exception):
    def __init__(self, code, line):
        self.code, self.line = code, line


class OverLimit(Exception):
    pass


class Returned(Exception):
    def __init__(self, value):
        self.value = value


class Slice:
    """A part of an array: `length` elements from index `start` on."""

    def __init__(self, elements, start, length):
        self.elements, self.start, self.length = elements, start, length

    def place(self, index, line):
        if not 0 <= index < self.length:
            raise Trap(OUT_OF_BOUNDS, line)
        return self.start + index


class Run:
    """A run of the serial elision of a program, within a limit of instructions."""

    def __init__(self, program, arguments, limit):
        self.program, self.limit = program, limit
        self.cost, self.recorded = 0, 0  # instructions so far, and those that a block contains
        self.lines = []
        self.totals = {name: 0 if kind == "sum" else None for name, kind in program.kinds.items()}
        self.block, self.shifted, self.counts = Block(), frozenset(), {}
        self.trap = self.value = self.tree = None
        self.is_over = False
        try:
            main = program.functions["main"]
            value, tree = self.apart(lambda: self.call(main, arguments, 1))
            self.value, self.tree = value, Tree([Mark(0, tree)])
        except Trap as trap:
            self.trap = trap
        except OverLimit:
            self.is_over = True

    # The strand tree. `apart` collects the strands of a part in a block of its own.

    def tick(self, count=1):
        self.cost += count
        if self.cost > self.limit:
            raise OverLimit()

    def record(self):
        self.block.add(self.cost - self.recorded)
        self.recorded = self.cost

    def join(self):
        self.record()
        self.block.join()

    def apart(self, part):
        self.record()
        outer, self.block = self.block, Block()
        value = part()
        self.record()
        tree, self.block = self.block.tree(), outer
        return value, tree

    def in_series(self, part):
        value, tree = self.apart(part)
        self.block.splice(tree)
        return value

    def spawned(self, part):
        value, tree = self.apart(part)
        self.block.spawn(tree)
        return value

    # Expressions: each operand, then one instruction.

    def fit(self, value, line):
        if not LEAST <= value <= GREATEST:
            raise Trap(OVERFLOW, line)
        return value

    def evaluate(self, e, frame, line):
        kind = e[0]
        if kind == "number":
            self.tick()
            return e[1]
        if kind == "name":
            self.tick()
            return frame[e[1]]
        if kind == "length":
            self.tick()
            return frame[e[1]].length
        if kind == "element":
            index = self.index(e[1], e[2], frame, line)
            self.tick()
            array = frame[e[1]]
            return array.elements[array.place(index, line)]
        if kind == "minus":
            value = self.evaluate(e[1], frame, line)
            self.tick()
            return self.fit(-value, line)
        if kind == "not":
            value = self.evaluate(e[1], frame, line)
            self.tick()
            return int(value == 0)
        left, right = self.evaluate(e[2], frame, line), self.evaluate(e[3], frame, line)
        self.tick()
        return self.binary(e[1], left, right, line)

    def index(self, name, e, frame, line):
        """Evaluates an index; in a loop over the array it is relative to the start of the slice, which costs two instructions more."""
        index = self.evaluate(e, frame, line)
        if name in self.shifted:
            self.tick(2)
        return index

    def binary(self, operator, left, right, line):
        if operator == "+":
            return self.fit(left + right, line)
        if operator == "-":
            return self.fit(left - right, line)
        if operator == "*":
            return self.fit(left * right, line)
        if operator in "/%":
            if right == 0:
                raise Trap(ZERO_DIVISOR, line)
            quotient = abs(left) // abs(right)
            quotient = self.fit(quotient if (left < 0) == (right < 0) else -quotient, line)
            return quotient if operator == "/" else left - quotient * right
        return int({"<": left < right, "<=": left <= right, ">": left > right, ">=": left >= right,
                    "==": left == right, "!=": left != right}[operator])

    # Statements.

    def run(self, body, frame, depth):
        known = set(frame)
        for line, kind, *rest in body:
            getattr(self, "do_" + kind)(line, frame, depth, *rest)
        for name in set(frame) - known:
            del frame[name]

    def do_declare(self, line, frame, depth, name, e):
        value = self.evaluate(e, frame, line)
        self.tick()
        frame[name] = value

    do_assign = do_declare

    def do_array(self, line, frame, depth, name, e):
        length = self.evaluate(e, frame, line)
        self.tick()
        if not 0 <= length <= 16777216:
            raise Trap(BAD_LENGTH, line)
        frame[name] = Slice([0] * length, 0, length)

    def do_put(self, line, frame, depth, name, at, e):
        index = self.index(name, at, frame, line)
        value = self.evaluate(e, frame, line)
        self.tick()
        array = frame[name]
        array.elements[array.place(index, line)] = value

    def do_reduce(self, line, frame, depth, kind, name, e):
        value = self.evaluate(e, frame, line)
        self.tick()
        total = self.totals[name]
        self.totals[name] = total + value if kind == "sum" else value if total is None else max(total, value)

    def do_print(self, line, frame, depth, e):
        value = self.evaluate(e, frame, line)
        self.tick()
        self.lines.append(value)

    def do_return(self, line, frame, depth, e):
        value = None if e is None else self.evaluate(e, frame, line)
        self.join()
        self.tick()
        raise Returned(value)

    def do_sync(self, line, frame, depth):
        self.join()
        self.tick()

    def do_if(self, line, frame, depth, e, then, other):
        holds = self.evaluate(e, frame, line) != 0
        self.tick()
        if holds:
            self.run(then, frame, depth)
            self.tick(0 if other is None else 1)
        elif other is not None:
            self.run(other, frame, depth)

    def do_while(self, line, frame, depth, e, body):
        while True:
            holds = self.evaluate(e, frame, line) != 0
            self.tick()
            if not holds:
                return
            self.run(body, frame, depth)
            self.tick()

    def do_scope(self, line, frame, depth, body):
        self.tick()
        self.in_series(lambda: self.run(body, frame, depth))
        self.tick()

    def do_region(self, line, frame, depth, tag, body):
        self.tick()
        _, tree = self.apart(lambda: self.run(body, frame, depth))
        self.block.add(Mark(tag, tree))
        self.tick()

    def do_cut(self, line, frame, depth, name, e, left, right, body):
        place = self.evaluate(e, frame, line)
        self.tick()
        array = frame[name]
        if not 0 <= place <= array.length:
            raise Trap(OUT_OF_BOUNDS, line)
        frame[left] = Slice(array.elements, array.start, place)
        frame[right] = Slice(array.elements, array.start + place, array.length - place)
        self.in_series(lambda: self.run(body, frame, depth))
        del frame[left], frame[right]
        self.tick()

    def do_call(self, line, frame, depth, spawns, site, target, callee, arguments):
        function = self.program.functions[callee]
        values = [self.evaluate(e, frame, line) if kind == "int" else frame[e[1]]
                  for (_, kind), e in zip(function.params, arguments)]
        self.tick()
        if depth == 10000:
            raise Trap(TOO_DEEP, line)
        value, tree = self.apart(lambda: self.call(function, values, depth + 1))
        mark = Mark(site, tree)
        if spawns:
            self.block.spawn(Tree([mark]))
        else:
            self.block.add(mark)
        if target is not None:
            frame[target] = value

    def call(self, function, values, depth):
        frame = {name: value for (name, _), value in zip(function.params, values)}
        shifted, self.shifted = self.shifted, frozenset()
        value = None
        try:
            self.run(function.body, frame, depth)
            self.join()
            self.tick()
        except Returned as returned:
            value = returned.value
        self.shifted = shifted
        return value

    # Loops, by divide and conquer.

    def do_loop(self, line, frame, depth, name, first, end, grain, over, body):
        low, high = self.evaluate(first, frame, line), self.evaluate(end, frame, line)
        captured = self.captured(name, body)
        self.tick(captured + 1)
        if high > low:
            if high - low > 2147483647:
                raise Trap(TOO_MANY_ITERATIONS, line)
            if any(low < 0 or high > frame[array].length for array in over):
                raise Trap(OUT_OF_BOUNDS, line)
        loop = Loop(name, grain, captured, over, body)
        self.in_series(lambda: self.divide(loop, low, max(low, high), frame, depth))

    def captured(self, name, body):
        if id(body) not in self.counts:
            self.counts[id(body)] = len(captured_by(name, body))
        return self.counts[id(body)]

    def divide(self, loop, low, high, frame, depth):
        if high - low <= loop.grain:
            self.tick(8)
            for value in range(low, high):
                self.iteration(loop, value, frame, depth)
            self.tick(6)
            return
        middle = low + (high - low) // 2
        self.tick(17 + 4 * loop.arrays + loop.captured)
        self.spawned(lambda: self.divide(loop, low, middle, frame, depth))
        self.tick(3 + loop.captured)
        self.in_series(lambda: self.divide(loop, middle, high, frame, depth))
        self.join()
        self.tick(loop.arrays + 1)

    def iteration(self, loop, value, frame, depth):
        shifted, self.shifted = self.shifted, loop.over
        frame[loop.name] = value
        self.tick(5)
        self.in_series(lambda: self.run(loop.body, frame, depth))
        self.tick(6)
        del frame[loop.name]
        self.shifted = shifted


class Loop:
    def __init__(self, name, grain, captured, over, body):
        self.name, self.grain, self.captured, self.body = name, grain, captured, body
        self.over, self.arrays = frozenset(over), len(over)


def captured_by(name, body):
    """Returns the integers from outside that the body of a loop names."""
    named, own = set(), {name}

    def look(e):
        if e is None or e[0] == "number" or e[0] == "length":
            return
        if e[0] == "name":
            named.add(e[1])
        elif e[0] == "binary":
            look(e[2])
            look(e[3])
        else:
            look(e[-1])

    def look_all(statements):
        for _, kind, *rest in statements:
            if kind in ("declare", "array", "loop"):
                own.add(rest[0])
            if kind == "cut":
                own.update(rest[2:4])
            for part in parts_of(kind, rest):
                look(part)
            for block in blocks_of(kind, rest):
                look_all(block)

    look_all(body)
    return named - own


def parts_of(kind, rest):
    """Returns the expressions of a statement."""
    return {"declare": rest[1:], "assign": rest[1:], "array": rest[1:], "put": rest[1:],
            "reduce": rest[2:], "print": rest, "return": rest, "if": rest[:1], "while": rest[:1], "cut": rest[1:2], "loop": rest[1:3],
            "call": rest[-1] if kind == "call" else []}.get(kind, [])


def blocks_of(kind, rest):
    """Returns the blocks of a statement."""
    blocks = {"if": rest[1:], "while": rest[1:], "scope": rest, "region": rest[1:], "cut": rest[-1:], "loop": rest[-1:]}
    return [block for block in blocks.get(kind, []) if block is not None]


# The reports.

def parallelism(work, span):
    thousandths = 1000 * work // span if span else 0
    return "%d.%03d" % (thousandths // 1000, thousandths % 1000)


def total_line(kind, name, total):
    return "%s %s = %s" % (kind, name, "none" if total is None else "%d" % total)


def run_text(run):
    lines = ["%d" % value for value in run.lines]
    if run.trap is None:
        lines += [total_line(run.program.kinds[name], name, run.totals[name]) for name in run.program.reducers]
        lines.append("return %d" % run.value)
    return "".join(line + "\n" for line in lines)


def scale_text(run, burden):
    def line(tag, work, span, burdened):
        fields = (tag, work, span, parallelism(work, span), burdened, parallelism(work, burdened))
        return "%s,%d,%d,%s,%d,%s\n" % fields

    tree, tags = run.tree, run.program.tags
    rows = Rows(burden, tree, len(run.program.sites) + 1, tags).regions
    text = "tag,work,span,parallelism,burdened_span,burdened_parallelism\n"
    text += line("", tree.work, tree.span, burdened_span(burden, tree))
    return text + "".join(line(tag, rows[tag].work, rows[tag].span, rows[tag].burdened) for tag in tags)


def sites_text(run):
    main = run.program.functions["main"]
    heads = [("root", main.line, "main")]
    heads += [("spawn" if site.spawns else "call", site.line, site.callee) for site in run.program.sites]
    text = "site,kind,line,callee,calls,own_work,own_span,work,span\n"
    rows = Rows(Burden(0), run.tree, len(heads), run.program.tags).sites
    for number, (head, row) in enumerate(zip(heads, rows)):
        counts = (row.calls, row.own_work, row.own_span, row.work, row.span)
        text += "%d,%s,%d,%s,%d,%d,%d,%d,%d\n" % ((number,) + head + counts)
    return text


def gain_text(run, burden, top):
    """Returns the report of the `top` functions with the largest own spans, with the spans if all their sites were free."""
    def line(name, counts, tree):
        fields = (name, *counts, tree.span, parallelism(run.tree.work, tree.span), burdened_span(burden, tree))
        return "%s,%d,%d,%d,%d,%d,%s,%d\n" % fields

    callees = ["main"] + [site.callee for site in run.program.sites]
    rows = Rows(burden, run.tree, len(callees), run.program.tags).sites
    counted = []
    for name, function in run.program.functions.items():
        own = [row for callee, row in zip(callees, rows) if callee == name]
        sums = [sum(getattr(row, field) for row in own) for field in ("calls", "own_work", "own_span")]
        counted.append((name, [function.line] + sums))
    largest = sorted((it for it in counted if it[1][3] > 0), key=lambda it: -it[1][3])[:top]
    text = "function,line,calls,own_work,own_span,span_if_free,parallelism_if_free,burdened_span_if_free\n"
    text += line("", [0, 0, run.tree.work, run.tree.span], run.tree)
    for name, counts in largest:
        frees = {number for number, callee in enumerate(callees) if callee == name}
        text += line(name, counts, freed(run.tree, frees))
    return text


def greedy_text(run, processors):
    fields = (processors, run.tree.work, run.tree.span, greedy_length(run.tree, processors))
    return "processors,work,span,greedy\n%d,%d,%d,%d\n" % fields


def processor_counts(most):
    """Returns the powers of two below a number of processors, and then the number."""
    return [2**k for k in range(most.bit_length()) if 2**k < most] + [most]


def speedup_text(run, burden, most):
    """Returns the steps and the speedup for each number of processors, with their bound and the estimate with burdens."""
    work, span, burdened = run.tree.work, run.tree.span, burdened_span(burden, run.tree)
    text = "processors,steps,speedup,speedup_bound,burdened_steps,burdened_speedup\n"
    for processors in processor_counts(most):
        steps = greedy_length(run.tree, processors)
        bound = min(1000 * processors, 1000 * work // span)
        estimate = (work + (processors - 1) * burdened) // processors
        fields = (processors, steps, parallelism(work, steps), bound // 1000, bound % 1000, estimate, parallelism(work, estimate))
        text += "%d,%d,%s,%d.%03d,%d,%s\n" % fields
    return text


def text_of(mode, run, burden, processors, top):
    """Returns the report of a run that finished."""
    if mode == "run":
        return run_text(run)
    if mode == "scale":
        return scale_text(run, burden)
    if mode == "gain":
        return gain_text(run, burden, top)
    if mode == "speedup":
        return speedup_text(run, burden, processors)
    return sites_text(run) if mode == "sites" else greedy_text(run, processors)


def report(mode, run, burden, processors=1, top=10, aligned=False):
    """Returns the exit status, standard output and standard error of a run. It does not check the maximum of strands."""
    if run.is_over:
        return 4, "", "over limit\n"
    if run.trap:
        return 3, run_text(run) if mode == "run" else "", "trap %d line %d\n" % (run.trap.code, run.trap.line)
    text = text_of(mode, run, burden, processors, top)
    return 0, table(mode, text) if aligned and mode in TABLES else text, ""


def main():
    words, limit, charge, edges, top, most, positions = sys.argv[1:], 1000000000, 15000, "spawn", 10, 64, []
    aligned = "--table" in words
    words = [word for word in words if word != "--table"]
    while words:
        word = words.pop(0)
        if word == "--limit":
            limit = int(words.pop(0))
        elif word == "--burden":
            charge = int(words.pop(0))
        elif word == "--edges":
            edges = words.pop(0)
        elif word == "--top":
            top = int(words.pop(0))
        elif word == "--processors":
            most = int(words.pop(0))
        else:
            positions.append(word)
    mode = positions.pop(0)
    processors = int(positions.pop(0)) if mode == "greedy" else most
    path, *arguments = positions
    with open(path) as file:
        run = Run(Program(file.read()), [int(word) for word in arguments], limit)
    status, out, err = report(mode, run, Burden(charge, edges), processors, top, aligned)
    sys.stdout.write(out)
    sys.stderr.write(err)
    return status


def deep(job):
    """Runs a function with a stack for the deepest programs, and returns its value."""
    sys.setrecursionlimit(10000000)
    threading.stack_size(512 * 1024 * 1024)
    values = []
    thread = threading.Thread(target=lambda: values.append(job()))
    thread.start()
    thread.join()
    if not values:
        raise SystemExit(1)
    return values[0]


if __name__ == "__main__":
    sys.exit(deep(main))
