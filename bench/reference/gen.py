#!/usr/bin/env python3
"""Prints the random program of a seed, which keeps the rules of the language.

    gen.py SEED [no-loops] [consts]

The programs have recursive and other calls, arrays, cuts, loops, regions and reducers. Most of them finish; some trap, and few
run long.
"""
import random
import re
import sys

SMALL = "0 1 2 3 4 5 6 7 10 100".split()
LARGE = ["9223372036854775807", "-9223372036854775807"]
OPERATORS = "+ - * < <= > >= == != + - + - *".split()
TAGS = ["red", "green", "blue"]
SIGNS = {"sum": "+=", "max": "max="}
DEEPEST = 3  # nested blocks
UPDATE = re.compile(r"( *s\d )(\+=|max=)( .*;)")
CALL = re.compile(r"( *)(\w+ = )?(f\d+\(.*\);)")


def indented(lines):
    return ["  " + line for line in lines]


class Function:
    """A function. Kinds of parameters: `i` an integer, `a` an array, `c` an array that is only read, `d` the number of further levels of
    a recursion."""

    def __init__(self, name, returns_value, params):
        self.name, self.returns_value, self.params = name, returns_value, params


class Names:
    """The names in scope: integers and arrays, names that must not be written, the arrays of enclosing cuts and loops, and for
    each enclosing sync block the names that its spawns hold, with a flag: whether the name is taken or only frozen."""

    def __init__(self):
        self.known, self.arrays, self.fixed = [], set(), set()
        self.cut, self.loop_arrays, self.loop_variable, self.held = [], [], None, [set()]

    def is_free(self, name):
        return name not in self.cut and not any((name, True) in block for block in self.held)

    def is_loose(self, name):
        return self.is_free(name) and not any((name, False) in block for block in self.held)

    def integers(self):
        return [name for name in self.known if name not in self.arrays and self.is_free(name)]

    def written(self):
        return [name for name in self.integers() if name not in self.fixed]

    def free_arrays(self):
        return [name for name in self.known if name in self.arrays and self.is_free(name)]

    def written_arrays(self):
        return [name for name in self.free_arrays() if self.is_loose(name) and name not in self.fixed]

    def add(self, name, is_array=False, is_fixed=False):
        self.known.append(name)
        if is_array:
            self.arrays.add(name)
        if is_fixed:
            self.fixed.add(name)

    def in_loop(self, variable, over):
        inner = Names()
        for name in self.integers():
            inner.add(name, is_fixed=True)
        inner.add(variable, is_fixed=True)
        inner.loop_arrays, inner.loop_variable = over, variable
        return inner


class Generator:
    def __init__(self, seed, with_loops=True, with_consts=False):
        self.random, self.with_loops, self.with_consts = random.Random(seed), with_loops, with_consts
        self.made, self.lines, self.functions, self.reducers = 0, [], [], []
        self.names, self.itself, self.count = Names(), None, None

    def chance(self, share):
        return self.random.random() < share

    def pick(self, items):
        return self.random.choice(items)

    def new(self, letter):
        self.made += 1
        return "%s%d" % (letter, self.made)

    # Expressions.

    def expr(self, depth=0):
        integers = self.names.integers()
        kind = self.random.random()
        if depth > 2 or kind < 0.35:
            if integers and self.chance(0.7):
                return self.pick(integers)
            return self.pick(SMALL if self.chance(0.98) else LARGE)
        if kind < 0.6:
            return self.of_array(depth) or self.expr(depth + 1)
        if kind < 0.68:
            return "%s(%s)" % (self.pick("-!"), self.expr(depth + 1))
        operator = self.pick(OPERATORS) if self.chance(0.96) else self.pick("/%")
        return "(%s %s %s)" % (self.expr(depth + 1), operator, self.expr(depth + 1))

    def of_array(self, depth):
        if self.names.loop_arrays and self.chance(0.4):
            return "%s[%s]" % (self.pick(self.names.loop_arrays), self.names.loop_variable)
        if not self.names.free_arrays():
            return None
        array = self.pick(self.names.free_arrays())
        if self.chance(0.4):
            return "len(%s)" % array
        return "%s[%s]" % (array, self.index(depth))

    def index(self, depth):
        return self.pick("012") if self.chance(0.98) else self.expr(depth + 1)

    # Statements: each method returns its lines, and no line if there is no name that the statement could use.

    def statement(self, depth):
        kinds = ["declare"] * 14 + ["array"] * 6 + ["assign"] * 14 + ["store"] * 12 + ["print"] * 4 + ["reduce"] * 4
        kinds += ["sync"] * 4 + ["call"] * 20
        if depth < DEEPEST:
            kinds += ["branch"] * 6 + ["while"] * 6 + ["scope"] * 3 + ["region"] * 4 + ["cut"] * 7 + ["recursion"] * 6
        if depth < 2 and self.with_loops and not self.names.loop_arrays:
            kinds += ["loop"] * 6
        return getattr(self, "a_" + self.pick(kinds))(depth)

    def block(self, depth):
        """Returns the lines of some statements. If a spawn holds a name that they declare, a sync ends the block."""
        outside, lines = len(self.names.known), []
        for _ in range(self.random.randint(1, 4)):
            lines += self.statement(depth)
        if not all(self.names.is_loose(name) for name in self.names.known[outside:]):
            lines += self.a_sync(depth)
        del self.names.known[outside:]
        return lines

    def sync_block(self, depth):
        self.names.held.append(set())
        lines = self.block(depth)
        self.names.held.pop()
        return lines

    def a_declare(self, depth):
        value, name = self.expr(), self.new("x")
        self.names.add(name)
        return ["int %s = %s;" % (name, value)]

    def a_array(self, depth):
        length = str(self.random.randint(3, 6)) if self.chance(0.95) else self.expr()
        name = self.new("a")
        self.names.add(name, is_array=True)
        return ["int %s[%s];" % (name, length)]

    def a_assign(self, depth):
        written = self.names.written()
        return ["%s = %s;" % (self.pick(written), self.expr())] if written else []

    def a_store(self, depth):
        if self.names.loop_arrays and self.chance(0.5):
            return ["%s[%s] = %s;" % (self.pick(self.names.loop_arrays), self.names.loop_variable, self.expr())]
        arrays = self.names.written_arrays()
        return ["%s[%s] = %s;" % (self.pick(arrays), self.index(1), self.expr())] if arrays else []

    def a_print(self, depth):
        return ["print(%s);" % self.expr()]

    def a_reduce(self, depth):
        if not self.reducers:
            return []
        name, kind = self.pick(self.reducers)
        return ["%s %s %s;" % (name, SIGNS[kind], self.expr())]

    def a_sync(self, depth):
        self.names.held[-1].clear()
        return ["cilk_sync;"]

    def a_branch(self, depth):
        test, before = self.expr(), [set(block) for block in self.names.held]
        lines = ["if (%s) {" % test] + indented(self.block(depth + 1)) + ["}"]
        if self.chance(0.5):
            after, self.names.held = self.names.held, before
            lines[-1:] = ["} else {"] + indented(self.block(depth + 1)) + ["}"]
            before = after
        self.names.held = [one | other for one, other in zip(before, self.names.held)]
        return lines

    def a_while(self, depth):
        """Returns a `while` of a few iterations; an iteration ends with a sync if its spawns hold names."""
        count, before = self.new("w"), [set(block) for block in self.names.held]
        self.names.add(count, is_fixed=True)
        body = self.block(depth + 1)
        if self.names.held[-1]:
            body += self.a_sync(depth)
        self.names.held = before
        body.append("%s = %s + 1;" % (count, count))
        head = "while (%s < %d) {" % (count, self.random.randint(1, 3))
        return ["int %s = 0;" % count, head] + indented(body) + ["}"]

    def a_scope(self, depth):
        return ["cilk_scope {"] + indented(self.sync_block(depth + 1)) + ["}"]

    def a_region(self, depth):
        return ["region %s {" % self.pick(TAGS)] + indented(self.sync_block(depth + 1)) + ["}"]

    def a_cut(self, depth):
        if not self.names.written_arrays():
            return []
        array, left, right = self.pick(self.names.written_arrays()), self.new("l"), self.new("r")
        place = self.pick(["len(%s) / 2" % array, "0", "1", "len(%s)" % array]) if self.chance(0.97) else self.expr()
        self.names.cut.append(array)
        self.names.add(left, is_array=True)
        self.names.add(right, is_array=True)
        body = self.sync_block(depth + 1)
        self.names.cut.pop()
        del self.names.known[-2:]
        return ["cut %s at %s as %s, %s {" % (array, place, left, right)] + indented(body) + ["}"]

    def a_loop(self, depth):
        arrays = self.names.written_arrays()
        over = self.random.sample(arrays, min(len(arrays), self.random.randint(0, 2)))
        variable = self.new("i")
        first = self.pick("001") if over else self.pick(["0", "0", "1", "-2", "3"])
        end = "len(%s)" % over[0] if len(over) == 1 else self.pick("0123") if over else str(self.random.randint(0, 9))
        outside, self.names = self.names, self.names.in_loop(variable, over)
        body = self.block(depth + 1)
        self.names = outside
        head = "cilk_for (int %s = %s; %s < %s; %s++)" % (variable, first, variable, end, variable)
        head += " grain %d" % self.random.randint(1, 4) if self.chance(0.7) else ""
        head += " over (%s)" % ", ".join(over) if over else ""
        return [head + " {"] + indented(body) + ["}"]

    def a_call(self, depth):
        return self.called(self.pick(self.functions)) if self.functions else []

    def a_recursion(self, depth):
        call = self.called(self.itself) if self.itself else []
        return ["if (%s > 0) {" % self.count] + indented(call) + ["}"] if call else []

    def called(self, function):
        """Returns a call or spawn of a function, or no line if there are too few arrays for it."""
        given, read, arguments = [], [], []
        for kind in function.params:
            there = self.names.free_arrays() if kind == "c" else self.names.written_arrays()
            arrays = [name for name in there if name not in (given if kind == "c" else given + read)]
            if kind in "ac" and not arrays:
                return []
            if kind in "ac":
                arguments.append(self.pick(arrays))
                (given if kind == "a" else read).append(arguments[-1])
            elif kind == "i":
                arguments.append(self.expr(1))
            else:
                arguments.append(self.count + " - 1" if function is self.itself else self.pick("0123"))
        targets = self.names.written()
        target = self.pick(targets) if function.returns_value and targets and self.chance(0.7) else None
        spawns = self.chance(0.6)
        if spawns:
            self.names.held[-1].update((name, True) for name in given + [target] * (target is not None))
            self.names.held[-1].update((name, False) for name in read)
        words = (target + " = " if target else "") + ("cilk_spawn " if spawns else "")
        return ["%s%s(%s);" % (words, function.name, ", ".join(arguments))]

    # Items.

    def function(self, name, returns_value, params):
        function = Function(name, returns_value, params)
        self.names, self.itself, self.count, heads = Names(), None, None, []
        for kind in params:
            param = self.new("q" if kind in "ac" else "p")
            self.names.add(param, is_array=kind in "ac", is_fixed=kind in "cd")
            heads.append("%sint %s%s" % ("const " if kind == "c" else "", param, "[]" if kind in "ac" else ""))
            if kind == "d":
                self.itself, self.count = function, param
        body = []
        for _ in range(self.random.randint(6, 12) if name == "main" else self.random.randint(2, 7)):
            body += self.statement(0)
        if returns_value:
            body.append("return %s;" % self.expr())
        elif self.chance(0.2):
            body.append("return;")
        self.lines += ["%s %s(%s) {" % ("int" if returns_value else "void", name, ", ".join(heads))]
        self.lines += indented(body) + ["}"]
        return function

    def program(self):
        self.reducers = [("s%d" % number, self.pick(["sum", "max"])) for number in range(self.random.randint(0, 3))]
        self.lines = ["reducer %s %s;" % (kind, name) for name, kind in self.reducers]
        for number in range(self.random.randint(1, 4)):
            params = ["d"] * self.chance(0.5) + [self.pick("iiac" if self.with_consts else "iia") for _ in range(self.random.randint(0, 3))]
            self.functions.append(self.function("f%d" % number, self.chance(0.5), params))
        self.function("main", True, ["i"] * self.random.randint(0, 2))
        return "\n".join(self.lines) + "\n"


def mutant(source, seed):
    """Returns the source with one change, which may break a rule: a sync removed, a call made a spawn, a reducer updated by the
    other operator, a statement repeated, two statements exchanged, or `const` added to a parameter or removed from it."""
    lines, chosen = source.splitlines(), random.Random(seed)
    heads = [place for place, line in enumerate(lines) if "[]" in line]
    if "const " in source and chosen.random() < 0.25:
        one = chosen.choice(heads)
        arrays = re.findall(r"(?:const )?int q\d+\[\]", lines[one])
        found = chosen.choice(arrays)
        lines[one] = lines[one].replace(found, found[6:] if found.startswith("const ") else "const " + found)
        return "\n".join(lines) + "\n"
    places = [place for place, line in enumerate(lines) if line.startswith("  ") and line.endswith(";")]
    syncs = [place for place in places if lines[place].strip() == "cilk_sync;"]
    calls = [place for place in places if CALL.fullmatch(lines[place])]
    updates = [place for place in places if UPDATE.fullmatch(lines[place])]
    one, other, kind = chosen.choice(places), chosen.choice(places), chosen.randrange(7)
    if kind < 2 and syncs:
        del lines[chosen.choice(syncs)]
    elif kind < 4 and calls:
        one = chosen.choice(calls)
        lines[one] = CALL.sub(r"\1\2cilk_spawn \3", lines[one])
    elif kind == 4 and updates:
        one = chosen.choice(updates)
        before, sign, after = UPDATE.fullmatch(lines[one]).groups()
        lines[one] = before + ("+=" if sign == "max=" else "max=") + after
    elif kind == 5:
        lines.insert(one, lines[one])
    else:
        lines[one], lines[other] = lines[other], lines[one]
    return "\n".join(lines) + "\n"


if __name__ == "__main__":
    print(Generator(int(sys.argv[1]), "no-loops" not in sys.argv, "consts" in sys.argv).program(), end="")
