#!/usr/bin/env python3
"""Checks whether programs keep the rules of names, types and ownership.

    rules.py FILE..

It prints `ok` for a program, or the number of the fault (3 for names and types, 4 for ownership), the first line that breaks a
rule, and the reason. It checks no limit, and not that the three names in the head of a loop are the same.
"""
import sys

from syntax import Program


class Faults:
    """The lines that break a rule, each with its reason, and the current line."""

    def __init__(self):
        self.found, self.line = [], 1

    def require(self, holds, reason):
        if not holds:
            self.found.append((self.line, reason))


def names_in(e):
    """Returns the names that an expression reads, each with a flag: whether it is read as an array."""
    kind = e[0]
    if kind == "number":
        return []
    if kind in ("name", "length"):
        return [(e[1], kind == "length")]
    if kind == "element":
        return [(e[1], True)] + names_in(e[2])
    return [found for part in e[1:] if isinstance(part, tuple) for found in names_in(part)]


class Types(Faults):
    """The rules of names and types."""

    def __init__(self, program):
        super().__init__()
        self.program, self.globals = program, set()
        self.require("main" in program.functions, "no main")
        for name, self.line in program.items:
            self.require(name not in self.globals, name + " is declared twice")
            self.globals.add(name)
        for function in program.written:
            self.function(function)

    def function(self, function):
        self.known, self.line, self.returns_value = {}, function.line, function.returns_value
        for name, kind in function.params:
            self.declare(name, kind)
        self.require(not self.returns_value or surely_returns(function.body), "may end without a return")
        arrays = any(kind != "int" for _, kind in function.params)
        self.require(function.name != "main" or self.returns_value and not arrays, "main is not an int function of integers")
        self.block(function.body, True)

    def declare(self, name, kind):
        self.require(name not in self.known and name not in self.globals, name + " is declared twice")
        self.known[name] = kind

    def use(self, name, *kinds):
        self.require(self.known.get(name) in kinds, name + " is not declared, or has another kind")

    def expr(self, e):
        for name, is_array in names_in(e):
            self.use(name, *(("array", "const") if is_array else ("int",)))

    def block(self, body, may_return, declared=()):
        outside = dict(self.known)
        for name, kind in declared:
            self.declare(name, kind)
        for place, (line, kind, *rest) in enumerate(body):
            self.line = line
            self.require(place + 1 == len(body) or not surely_returns([body[place]]), "the next statement is never reached")
            getattr(self, "of_" + kind)(may_return, *rest)
        self.known = outside

    def of_declare(self, may_return, name, e):
        self.expr(e)
        self.declare(name, "int")

    def of_array(self, may_return, name, e):
        self.expr(e)
        self.declare(name, "array")

    def of_assign(self, may_return, name, e):
        self.use(name, "int")
        self.expr(e)

    def of_put(self, may_return, name, index, e):
        self.use(name, "array")
        self.expr(index)
        self.expr(e)

    def of_reduce(self, may_return, kind, name, e):
        self.require(self.program.kinds.get(name) == kind, "no such reducer")
        self.expr(e)

    def of_print(self, may_return, e):
        self.expr(e)

    def of_sync(self, may_return):
        pass

    def of_return(self, may_return, e):
        self.require(may_return and (e is not None) == self.returns_value, "a return inside a sync block, or with the wrong value")
        if e is not None:
            self.expr(e)

    def of_if(self, may_return, e, then, other):
        self.expr(e)
        self.block(then, may_return)
        self.block(other or [], may_return)

    def of_while(self, may_return, e, body):
        self.expr(e)
        self.block(body, may_return)

    def of_scope(self, may_return, body):
        self.block(body, False)

    def of_region(self, may_return, tag, body):
        self.block(body, False)

    def of_cut(self, may_return, name, e, left, right, body):
        self.use(name, "array")
        self.expr(e)
        self.block(body, False, [(left, "array"), (right, "array")])

    def of_loop(self, may_return, name, first, end, grain, over, body):
        self.expr(first)
        self.expr(end)
        for array in over:
            self.use(array, "array")
        self.require(1 <= grain <= 1000000, "the grain is out of range")
        self.block(body, False, [(name, "int")])

    def of_call(self, may_return, spawns, site, target, callee, arguments):
        function = self.program.functions.get(callee)
        self.require(function and callee != "main", "no such function")
        if function is None:
            return
        self.require(len(arguments) == len(function.params), "wrong number of arguments")
        for (_, kind), e in zip(function.params, arguments):
            if kind == "int":
                self.expr(e)
            else:
                kinds = ("array", "const") if kind == "const" else ("array",)
                self.require(e[0] == "name" and self.known.get(e[1]) in kinds, "no such array")
        if target is not None:
            self.use(target, "int")
            self.require(function.returns_value, "a void call has no result")


def surely_returns(body):
    if not body:
        return False
    _, kind, *rest = body[-1]
    return kind == "return" or kind == "if" and rest[2] is not None and all(map(surely_returns, rest[1:]))


class Ownership(Faults):
    """The rules of ownership. `taken` is a set of names, each with the depth of the sync block whose spawn holds it, and a flag:
    whether the name is taken or only frozen."""

    def __init__(self, program):
        super().__init__()
        self.program, self.depth = program, 0
        self.outer, self.loop_arrays, self.variable = set(), set(), None
        for function in program.written:
            self.block(function.body, frozenset(), joins=True)

    def free(self, taken, *names):
        for name in names:
            self.require(all(name != other for other, _, takes in taken if takes), name + " is taken")

    def loose(self, taken, *names):
        for name in names:
            self.require(all(name != other for other, _, _ in taken), name + " is taken or frozen")

    def expr(self, taken, e):
        self.free(taken, *(name for name, _ in names_in(e)))
        self.in_loop(e)

    def in_loop(self, e):
        """Requires that a loop over an array reads only its own element, and names no other array from outside."""
        if e[0] == "element" and e[1] in self.loop_arrays:
            self.require(e[2] == ("name", self.variable), "another element of the loop's array")
        elif e[0] in ("element", "length"):
            self.inner(e[1])
        for part in e[1:]:
            if isinstance(part, tuple):
                self.in_loop(part)

    def inner(self, *names):
        for name in names:
            self.require(name not in self.outer | self.loop_arrays, name + " is declared outside the loop")

    def joined(self, taken):
        return frozenset(pair for pair in taken if pair[1] != self.depth)

    def block(self, body, taken, joins=False):
        """Returns what is taken after a block; a sync block joins its own spawns before its names end."""
        self.depth += joins
        own = {}
        for line, kind, *rest in body:
            self.line = line
            taken = getattr(self, "of_" + kind)(taken, *rest)
            if kind in ("declare", "array"):
                own[rest[0]] = line
        if joins:
            taken = self.joined(taken)
            self.depth -= 1
        for name, self.line in own.items():
            self.loose(taken, name)
        return frozenset(pair for pair in taken if pair[0] not in own)

    def of_declare(self, taken, name, e):
        self.expr(taken, e)
        return taken

    of_array = of_declare

    def of_assign(self, taken, name, e):
        self.expr(taken, e)
        self.loose(taken, name)
        self.inner(name)
        return taken

    def of_put(self, taken, name, index, e):
        self.expr(taken, ("element", name, index))
        self.expr(taken, e)
        self.loose(taken, name)
        return taken

    def of_reduce(self, taken, kind, name, e):
        self.expr(taken, e)
        return taken

    def of_print(self, taken, e):
        self.expr(taken, e)
        return taken

    def of_sync(self, taken):
        return self.joined(taken)

    def of_return(self, taken, e):
        if e is not None:
            self.expr(taken, e)
        return self.joined(taken)

    def of_if(self, taken, e, then, other):
        self.expr(taken, e)
        branches = [(body, self.block(body, taken)) for body in (then, other or [])]
        return frozenset().union(*(after for body, after in branches if not surely_returns(body)))

    def of_while(self, taken, e, body):
        line = self.line
        while True:
            self.line = line
            self.expr(taken, e)
            more = taken | self.block(body, taken)
            if more == taken:
                return taken
            taken = more

    def of_scope(self, taken, body):
        return self.block(body, taken, joins=True)

    def of_region(self, taken, tag, body):
        return self.block(body, taken, joins=True)

    def of_cut(self, taken, name, e, left, right, body):
        self.expr(taken, e)
        self.loose(taken, name)
        self.inner(name)
        return self.block(body, taken | {(name, None, True)}, joins=True) - {(name, None, True)}

    def of_loop(self, taken, name, first, end, grain, over, body):
        self.expr(taken, first)
        self.expr(taken, end)
        self.inner(*(array for array, is_array in names_in(first) + names_in(end) if is_array))
        self.loose(taken, *over)
        self.inner(*over)
        self.require(len(set(over)) == len(over), "the same array twice")
        outside = self.outer, self.loop_arrays, self.variable
        self.outer = self.outer | self.loop_arrays | self.known_outside(body) - set(over)
        self.loop_arrays, self.variable = set(over), name
        self.block(body, taken, joins=True)
        self.outer, self.loop_arrays, self.variable = outside
        return taken

    def known_outside(self, body):
        """Returns the names that a loop's body uses and does not declare."""
        named, own = names_of(body)
        return named - own

    def of_call(self, taken, spawns, site, target, callee, arguments):
        params = self.program.functions[callee].params
        given, read = ([e[1] for (_, kind), e in zip(params, arguments) if kind == passed] for passed in ("array", "const"))
        for (_, kind), e in zip(params, arguments):
            if kind == "int":
                self.expr(taken, e)
        self.loose(taken, *given)
        self.free(taken, *read)
        self.inner(*given, *read)
        self.require(len(set(given)) == len(given) and not set(given) & set(read), "the same array twice")
        if target is not None:
            self.loose(taken, target)
            self.inner(target)
            given.append(target)
        if not spawns:
            return taken
        return taken | {(name, self.depth, True) for name in given} | {(name, self.depth, False) for name in read}


def names_of(body):
    """Returns all names in a body, and those that it declares."""
    named, own = set(), set()
    for _, kind, *rest in body:
        if kind in ("declare", "array"):
            own.add(rest[0])
        if kind in ("assign", "put", "cut"):
            named.add(rest[0])
        if kind == "cut":
            own.update(rest[2:4])
        if kind == "loop":
            own.add(rest[0])
            named.update(rest[4])
        if kind == "call":
            named.update(rest[2:3] if rest[2] else [])
        for part in (rest[4] if kind == "call" else rest):
            if isinstance(part, tuple):
                named.update(name for name, _ in names_in(part))
            elif isinstance(part, list) and part and isinstance(part[0], tuple) and isinstance(part[0][0], int):
                inner, declared = names_of(part)
                named |= inner
                own |= declared
    return named, own


def broken(program):
    """Returns the number of the fault of a program that breaks a rule, its line and the reason, or None."""
    for number, rules in ((3, Types), (4, Ownership)):
        found = rules(program).found
        if found:
            return (number,) + min(found)
    return None


if __name__ == "__main__":
    for path in sys.argv[1:]:
        with open(path) as file:
            print(path, *broken(Program(file.read())) or ["ok"])
