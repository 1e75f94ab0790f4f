#!/usr/bin/env python3
"""Compiles a program to the instructions that `switch.c` and `measures.c` execute, one for each unit of cost.

    python3 compile.py PROGRAM.cilk > PROGRAM.code

The program must be one that `cilkwork check` accepts; the script checks nothing. The output has a line for each function
(first instruction, number of integer slots, of array slots, of integer parameters, of array parameters) and a line for each
instruction.
"""
import re
import sys

TOKEN = re.compile(r"\s*(?://[^\n]*\s*)*(\d+|[A-Za-z_]\w*|<=|>=|==|!=|\+=|\+\+|[-+*/%<>=!(){}\[\],;])")
LEVELS = [["==", "!="], ["<", "<=", ">", ">="], ["+", "-"], ["*", "/", "%"]]
OPERATORS = {"+": "ADD", "-": "SUB", "*": "MUL", "/": "DIV", "%": "REM", "<": "LT", "<=": "LE", ">": "GT",
             ">=": "GE", "==": "EQ", "!=": "NE"}


class Parser:
    def __init__(self, text):
        text = re.sub(r"//[^\n]*", " ", text)
        self.tokens, self.at = TOKEN.findall(text), 0
        self.sites = 0

    def peek(self, ahead=0):
        return self.tokens[self.at + ahead] if self.at + ahead < len(self.tokens) else ""

    def next(self):
        self.at += 1
        return self.tokens[self.at - 1]

    def list(self, one):
        items = []
        self.next()
        while self.peek() != ")":
            items.append(one())
            if self.peek() == ",":
                self.next()
        self.next()
        return items

    def program(self):
        reducers, functions = [], []
        while self.peek():
            if self.peek() == "reducer":
                self.next()
                kind = self.next()
                reducers.append((self.next(), kind))
                self.next()
            else:
                self.next()
                name = self.next()
                params = self.list(self.param)
                functions.append((name, params, self.block()))
        return reducers, functions

    def param(self):
        if self.next() == "const":
            self.next()
        name = self.next()
        if self.peek() == "[":
            self.at += 2
            return name, True
        return name, False

    def block(self):
        self.next()
        body = []
        while self.peek() != "}":
            body.append(self.statement())
        self.next()
        return body

    def test(self):
        self.next()
        e = self.expr()
        self.next()
        return e

    def until(self, closing=";"):
        e = self.expr()
        for _ in closing:
            self.next()
        return e

    def call(self, target):
        spawned = self.peek() == "cilk_spawn"
        if spawned:
            self.next()
        name = self.next()
        self.sites += 1
        site = self.sites
        arguments = self.list(self.expr)
        self.next()
        return "call", spawned, target, name, arguments, site

    def statement(self):
        word = self.peek()
        if word == "int":
            self.next()
            name, mark = self.next(), self.next()
            return ("array", name, self.until("];")) if mark == "[" else ("declare", name, self.until())
        if word == "if":
            self.next()
            test, body = self.test(), self.block()
            if self.peek() == "else":
                self.next()
                return "if", test, body, self.block()
            return "if", test, body, None
        if word == "while":
            self.next()
            return "while", self.test(), self.block()
        if word == "cilk_for":
            return self.loop()
        if word == "cilk_scope":
            self.next()
            return "block", self.block()
        if word == "region":
            self.at += 2
            return "block", self.block()
        if word == "cut":
            self.next()
            name = self.next()
            self.next()
            place = self.expr()
            self.next()
            left = self.next()
            self.next()
            right = self.next()
            return "cut", name, place, left, right, self.block()
        if word == "print":
            self.next()
            e = self.test()
            self.next()
            return "print", e
        if word == "return":
            self.next()
            if self.peek() == ";":
                self.next()
                return "return", None
            return "return", self.until()
        if word == "cilk_sync":
            self.at += 2
            return ("sync",)
        if word == "cilk_spawn" or self.peek(1) == "(":
            return self.call(None)
        name, mark = self.next(), self.next()
        if mark == "+=":
            return "reduce", "SUM", name, self.until()
        if mark == "max":
            self.next()
            return "reduce", "MAX", name, self.until()
        if mark == "[":
            index = self.until("]=")
            return "set", name, index, self.until()
        if self.peek() == "cilk_spawn" or (self.peek(1) == "(" and self.peek() not in ("len", "-", "!", "(")):
            return self.call(name)
        return "assign", name, self.until()

    def loop(self):
        self.at += 3
        name = self.next()
        self.next()
        low = self.until()
        self.at += 2
        high = self.until()
        self.at += 3
        grain, over = 64, []
        if self.peek() == "grain":
            self.next()
            grain = int(self.next())
        if self.peek() == "over":
            self.next()
            over = self.list(self.next)
        return "for", name, low, high, grain, over, self.block()

    def expr(self, level=0):
        if level == 4:
            return self.unary()
        left = self.expr(level + 1)
        while self.peek() in LEVELS[level]:
            left = ("binary", self.next(), left, self.expr(level + 1))
        return left

    def unary(self):
        word = self.next()
        if word in "-!":
            return ("negative" if word == "-" else "not"), self.unary()
        if word == "(":
            return self.until(")")
        if word.isdigit():
            return "number", int(word)
        if word == "len":
            self.next()
            name = self.next()
            self.next()
            return "length", name
        if self.peek() == "[":
            self.next()
            return "element", word, self.until("]")
        return "variable", word


class Compiler:
    def __init__(self, reducers, functions):
        self.reducers, self.code = reducers, []
        self.indices = {name: k for k, (name, _, _) in enumerate(functions)}
        self.takes = {name: [array for _, array in params] for name, params, _ in functions}
        self.functions = list(functions)
        self.rows = []
        k = 0
        while k < len(self.functions):
            self.function(*self.functions[k])
            k += 1

    def emit(self, op, a=0, b=0, c=0, passed=()):
        self.code.append([op, a, b, c, list(passed)])
        return len(self.code) - 1

    def function(self, name, params, body):
        self.ints = [n for n, array in params if not array]
        self.arrays = [n for n, array in params if array]
        self.most = [len(self.ints), len(self.arrays)]
        self.shifted = set()
        start, counts = len(self.code), list(self.most)
        if name.startswith("#"):
            body(self)
        else:
            self.block(body)
        if not self.code or self.code[-1][0] != "RETV":
            self.emit("RET")
        self.rows.append((start, self.most[0], self.most[1], counts[0], counts[1]))

    def known(self, name, array=False):
        names = self.arrays if array else self.ints
        names.append(name)
        self.most[array] = max(self.most[array], len(names))
        return len(names) - 1

    def slot(self, name):
        return self.ints.index(name)

    def array(self, name):
        return self.arrays.index(name)

    def block(self, body):
        ints, arrays = len(self.ints), len(self.arrays)
        for statement in body:
            getattr(self, "do_" + statement[0])(*statement[1:])
        del self.ints[ints:], self.arrays[arrays:]

    def expr(self, e):
        kind = e[0]
        if kind == "number":
            self.emit("PUSH", e[1])
        elif kind == "variable":
            self.emit("LOAD", self.slot(e[1]))
        elif kind == "length":
            self.emit("LEN", self.array(e[1]))
        elif kind == "element":
            self.index(e[1], e[2])
            self.emit("GET", self.array(e[1]))
        elif kind == "binary":
            self.expr(e[2])
            self.expr(e[3])
            self.emit(OPERATORS[e[1]])
        else:
            self.expr(e[1])
            self.emit("NEG" if kind == "negative" else "NOT")

    def index(self, name, e):
        self.expr(e)
        if name in self.shifted:
            self.emit("LOAD", 0)
            self.emit("SUB")

    def do_declare(self, name, e):
        self.expr(e)
        self.emit("STORE", self.known(name))

    def do_assign(self, name, e):
        self.expr(e)
        self.emit("STORE", self.slot(name))

    def do_array(self, name, e):
        self.expr(e)
        self.emit("NEW", self.known(name, True))

    def do_set(self, name, i, e):
        self.index(name, i)
        self.expr(e)
        self.emit("SET", self.array(name))

    def do_reduce(self, op, name, e):
        self.expr(e)
        self.emit(op, [reducer for reducer, _ in self.reducers].index(name))

    def do_print(self, e):
        self.expr(e)
        self.emit("PRINT")

    def do_return(self, e):
        if e:
            self.expr(e)
        self.emit("RETV" if e else "RET")

    def do_sync(self):
        self.emit("SYNC")

    def do_if(self, test, body, other):
        self.expr(test)
        jump = self.emit("JZ")
        self.block(body)
        if other is not None:
            skip = self.emit("JUMP")
            self.code[jump][1] = len(self.code)
            self.block(other)
            self.code[skip][1] = len(self.code)
        else:
            self.code[jump][1] = len(self.code)

    def do_while(self, test, body):
        start = len(self.code)
        self.expr(test)
        jump = self.emit("JZ")
        self.block(body)
        self.emit("JUMP", start)
        self.code[jump][1] = len(self.code)

    def do_block(self, body):
        self.emit("OPEN")
        self.block(body)
        self.emit("CLOSE")

    def do_cut(self, name, place, left, right, body):
        self.expr(place)
        arrays = len(self.arrays)
        l, r = self.known(left, True), self.known(right, True)
        self.emit("CUT", self.array(name), l, r)
        self.block(body)
        del self.arrays[arrays:]
        self.emit("ENDCUT", 0, l, r)

    def do_call(self, spawned, target, name, arguments, site):
        passed = []
        for e, array in zip(arguments, self.takes[name]):
            if array:
                passed.append(self.array(e[1]))
            else:
                self.expr(e)
        result = self.slot(target) if target else -1
        self.emit("SPAWN" if spawned else "CALL", self.indices[name], result, site, passed)

    def do_for(self, name, low, high, grain, over, body):
        self.expr(low)
        self.expr(high)
        captured = self.captured(body, name)
        for n in captured:
            self.emit("LOAD", self.slot(n))
        place = self.emit("START", 0, -1, 0, [self.array(n) for n in over])
        index = len(self.functions)
        self.code[place][1] = index
        params = [("#low", False), ("#high", False)] + [(n, False) for n in captured] + [(n, True) for n in over]
        self.functions.append(("#%d" % index, params, lambda c: c.halves(index, name, grain, captured, over, body)))

    def halves(self, index, name, grain, captured, over, body):
        low, high = ("variable", "#low"), ("variable", "#high")
        length = ("binary", "-", high, low)
        self.expr(("binary", "<=", length, ("number", grain)))
        jump = self.emit("JZ")
        self.do_declare(name, low)
        start = len(self.code)
        self.expr(("binary", "<", ("variable", name), high))
        done = self.emit("JZ")
        self.shifted = set(over)
        self.do_block(body)
        self.shifted = set()
        self.do_assign(name, ("binary", "+", ("variable", name), ("number", 1)))
        self.emit("JUMP", start)
        self.code[done][1] = len(self.code)
        self.ints.pop()
        skip = self.emit("JUMP")
        self.code[jump][1] = len(self.code)
        self.do_declare("#middle", ("binary", "+", low, ("binary", "/", length, ("number", 2))))
        cuts = []
        for n in over:
            self.expr(("binary", "-", ("variable", "#middle"), low))
            l, r = self.known("#l" + n, True), self.known("#r" + n, True)
            self.emit("CUT", self.array(n), l, r)
            cuts.append((l, r))
        for ends, op, side in [(("#low", "#middle"), "FORK", 0), (("#middle", "#high"), "AGAIN", 1)]:
            for n in list(ends) + captured:
                self.emit("LOAD", self.slot(n))
            self.emit(op, index, -1, 0, [pair[side] for pair in cuts])
        for l, r in reversed(cuts):
            self.emit("ENDCUT", 0, l, r)
        self.code[skip][1] = len(self.code)

    def captured(self, body, name):
        found = []

        def read(e, own):
            if e[0] == "variable":
                if e[1] not in own and e[1] in self.ints and e[1] not in found:
                    found.append(e[1])
            elif e[0] == "element":
                read(e[2], own)
            elif e[0] == "binary":
                read(e[2], own)
                read(e[3], own)
            elif e[0] in ("negative", "not"):
                read(e[1], own)

        def walk(body, own):
            own = set(own)
            for kind, *parts in body:
                if kind == "call":
                    for e, array in zip(parts[3], self.takes[parts[2]]):
                        if not array:
                            read(e, own)
                    continue
                for part in parts:
                    if isinstance(part, tuple):
                        read(part, own)
                if kind == "declare":
                    own.add(parts[0])
                elif kind == "for":
                    walk(parts[5], own | {parts[0]})
                else:
                    for part in parts:
                        if isinstance(part, list) and kind in ("if", "while", "block", "cut"):
                            walk(part, own)

        walk(body, {name})
        return found


def main():
    reducers, functions = Parser(open(sys.argv[1]).read()).program()
    made = Compiler(reducers, functions)
    print(len(made.rows), made.indices["main"], len(reducers), len(made.code))
    print(*[int(kind == "max") for _, kind in reducers])
    for row in made.rows:
        print(*row)
    for op, a, b, c, passed in made.code:
        print(op, a, b, c, len(passed), *passed)


main()
