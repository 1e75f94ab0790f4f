"""Parses a program that `cilkwork check` accepts. It checks no rule; on another source it raises some exception."""
import re

SPACE = re.compile(r"(?:\s|//[^\n]*)*")
TOKEN = re.compile(r"\d+|[A-Za-z_]\w*|<=|>=|==|!=|\+=|\+\+|[-+*/%<>=!(){}\[\],;]")
LEVELS = [["==", "!="], ["<", "<=", ">", ">="], ["+", "-"], ["*", "/", "%"]]


class Function:
    def __init__(self, returns_value, line, name, params, body):
        self.returns_value, self.line, self.name, self.params, self.body = returns_value, line, name, params, body


class Site:
    """A call statement: its line, whether it spawns, and its callee."""

    def __init__(self, line, spawns, callee):
        self.line, self.spawns, self.callee = line, spawns, callee


class Program:
    """A parsed program: items with their lines, reducers with the kind of the first one of each name, functions in source order and
    by name, sites, and tags in the order of their first use."""

    def __init__(self, text):
        self.items, self.reducers, self.kinds, self.written = [], [], {}, []
        self.functions, self.sites, self.tags = {}, [], []
        reader = Reader(text, self)
        while reader.peek():
            line = reader.lines[reader.at]
            if reader.take("reducer"):
                kind = "max" if reader.take("max") else reader.expect("sum")
                self.reducers.append(reader.next())
                self.kinds.setdefault(self.reducers[-1], kind)
                self.items.append((self.reducers[-1], line))
                reader.expect(";")
            else:
                function = reader.function()
                self.written.append(function)
                self.items.append((function.name, function.line))
                self.functions.setdefault(function.name, function)


class Reader:
    def __init__(self, text, program):
        self.tokens, self.lines, self.at, self.program = [], [], 0, program
        end, line = 0, 1
        while True:
            place = SPACE.match(text, end).end()
            line += text.count("\n", end, place)
            if place == len(text):
                return
            token = TOKEN.match(text, place)
            self.tokens.append(token.group())
            self.lines.append(line)
            end = token.end()

    def peek(self, ahead=0):
        return self.tokens[self.at + ahead] if self.at + ahead < len(self.tokens) else ""

    def next(self):
        self.at += 1
        return self.tokens[self.at - 1]

    def take(self, token):
        found = self.peek() == token
        self.at += found
        return found

    def expect(self, token):
        if not self.take(token):
            raise SyntaxError("%s expected in line %d" % (token, self.lines[self.at]))
        return token

    def list(self, one):
        self.expect("(")
        items = []
        while not self.take(")"):
            items.append(one())
            self.take(",")
        return items

    def function(self):
        returns_value, line = self.next() == "int", self.lines[self.at]
        return Function(returns_value, line, self.next(), self.list(self.param), self.block())

    def param(self):
        """Returns a parameter's name and its kind: `int`, `array` or `const`, an array that is only read."""
        is_const = self.take("const")
        self.expect("int")
        name = self.next()
        if not is_const and not self.take("["):
            return name, "int"
        if is_const:
            self.expect("[")
        self.expect("]")
        return name, "const" if is_const else "array"

    def block(self):
        self.expect("{")
        body = []
        while not self.take("}"):
            body.append((self.lines[self.at],) + self.statement())
        return body

    def statement(self):
        token = self.peek()
        if token in ("int", "if", "while", "cut", "region", "print", "return"):
            return getattr(self, "a_" + self.next())()
        if token == "cilk_for":
            self.next()
            return self.loop()
        if self.take("cilk_scope"):
            return ("scope", self.block())
        if self.take("cilk_sync"):
            return self.ended(("sync",))
        if token == "cilk_spawn" or self.peek(1) == "(":
            return self.call(None)
        return self.named()

    def ended(self, statement):
        self.expect(";")
        return statement

    def a_int(self):
        name = self.next()
        if self.take("["):
            size = self.expr()
            self.expect("]")
            return self.ended(("array", name, size))
        self.expect("=")
        return self.ended(("declare", name, self.expr()))

    def test(self):
        self.expect("(")
        test = self.expr()
        self.expect(")")
        return test

    def a_if(self):
        test, then = self.test(), self.block()
        return ("if", test, then, self.block() if self.take("else") else None)

    def a_while(self):
        return ("while", self.test(), self.block())

    def a_cut(self):
        name = self.next()
        self.expect("at")
        place = self.expr()
        self.expect("as")
        left = self.next()
        self.expect(",")
        return ("cut", name, place, left, self.next(), self.block())

    def a_region(self):
        tag = self.next()
        if tag not in self.program.tags:
            self.program.tags.append(tag)
        return ("region", tag, self.block())

    def a_print(self):
        return self.ended(("print", self.test()))

    def a_return(self):
        return self.ended(("return", None if self.peek() == ";" else self.expr()))

    def loop(self):
        self.expect("(")
        self.expect("int")
        name = self.next()
        self.expect("=")
        first = self.expr()
        self.expect(";")
        self.next()
        self.expect("<")
        end = self.expr()
        self.expect(";")
        self.next()
        self.expect("++")
        self.expect(")")
        grain = int(self.next()) if self.take("grain") else 64
        over = self.list(self.next) if self.take("over") else []
        return ("loop", name, first, end, grain, over, self.block())

    def call(self, target):
        line, spawns = self.lines[self.at - (2 if target else 0)], self.take("cilk_spawn")
        callee = self.next()
        self.program.sites.append(Site(line, spawns, callee))
        site = len(self.program.sites)
        return self.ended(("call", spawns, site, target, callee, self.list(self.expr)))

    def named(self):
        name = self.next()
        if self.take("+="):
            return self.ended(("reduce", "sum", name, self.expr()))
        if self.take("max"):
            self.expect("=")
            return self.ended(("reduce", "max", name, self.expr()))
        if self.take("["):
            index = self.expr()
            self.expect("]")
            self.expect("=")
            return self.ended(("put", name, index, self.expr()))
        self.expect("=")
        is_call = self.peek()[0].isidentifier() and self.peek() != "len" and self.peek(1) == "("
        if is_call or self.peek() == "cilk_spawn":
            return self.call(name)
        return self.ended(("assign", name, self.expr()))

    def expr(self, level=0):
        if level == len(LEVELS):
            return self.unary()
        left = self.expr(level + 1)
        while self.peek() in LEVELS[level]:
            operator = self.next()
            left = ("binary", operator, left, self.expr(level + 1))
        return left

    def unary(self):
        if self.take("-"):
            return ("minus", self.unary())
        if self.take("!"):
            return ("not", self.unary())
        if self.take("("):
            inner = self.expr()
            self.expect(")")
            return inner
        token = self.next()
        if token.isdigit():
            return ("number", int(token))
        if token == "len":
            self.expect("(")
            name = self.next()
            self.expect(")")
            return ("length", name)
        if self.take("["):
            index = self.expr()
            self.expect("]")
            return ("element", token, index)
        return ("name", token)
