"""Random scripts of all forms of docs/LANGUAGE.md, one statement a line. Most of what they do raises nothing, some of it does. Loops
end, and a block calls only blocks above it. Generators are kept, so that none is closed because nobody has it any more."""
import random

HEAD = """\
K = []
def keep(x):
    K.append(x)
    return x
class Context:
    def __init__(self, value, swallows):
        self.value = value
        self.swallows = swallows
    def __enter__(self):
        return self.value
    def __exit__(self, kind, exception, trace):
        return self.swallows
class Items:
    def __init__(self, most):
        self.most = most
        self.__next = 0
    def __iter__(self):
        return self
    def __next__(self):
        self.__next += 1
        if self.__next > self.most:
            raise StopIteration
        return self.__next
class Fault(Exception):
    pass
def same(f):
    return f
def hook(frame, event, argument):
    return act(frame, event, argument)
def called_back(*arguments):
    return act(*arguments)
""".split("\n")[:-1]
EXCEPTIONS = ["ValueError", "TypeError", "ZeroDivisionError", "IndexError", "KeyError", "NameError", "Fault", "ArithmeticError", "LookupError", "Exception"]


class Script:
    def __init__(self, seed):
        self.r = random.Random(seed)
        self.lines = list(HEAD)
        self.fresh = 0
        self.functions, self.generators, self.delegating, self.classes = [], [], [], []

    def pick(self, *choices):
        return self.r.choice(choices)

    def name(self, stem):
        self.fresh += 1
        return f"{stem}{self.fresh}"

    def put(self, depth, text):
        self.lines.append("    " * depth + text)

    # expressions, most of them integers
    def exp(self, c, room=2):
        r = self.r
        plain = {**c, "yields": False}
        if room <= 0 or r.random() < 0.3:
            return self.atom(c)
        e = lambda: self.exp(c, room - 1)
        kind = r.randrange(24)
        match kind:
            case 0 | 1 | 2:
                sign = self.pick("+", "-", "*", "|", "&", "^")
                return f"{e()} {sign} {self.pick('2', '3') if sign == '*' else self.atom(c)}"
            case 3:
                return f"({e()} // {self.pick('2', '3', self.atom(c))})"
            case 4:
                return f"({e()} {self.pick('and', 'or')} {e()})"
            case 5:
                return f"({e()} if {self.test(c, room - 1)} else {e()})"
            case 6:
                return f"({self.test(c, room - 1)})"
            case 7:
                return f"(-{self.atom(c)})"
            case 8:
                return f"len([{e()}, {e()}])"
            case 9:
                return f"[{e()}, {e()}, {self.atom(c)}][{self.pick('0', '1', '2', '-1', '3')}]"
            case 10:
                return f"{{1: {e()}, 2: {e()}}}[{self.pick('1', '2', '2', '3')}]"
            case 11:
                return f"(lambda {(p := self.name('p'))}, {(q := self.name('q'))}={self.atom(c)}: {p} + {q})({e()})"
            case 12:
                return f"len([{self.exp(plain, room - 1)} for {self.name('c')} in range({self.pick(1, 2, 3)}) if {self.test(plain, 0)}])"
            case 13:
                x, y = self.name("c"), self.name("c")
                return f"len({{{x} + {y} for {x} in range(2) for {y} in range({x} + 1)}})"
            case 14:
                x = self.name("c")
                return f"len({{{x}: {self.exp(plain, room - 1)} for {x} in range(2)}})"
            case 15:
                x = self.name("c")
                return f"len(list(keep({x} + {self.atom(c)} for {x} in range({self.pick(0, 1, 2)}))))"
            case 16:
                return f"len(f\"{{{self.atom(c)}:>3}}-{{{self.atom(c)}!r}}\")"
            case 17 | 18 if self.functions:
                f, n = r.choice(self.functions)
                return self.call(c, f, n, room)
            case 19 if self.classes:
                return f"{r.choice(self.classes)}({self.atom(c)}).get({self.atom(c)})"
            case 20 if self.generators:
                return f"len(list(keep({r.choice(self.generators)}({self.pick(0, 1, 2)}))))"
            case 21:
                return f"({e()}, {e()})[0]"
            case 22 if c["yields"]:
                return f"((yield {self.atom(c)}) or {self.atom(c)})"
            case 23:
                return f"len(\"abcd\"[{self.pick('1:', ':2', '0:3:2', ':')}])"
        return self.atom(c)

    def call(self, c, f, n, room):
        arguments = [self.exp(c, room - 1) for _ in range(n)]
        kind = self.r.randrange(6)
        if n and kind == 0:
            return f"{f}(*[{', '.join(arguments)}])"
        if n and kind == 1:
            return f"{f}({', '.join(arguments[:-1] + ['a%d=%s' % (n - 1, arguments[-1])])})"
        if n and kind == 2:
            return f"{f}(**{{{', '.join('%r: %s' % ('a%d' % i, a) for i, a in enumerate(arguments))}}})"
        if kind == 3 and self.r.random() < 0.2:
            arguments = arguments + ["1", "2", "3"]
        return f"{f}({', '.join(arguments)})"

    def atom(self, c):
        if c["names"] and self.r.random() < 0.6:
            return self.r.choice(c["names"])
        if self.r.random() < 0.02:
            return self.name("unbound")
        return str(self.r.randrange(5))

    def test(self, c, room=1):
        a, b = self.exp(c, room), self.atom(c)
        kind = self.r.randrange(8)
        x = self.r.choice(c["names"]) if c["names"] else "len(K)"
        y = self.r.choice(c["names"]) if c["names"] else "len(K)"
        match kind:
            case 0:
                return f"{x} < {b} <= {a}"
            case 1:
                return f"not {x}"
            case 2:
                return f"{x} in (1, 2, {b})"
            case 3:
                return f"{x} and {y}"
            case 4:
                return f"{x} or {y}"
            case 5:
                return f"{x} is not None"
            case _:
                return f"{x} {self.pick('<', '>', '==', '!=', '<=', '>=')} {a}"

    # statements
    def body(self, c, depth, room, most=4):
        for _ in range(self.r.randint(1, most)):
            self.statement(c, depth, room)

    def suite(self, c, depth, room, **changes):
        self.body({**c, "names": list(c["names"]), **changes}, depth + 1, room - 1, 3)

    def bind(self, c, name):
        if name not in c["names"]:
            c["names"].append(name)

    @staticmethod
    def changeable(c):
        """The counters of loops are changed by these alone."""
        return [x for x in c["names"] if not x.startswith("n")]

    def target(self, c):
        if self.changeable(c) and self.r.random() < 0.5:
            return self.r.choice(self.changeable(c))
        return self.name("v")

    def statement(self, c, depth, room):
        r = self.r
        if room > 0 and r.random() < 0.55:
            return self.compound(c, depth, room)
        kind = r.randrange(26)
        match kind:
            case 0 | 1 | 2 | 3 | 4:
                value, x = self.exp(c), self.target(c)
                self.put(depth, f"{x} = {value}")
                self.bind(c, x)
            case 5:
                value, x, y = self.exp(c), self.target(c), self.name("v")
                self.put(depth, f"{x} = {y} = {value}")
                self.bind(c, x)
                self.bind(c, y)
            case 6:
                x, y = self.name("v"), self.name("v")
                self.put(depth, self.pick(f"{x}, {y} = {self.exp(c)}, {self.exp(c)}", f"{x}, *{y} = [{self.exp(c)}, {self.exp(c)}, 3]",
                                          f"[{x}, ({y}, _)] = {self.exp(c)}, (1, 2)"))
                self.bind(c, x)
            case 7 | 8:
                if self.changeable(c):
                    self.put(depth, f"{r.choice(self.changeable(c))} {self.pick('+', '-', '|', '&', '^')}= {self.exp(c)}")
                else:
                    self.put(depth, "K[0:0] = []")
            case 9:
                x = self.name("v")
                self.put(depth, f"{x}: int = {self.exp(c)}")
                self.bind(c, x)
            case 10:
                self.put(depth, f"assert {self.test(c)}" + (f", {self.exp(c)}" if r.random() < 0.5 else ""))
            case 11:
                self.put(depth, "pass")
            case 12:
                x = self.name("d")
                self.put(depth, f"{x} = {self.exp(c)}")
                self.put(depth, f"del {x}")
            case 13:
                self.put(depth, self.exp(c))
            case 14:
                self.put(depth, f"print({self.exp(c)})")
            case 15 if c["returns"] and r.random() < 0.6:
                self.put(depth, self.pick(f"return {self.exp(c)}", "return"))
            case 16 if r.random() < 0.7:
                self.put(depth, self.pick(f"raise {r.choice(EXCEPTIONS)}", f"raise {r.choice(EXCEPTIONS)}({self.exp(c)})", f"raise Fault from ValueError(1)"))
            case 17 if c["loop"]:
                self.put(depth, f"if {self.test(c)}:")
                self.put(depth + 1, self.pick("break", "continue"))
            case 18:
                self.put(depth, self.pick("import math", "import math as m", "from math import floor", "from math import floor as fl, ceil"))
            case 19 if c["yields"]:
                self.put(depth, self.pick(f"yield {self.exp(c)}", f"yield", f"{(x := self.name('v'))} = yield {self.exp(c)}"))
            case 20 if c["yields"] and self.generators:
                c["marks"].add("delegates")
                self.put(depth, f"yield from keep({r.choice(self.generators)}({self.pick(1, 2)}))" if r.random() < 0.7 else "yield from [1, 2]")
            case 21 if set(self.generators) - set(self.delegating):
                x = self.name("g")
                plain = [g for g in self.generators if g not in self.delegating]
                self.put(depth, f"{x} = keep({r.choice(plain)}({self.pick(1, 2, 3)}))")
                self.put(depth, f"next({x}, 0)")
                for _ in range(r.randint(0, 2)):
                    self.put(depth, self.pick(f"next({x}, 0)", f"{x}.send(None)", f"{x}.close()", f"{x}.throw({r.choice(EXCEPTIONS)})", f"next({x})"))
            case 22:
                x = self.name("v")
                self.put(depth, f"{x} = [1, 2]")
                self.put(depth, f"{x}[{self.pick('0', '1', '-1', '5')}] = {self.exp(c)}")
                self.put(depth, f"{x}[{self.pick('0', '1')}] += {self.exp(c)}")
                self.put(depth, f"del {x}[{self.pick('0', '1', '3')}]")
            case 23 if self.classes:
                x = self.name("o")
                self.put(depth, f"{x} = {r.choice(self.classes)}({self.exp(c)})")
                self.put(depth, f"{x}.a = {self.exp(c)}")
                self.put(depth, f"{x}.a += {self.exp(c)}")
                self.put(depth, self.pick(f"del {x}.a", f"print({x}.a)", f"{x}.none"))
            case 24 if c["handler"]:
                self.put(depth, "raise")
            case 25 if c["function"]:
                x = self.name("w")
                self.put(depth, f"global {x}")
                self.put(depth, f"{x} = {self.exp(c)}")
            case _:
                self.put(depth, f"{(x := self.target(c))} = {self.exp(c)}")
                self.bind(c, x)

    def compound(self, c, depth, room):
        r = self.r
        kind = r.randrange(15)
        match kind:
            case 0 | 1 | 2:
                self.put(depth, f"if {self.test(c)}:")
                self.suite(c, depth, room)
                while r.random() < 0.3:
                    self.put(depth, f"elif {self.test(c)}:")
                    self.suite(c, depth, room)
                if r.random() < 0.5:
                    self.put(depth, "else:")
                    self.suite(c, depth, room)
            case 3 | 4:
                x = self.name("i")
                over = self.pick(f"range({self.pick(0, 1, 2, 3)})", f"[{self.exp(c)}, 2]", f"Items({self.pick(1, 2)})", "(1, 2)")
                if self.generators and r.random() < 0.3:
                    over = f"keep({r.choice(self.generators)}({self.pick(1, 2, 3)}))"
                self.put(depth, f"for {x} in {over}:")
                self.suite(c, depth, room, loop=True, names=c["names"] + [x])
                self.orelse(c, depth, room)
            case 5 | 6:
                x = self.name("n")
                self.put(depth, f"{x} = 0")
                self.put(depth, f"while {x} < {self.pick(1, 2, 3)}:")
                self.put(depth + 1, f"{x} += 1")
                self.suite(c, depth, room, loop=True, names=c["names"] + [x])
                self.orelse(c, depth, room)
            case 7 | 8 | 9:
                self.put(depth, "try:")
                self.suite(c, depth, room)
                handlers, named = r.randrange(3), None
                for _ in range(handlers):
                    kinds = r.choice(EXCEPTIONS) if r.random() < 0.7 else f"({r.choice(EXCEPTIONS)}, {r.choice(EXCEPTIONS)})"
                    x = self.name("e")
                    self.put(depth, self.pick(f"except {kinds}:", f"except {kinds} as {x}:"))
                    named = x if " as " in self.lines[-1] else named
                    if named == x and r.random() < 0.3:
                        self.put(depth + 1, f"print(len({x}.args))")
                    self.suite(c, depth, room, handler=True)
                if handlers and r.random() < 0.3:
                    self.put(depth, "except:")
                    self.suite(c, depth, room, handler=True)
                if handlers and r.random() < 0.3:
                    self.put(depth, "else:")
                    self.suite(c, depth, room)
                if not handlers or r.random() < 0.4:
                    self.put(depth, "finally:")
                    self.suite(c, depth, room)
                if named and r.random() < 0.3:
                    self.put(depth, f"print({named})")
            case 10 | 11:
                swallows = self.pick("True", "False", "False")
                x = self.name("v")
                self.put(depth, self.pick(f"with Context({self.exp(c)}, {swallows}) as {x}:", f"with Context({self.exp(c)}, {swallows}):",
                                          f"with Context(1, {swallows}) as {x}, Context({self.exp(c)}, False):"))
                self.suite(c, depth, room)
            case 12 if c["depth"] < 2:
                self.function(c, depth, room, nested=True)
            case 13:
                self.one_line(c, depth)
            case _:
                self.put(depth, f"if {self.test(c)}:")
                self.suite(c, depth, room)

    def one_line(self, c, depth):
        """A loop whose body stands on its line."""
        x, v = self.name("n"), self.name("v")
        self.put(depth, f"{x} = {v} = 0")
        self.put(depth, self.pick(f"while {x} < {self.pick(1, 2, 3)}: {x} += 1", f"while {x} < 2: {x} += 1; {v} = {x}", f"for {v} in range(3): {x} = {v}",
                                  f"for {v} in [1, 2]: pass", f"if {x} < {self.pick(0, 1)}: {v} = 1", f"for {v} in Items(2): {x} += {v}"))
        self.bind(c, v)

    def orelse(self, c, depth, room):
        if self.r.random() < 0.3:
            self.put(depth, "else:")
            self.suite(c, depth, room)

    def context(self, **changes):
        return {"names": [], "loop": False, "returns": True, "yields": False, "handler": False, "function": True, "depth": 1, "marks": set(), **changes}

    def function(self, c, depth, room, nested=False, yields=False):
        r = self.r
        x, n = self.name("g" if yields else "f"), r.randint(0, 2)
        if yields:
            n = 1
        parameters = [f"a{i}" for i in range(n)]
        text = parameters[:]
        if r.random() < 0.4:
            text.append(f"k{self.fresh}={self.exp(c, 1)}")
        if r.random() < 0.15:
            text.append("*more")
        elif r.random() < 0.1:
            text += ["*", f"o{self.fresh}=1"]
        if r.random() < 0.1:
            text.append("**named")
        if r.random() < 0.2:
            self.put(depth, "@same")
        self.put(depth, f"def {x}({', '.join(text)}):")
        outer = [] if not nested else [y for y in self.changeable(c) if c["function"] and not y.startswith("a")]
        inner = self.context(names=parameters + outer[:2], yields=yields, depth=c["depth"] + 1)
        if r.random() < 0.1:
            self.put(depth + 1, "\"text\"")
        if nested and outer and r.random() < 0.3:
            self.put(depth + 1, f"nonlocal {outer[0]}")
            self.put(depth + 1, f"{outer[0]} += 1")
        elif outer:
            inner["names"] = parameters + outer[:2]
        before = self.functions, self.generators
        if nested:
            self.functions, self.generators = list(self.functions), list(self.generators)
        self.in_function(inner, depth, room, outer)
        if yields:
            self.put(depth + 1, f"yield {self.atom(inner)}")
        if r.random() < 0.5 and not yields:
            self.put(depth + 1, f"return {self.exp(inner)}")
        self.functions, self.generators = before
        if nested:
            self.put(depth, f"{x}({', '.join(self.atom(c) for _ in range(n))})")
        elif yields:
            self.generators.append(x)
            self.delegating += [x] if "delegates" in inner["marks"] else []
        else:
            self.functions.append((x, n))

    def in_function(self, inner, depth, room, outer):
        """Names around are only read, but where they are declared."""
        kept = list(outer)
        inner["names"] = [y for y in inner["names"] if y not in kept]
        if kept and self.r.random() < 0.7:
            self.put(depth + 1, f"{(x := self.name('v'))} = {self.r.choice(kept)} + 1")
            self.bind(inner, x)
        self.body(inner, depth + 1, room - 1)

    def cls(self, depth):
        c = self.context(names=[])
        x = self.name("C")
        self.put(depth, f"class {x}" + (f"({self.r.choice(self.classes)})" if self.classes and self.r.random() < 0.4 else "") + ":")
        if self.r.random() < 0.2:
            self.put(depth + 1, "\"text\"")
        self.put(depth + 1, f"__p = {self.exp(c, 1)}")
        self.put(depth + 1, f"q = __p + {self.exp(c, 1)}")
        self.put(depth + 1, "def __init__(self, a):")
        self.put(depth + 2, "self.b = a")
        self.body(self.context(names=["a"], returns=False, depth=2), depth + 2, 1, 2)
        self.put(depth + 1, "def get(self, a0):")
        inner = self.context(names=["a0", "self.b", "self.__p", "self.q"], depth=2)
        inner["names"] = ["a0"]
        self.put(depth + 2, "v = self.b + self.__p + self.q")
        self.bind(inner, "v")
        self.body(inner, depth + 2, 2, 3)
        self.put(depth + 2, f"return {self.exp(inner)}")
        self.classes.append(x)

    def text(self):
        r = self.r
        c = self.context(returns=False, function=False, depth=0)
        for _ in range(r.randint(1, 3)):
            self.function(c, 0, 3, yields=r.random() < 0.35)
        if r.random() < 0.5:
            self.cls(0)
        self.put(0, "a = 1")
        self.put(0, "b = 2")
        c["names"] = ["a", "b"]
        for _ in range(r.randint(2, 5)):
            if r.random() < 0.6:
                self.put(0, "try:")
                self.suite(c, 0, 3)
                self.put(0, self.pick("except Exception as error:", "except Exception:", "except:"))
                self.suite(c, 0, 2, handler=True)
            else:
                self.statement(c, 0, 3)
        return "\n".join(self.lines) + "\n"


def script(seed):
    return Script(seed).text()
