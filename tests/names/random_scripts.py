"""Random scripts in which few names are bound, declared and read in many blocks that stand in one another. They compile; they needn't run."""
import random

NAMES = ["a", "b", "c", "x", "y", "__p", "__q__", "_r"]
CLASSES = ["C", "_D", "__E", "__", "K"]


class Script:
    def __init__(self, seed):
        self.r = random.Random(seed)
        self.lines = []
        self.left = self.r.randint(6, 16)

    def text(self):
        self.body(0, "module", [], 3)
        return "\n".join(self.lines) + "\n"

    def name(self):
        return self.r.choice(NAMES)

    def put(self, depth, text):
        # each line break within brackets gives the `for` of a comprehension a line of its own
        self.lines += [("    " * depth if i == 0 else "") + line for i, line in enumerate(text.split("\n"))]

    # expressions
    def exp(self, room, may_yield=False):
        r = self.r
        if room <= 0 or r.random() < 0.35:
            return self.name()
        e = lambda: self.exp(room - 1, may_yield)
        n = lambda: self.exp(room - 1)
        match r.randrange(22):
            case 0:
                return f"({e()} + {e()})"
            case 1:
                return f"({e()} if {e()} else {e()})"
            case 2:
                return f"({e()} and {e()} or {e()})"
            case 3:
                return f"({e()} < {e()} <= {e()})"
            case 4:
                return f"{self.name()}({e()}, {self.name()}={e()}, *{e()}, **{e()})"
            case 5:
                return f"{{{e()}: {e()}, {e()}: {e()}}}"
            case 6:
                return f"{self.name()}.{self.name()}[{e()}:{e()}]"
            case 7:
                x, y = self.name(), self.name()
                return f"f'{{{x}!r:>{{{y}}}}}{{{x}}} {{{y}:3}}'"
            case 8 | 9 | 10:
                return f"(lambda {self.parameters(room)}: {e()})"
            case 11 | 12:
                return f"({n()}{self.clauses(room)})"
            case 13 if may_yield:
                return f"(yield {e()})"
            case 14:
                return f"[not {e()}, -{e()}]"
            case 15:
                return f"{{{n()}: {n()}{self.clauses(room)}}}"
            case 16:
                return f"{{{n()}{self.clauses(room)}}}"
        return f"[{n()}{self.clauses(room)}]"

    def target(self, room=1):
        r = self.r
        kind = r.randrange(12)
        if kind < 8 or room <= 0:
            return self.name()
        if kind == 8:
            return f"({self.target(0)}, {self.target(room - 1)})"
        if kind == 9:
            return f"[{self.target(0)}, *{self.target(0)}]"
        if kind == 10:
            return f"{self.name()}.{self.name()}"
        return f"{self.name()}[{self.exp(2)}]"

    def clauses(self, room):
        out = f"\nfor {self.target()} in {self.exp(room - 1)}"
        for _ in range(self.r.choice([0, 0, 1, 1, 2])):
            out += self.r.choice([f" if {self.exp(room - 1)}", f"\nfor {self.target()} in {self.exp(room - 1)}"])
        return out

    def parameters(self, room, most=3):
        names = self.r.sample(NAMES, self.r.randint(0, most))
        plain = names[:self.r.randint(0, len(names))]
        rest = names[len(plain):]
        out = list(plain)
        if out and self.r.random() < 0.4:
            out[-1] += f"={self.exp(room - 1)}"
        if rest and self.r.random() < 0.5:
            out.append("*" + rest.pop())
        elif len(rest) > 1:
            out.append("*")
        elif rest:
            out.append("**" + rest.pop())
        for i, x in enumerate(rest):
            last = i == len(rest) - 1 and self.r.random() < 0.5 and not out[-1] == "*"
            out.append(f"**{x}" if last else x + (f"={self.exp(room - 1)}" if self.r.random() < 0.5 else ""))
        return ", ".join(out)

    # statements
    def body(self, depth, kind, bound, room, loop=False):
        """`bound` are names that functions around bind, for `nonlocal`."""
        for _ in range(self.r.randint(1, 4)):
            if self.left <= 0:
                break
            self.statement(depth, kind, bound, room, loop)
        self.put(depth, self.r.choice(["pass", self.exp(1)]))

    def declarations(self, depth, bound):
        x, y = self.r.sample(NAMES, 2)
        if self.r.random() < 0.25:
            self.put(depth, f"global {x}")
        if bound and self.r.random() < 0.4:
            self.put(depth, f"nonlocal {self.r.choice([b for b in bound if b != x] or [y])}")

    def statement(self, depth, kind, bound, room, loop):
        r = self.r
        self.left -= 1
        in_function = kind == "function"
        e = lambda: self.exp(r.choice([1, 2, 2, 3]), in_function)
        inner = lambda d=depth + 1, **k: self.body(d, kind, bound, room - 1, **{"loop": loop, **k})
        n = r.randrange(26)
        if room <= 0 and n >= 16:
            n = r.randrange(16)
        match n:
            case 0 | 1 | 2:
                self.put(depth, e())
            case 3 | 4 | 5:
                self.put(depth, " = ".join(self.target(2) for _ in range(r.randint(1, 2))) + " = " + e())
            case 6:
                self.put(depth, f"{r.choice([self.name(), f'{self.name()}.{self.name()}', f'{self.name()}[{self.exp(2)}]'])} += {e()}")
            case 7:
                target = r.choice([self.name(), f"{self.name()}.{self.name()}", f"{self.name()}[{self.exp(2)}]", f"{self.exp(3)}.{self.name()}"])
                self.put(depth, f"{target}: int" + (f" = {e()}" if r.random() < 0.5 else ""))
            case 8:
                self.put(depth, f"del {self.name()}, ({self.name()}[{self.exp(2)}], {self.name()})")
            case 9:
                self.put(depth, f"assert {e()}, {e()}")
            case 10:
                self.put(depth, r.choice([f"import {self.name()}", f"import m as {self.name()}", f"from m import {self.name()}, k as {self.name()}"]))
            case 11 if in_function:
                self.put(depth, f"if {e()}: return {e()}")
            case 12:
                self.put(depth, f"if {e()}: raise {e()} from {e()}")
            case 13 if loop:
                self.put(depth, f"if {e()}: {r.choice(['break', 'continue'])}")
            case 14 if in_function:
                self.put(depth, f"{self.name()} = yield {e()}" if r.random() < 0.5 else f"yield from {e()}")
            case 16:
                self.put(depth, f"if {e()}:")
                inner()
                if r.random() < 0.5:
                    self.put(depth, f"elif {e()}:")
                    inner()
                if r.random() < 0.5:
                    self.put(depth, "else:")
                    inner()
            case 17:
                self.put(depth, f"while {e()}:")
                inner(loop=True)
            case 18:
                self.put(depth, f"for {self.target(2)} in {e()}:")
                inner(loop=True)
                if r.random() < 0.3:
                    self.put(depth, "else:")
                    inner()
            case 19:
                self.put(depth, "try:")
                inner()
                for _ in range(r.randint(0, 2)):
                    self.put(depth, f"except {self.exp(2)}" + (f" as {self.name()}:" if r.random() < 0.6 else ":"))
                    inner()
                self.put(depth, "finally:")
                inner(loop=False)
            case 20:
                self.put(depth, f"with {e()} as {self.target(2)}, {e()}:")
                inner()
            case 21 | 22 | 23:
                if r.random() < 0.3:
                    self.put(depth, f"@{self.name()}({self.exp(2)})")
                parameters = self.parameters(2)
                self.put(depth, f"def {self.name()}({parameters}):")
                if r.random() < 0.2:
                    self.put(depth + 1, '"doc"')
                self.declarations(depth + 1, bound)
                self.body(depth + 1, "function", bound + self.r.sample(NAMES, 2), room - 1)
            case 24 | 25:
                if r.random() < 0.3:
                    self.put(depth, f"@{self.name()}")
                self.put(depth, f"class {r.choice(CLASSES + NAMES[:2])}" + (f"({self.exp(2)}):" if r.random() < 0.5 else ":"))
                if r.random() < 0.3:
                    self.declarations(depth + 1, bound)
                self.body(depth + 1, "class", bound, room - 1)
            case _:
                self.put(depth, f"{self.name()} = {self.exp(3)}")


def script(seed):
    """The first from a seed on that CPython compiles."""
    for n in range(1000):
        text = Script(f"{seed}-{n}").text()
        try:
            compile(text, "script", "exec")
        except SyntaxError:
            continue
        return text
    raise ValueError(seed)



BY_HAND = [part.lstrip("\n") for part in r'''
def f(a):
    return lambda: ([0
for a in b], [a
for c in b])
---
def f(x):
    class C:
        x = 1
        y = [x
for z in x]
        z = lambda x=x: [x
for x in x]
        def m(self, __p, *__q, __k=__p, **__r):
            self.__p = __q, __k, __r, [lambda: (x, __p)
for __p in __q]
            class D:
                def n(self): return (lambda: self
for x in x)
            class E:
                a = [lambda: x
for x in a]
            return D
        class __F:
            global x
            x = lambda: x
            def g(): return x
    return C
---
class __:
    __x = 1
    def f(self): return __x, self.__x
---
def f():
    "doc"
    a[[x
for x in y]]: int
    b: int
    b = [[[(x, y, z, lambda: (x, y))
for x in y]
for y in z]
for z in [z
for z in b]]
    return {x: [lambda: y
for y in z]
for x in y}, {x
for x in y}
---
def f(a, b):
    def g():
        nonlocal a
        global b
        def h():
            return a, b
        del a
    try:
        return g
    except a as b:
        c = [lambda: b
for d in a]
    finally:
        import a as e
'''.split("\n---\n")]
