"""Random scripts of all statements of docs/LANGUAGE.md, in every nest and behind one another, also where nothing comes to them. What
they would do with values doesn't matter: answers are given."""
import random

NAMES = ["a", "b", "c", "d"]


class Blocks:
    def __init__(self, seed):
        self.r = random.Random(seed)
        self.lines, self.fresh = [], 0

    def name(self, stem="v"):
        self.fresh += 1
        return f"{stem}{self.fresh}"

    def put(self, depth, text):
        self.lines += ("    " * depth + text).split("\n")

    def one(self, *texts):
        return self.r.choice(texts)

    # expressions
    def exp(self, c, room=2):
        r = self.r
        if room <= 0 or r.random() < 0.45:
            return self.one(*NAMES, *NAMES, "1", "None", "True", "...", "'t'")
        return r.choice(self.FORMS + self.YIELDS if c["function"] else self.FORMS)(self, c, lambda: self.exp(c, room - 1))

    def comprehension(self, c, e):
        x, plain = self.name("i"), {**c, "function": False}
        return self.one(f"[{x} for {x} in {e()} if {self.exp(plain, 0)}]", f"{{{x}: {self.one(*NAMES)} for {x} in {e()} for {x}2 in {x}}}",
                        f"{{(lambda: {x}) for {x} in {e()}}}", f"list({x} for {x} in {e()} if {x})")

    FORMS = [
        lambda s, c, e: f"({e()} {s.one('+', '-', '*', '//', '%', '**', '<<', '&', '|', '^', '/')} {e()})",
        lambda s, c, e: f"({s.one('-', '+', '~', 'not ')}{e()})",
        lambda s, c, e: f"({e()} {s.one('<', '==', 'is', 'in', 'not in', 'is not')} {e()})",
        lambda s, c, e: f"({e()} < {e()} <= {e()})",
        lambda s, c, e: f"({e()} and {e()} and {e()})",
        lambda s, c, e: f"({e()} or {e()})",
        lambda s, c, e: f"({e()} if {e()} else {e()})",
        lambda s, c, e: s.one(f"({e()}, {e()})", f"[{e()}]", f"{{{e()}, {e()}}}", f"{{{e()}: {e()}}}", "()", "[]", "{}"),
        lambda s, c, e: f"{s.one(*NAMES)}.x",
        lambda s, c, e: f"{s.one(*NAMES)}[{e()}]",
        lambda s, c, e: f"{s.one(*NAMES)}[{s.one('', 'a')}:{s.one('', 'b')}{s.one('', ':c')}]",
        lambda s, c, e: f"{s.one(*NAMES)}({e()}, {e()})",
        lambda s, c, e: f"{s.one(*NAMES)}({e()}, k={e()}, l={e()})",
        lambda s, c, e: f"{s.one(*NAMES)}(*{s.one(*NAMES)}, k={e()}, **b)",
        lambda s, c, e: f"f'{{{s.one(*NAMES)}}}-{{a!r:>{{b}}}}'",
        lambda s, c, e: f"(lambda p, q={e()}, *, s={e()}: p)",
        lambda s, c, e: f"(lambda: {s.one(*NAMES)})",
        comprehension, comprehension]
    YIELDS = [lambda s, c, e: f"(yield {e()})", lambda s, c, e: "(yield)", lambda s, c, e: f"(yield from {e()})"]

    def place(self, c):
        return self.one(*NAMES, f"{self.one(*NAMES)}.x", f"{self.one(*NAMES)}[{self.exp(c, 1)}]")

    def target(self, c):
        return self.one(self.place(c), self.place(c), f"{self.place(c)}, {self.place(c)}", f"{self.place(c)}, *{self.place(c)}",
                        f"[{self.place(c)}, ({self.place(c)}, {self.place(c)})]", "()")

    # statements
    def suite(self, depth, c, most=3):
        for _ in range(self.r.randint(1, most)):
            self.statement(depth, c)

    def statement(self, depth, c):
        if c["room"] > 0 and self.r.random() < 0.5:
            self.compound(depth, {**c, "room": c["room"] - 1})
        elif self.r.random() < 0.4:
            self.leaving(depth, c)
        else:
            self.simple(depth, c)

    def on_one_line(self, c):
        """A suite on the line of its keyword."""
        return "; ".join(self.leaving_text(c) if self.r.random() < 0.3 else self.simple_text(c) for _ in range(self.r.randint(1, 2)))

    def leaving(self, depth, c):
        self.put(depth, self.leaving_text(c))

    def leaving_text(self, c):
        texts = ["raise", f"raise {self.exp(c, 1)}", f"raise {self.exp(c, 1)} from {self.exp(c, 1)}"]
        if c["loop"]:
            texts += ["break", "continue"] * 3
        if c["function"]:
            texts += ["return", f"return {self.exp(c)}"] * 2
        return self.r.choice(texts)

    def simple(self, depth, c):
        self.put(depth, self.simple_text(c))

    def simple_text(self, c):
        return self.r.choice(self.SIMPLE + self.NONLOCAL if c["function"] else self.SIMPLE)(self, c, lambda: self.exp(c))

    SIMPLE = [
        lambda s, c, e: e(),
        lambda s, c, e: s.one("pass", "a; pass; b"),
        lambda s, c, e: f"{s.target(c)} = {e()}",
        lambda s, c, e: f"{s.target(c)} = {s.target(c)} = {e()}",
        lambda s, c, e: f"{s.place(c)} += {e()}",
        lambda s, c, e: f"{s.place(c)} //= {e()}",
        lambda s, c, e: f"{s.one(*NAMES)}: int",
        lambda s, c, e: f"{s.place(c)}: int = {e()}",
        lambda s, c, e: s.one(f"assert {e()}", f"assert {e()}, {e()}"),
        lambda s, c, e: f"del {s.place(c)}, ({s.place(c)}, {s.place(c)})",
        lambda s, c, e: s.one("del ()", f"global {s.name('w')}"),
        lambda s, c, e: s.one("import m", "import m as a, n", "from m import p", "from m import p as a, q")]
    NONLOCAL = [lambda s, c, e: f"nonlocal {s.name('w')}"]

    def compound(self, depth, c):
        r = self.r
        loop = {**c, "loop": True}
        match r.randrange(14):
            case 0:
                head, inside = r.choice([(f"if {self.exp(c)}", c), (f"while {self.exp(c)}", loop), (f"for {self.target(c)} in {self.exp(c)}", loop),
                                         (f"with {self.exp(c)}", c)])
                self.put(depth, f"{head}: {self.on_one_line(inside)}")
            case 1 | 2:
                self.put(depth, f"if {self.exp(c)}:")
                self.suite(depth + 1, c)
                while r.random() < 0.3:
                    self.put(depth, f"elif {self.exp(c, 1)}:")
                    self.suite(depth + 1, c, 2)
                self.orelse(depth, c, 0.5)
            case 3 | 4:
                self.put(depth, f"while {self.exp(c)}:")
                self.suite(depth + 1, loop)
                self.orelse(depth, c, 0.4)
            case 5 | 6:
                self.put(depth, f"for {self.target(c)} in {self.exp(c)}:")
                self.suite(depth + 1, loop)
                self.orelse(depth, c, 0.4)
            case 7 | 8 | 9:
                self.put(depth, "try:")
                self.suite(depth + 1, c)
                handlers = r.randrange(3)
                for _ in range(handlers):
                    self.put(depth, self.one(f"except {self.exp(c, 1)}:", f"except {self.exp(c, 1)} as {self.one(*NAMES)}:",
                                             f"except ({self.exp(c, 1)},\n{self.exp(c, 1)}):"))
                    self.suite(depth + 1, c, 2)
                if handlers and r.random() < 0.3:
                    self.put(depth, "except:")
                    self.suite(depth + 1, c, 2)
                if handlers:
                    self.orelse(depth, c, 0.3)
                if not handlers or r.random() < 0.4:
                    self.put(depth, "finally:")
                    self.suite(depth + 1, c, 2)
            case 10 | 11:
                items = [self.one(self.exp(c, 1), f"{self.exp(c, 1)} as ({self.target(c)})") for _ in range(r.randint(1, 3))]
                self.put(depth, f"with {', '.join(items)}:")
                self.suite(depth + 1, c)
            case _:
                self.definition(depth, c)

    def orelse(self, depth, c, chance):
        if self.r.random() < chance:
            self.put(depth, "else:")
            self.suite(depth + 1, c, 2)

    def definition(self, depth, c):
        for _ in range(self.r.randrange(3)):
            self.put(depth, f"@{self.one(*NAMES)}")
        inner = {"room": min(c["room"], 2), "loop": False, "function": True}
        if self.r.random() < 0.3:
            self.put(depth, self.one(f"class {self.name('C')}:", f"class {self.name('C')}({self.exp(c, 1)}):"))
            inner["function"] = False
        else:
            self.put(depth, f"def {self.name('f')}({self.one('', 'a', 'a, b=c', 'a, *, b=c', '*a', 'a, b=c, *d')}):")
            if self.r.random() < 0.3:
                self.put(depth + 1, "'text'")
        self.suite(depth + 1, inner)

    def text(self):
        self.suite(0, {"room": 2, "loop": False, "function": False}, 3)
        self.definition(0, {"room": 4, "loop": False, "function": False})
        self.put(0, "def f():")
        self.suite(1, {"room": 4, "loop": False, "function": True}, 4)
        return "\n".join(self.lines) + "\n"


def script(seed):
    return Blocks(seed).text()
