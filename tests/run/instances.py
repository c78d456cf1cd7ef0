"""Random scripts as those of `programs`, with statements that ask special methods of instances: `with`, `for` and unpacking over what a script
iterates, tests by `__bool__`, and items that are set and deleted. Otherwise than in CPython an iterator isn't asked for `__iter__` anew where
a target has a star, and `if a and b:` asks a false `a` twice: neither is written."""
from programs import Program

CLASSES = """\
class Manager:
    def __init__(self, name, answer=None):
        self.name = name
        self.answer = answer
    def __enter__(self):
        print('enter', self.name)
        return self.name
    def __exit__(self, kind, value, trace):
        print('exit', self.name, kind is None, value is None)
        return self.answer
class Steps:
    def __init__(self, left):
        self.left = left
    def __iter__(self):
        return self
    def __next__(self):
        if self.left <= 0:
            raise StopIteration
        self.left -= 1
        return self.left
class Several:
    def __init__(self, *values):
        self.values = values
    def __iter__(self):
        return iter(self.values)
class Flag:
    def __init__(self, left):
        self.left = left
    def __bool__(self):
        self.left -= 1
        return self.left > 0
class Cells:
    def __init__(self):
        self.held = {}
    def __getitem__(self, key):
        return self.held[key]
    def __setitem__(self, key, value):
        self.held[key] = value
    def __delitem__(self, key):
        del self.held[key]
    def __len__(self):
        return len(self.held)
""".split("\n")[:-1]


class Instances(Program):
    def __init__(self, seed):
        super().__init__(seed, containers=seed % 3 > 0, exceptions=seed % 2 > 0)
        self.lines += CLASSES
        self.cells = {}

    def statement(self, block, deeper, room):
        if self.r.random() < 0.4:
            return self.of_instances(block, deeper, room)
        super().statement(block, deeper, room)

    def iterated(self, block):
        return self.r.choice([f"Steps({self.r.randrange(4)})", f"Several({', '.join(self.exp(block, 1) for _ in range(self.r.randrange(3)))})"])

    def key(self):
        return self.r.choice(["0"] * 12 + ["1", "'a'", "(0, 1)"])

    def manager(self, block, made):
        target = self.r.choice(["", f" as {self.fresh_target(block, made)}"])
        return f"Manager({self.atom(block)}{self.r.choice(['', '', ', True', ', 0', ', ' + self.atom(block)])}){target}"

    def of_with(self, block, deeper, room):
        made, names = [], list(block.names)
        self.put(block, f"with {', '.join(self.manager(block, made) for _ in range(self.r.choice([1, 1, 2])))}:", deeper)
        block.names += made
        self.body(block, deeper + 1, room - 1)
        if self.r.random() < 0.3:
            self.put(block, self.r.choice(["1 // 0", "raise KeyError(1)", "unbound", "raise ValueError", "pass"]), deeper + 1)
        block.names = names

    def of_loop(self, block, deeper, room):
        made, names = [], list(block.names)
        flag = self.name("flag")
        if self.r.random() < 0.3:
            self.put(block, f"{flag} = Flag({self.r.randrange(4)})", deeper)
            self.put(block, f"while {flag}:", deeper)
        else:
            self.put(block, f"for {self.fresh_target(block, made)} in {self.iterated(block)}:", deeper)
        block.names += made
        self.body(block, deeper + 1, room - 1)
        if self.r.random() < 0.3:
            self.put(block, f"if Flag({self.r.randrange(1, 3)}):", deeper + 1)
            self.put(block, self.r.choice(["break", "continue"]), deeper + 2)
        if self.r.random() < 0.3:
            self.put(block, "else:", deeper)
            self.body(block, deeper + 1, 0)
        block.names = names

    def of_items_set(self, block, deeper):
        put = lambda text: self.put(block, text, deeper)
        known = self.cells.setdefault(block, [])
        if known and self.r.random() < 0.7:
            c = self.r.choice(known)
        else:
            c = self.name("c")
            put(f"{c} = Cells()")
            put(f"{c}[{self.key()}] = {self.exp(block, 1)}")
            if not deeper:
                known.append(c)
        match self.r.randrange(6):
            case 0 | 1:
                put(f"{c}[{self.key()}] = {self.exp(block, 1)}")
            case 2:
                put(f"{c}[{self.key()}] += {self.atom(block)}")
            case 3:
                put(f"del {c}[{self.key()}]")
            case 4:
                put(f"for {c}[{self.key()}] in {self.iterated(block)}:")
                self.put(block, f"print(len({c}))", deeper + 1)
            case _:
                put(f"print({c}[{self.key()}], len({c}), not {c})")

    def of_unpacking(self, block, deeper):
        made = []
        a, b = self.fresh_target(block, made), self.fresh_target(block, made)
        some = self.r.choice(["Steps(2)"] * 6 + [f"Several({self.atom(block)}, {self.atom(block)})"] * 4 + ["Steps(1)", "Several(1, 2, 3)"])
        if self.r.random() < 0.3:
            a, b, some = f"*{self.name('l')}", b, f"Several({', '.join(self.atom(block) for _ in range(self.r.randrange(4)))})"
            made = made[1:]
        self.put(block, self.r.choice([f"{a}, {b} = {some}", f"[{a}, {b}] = {some}", f"({a}, {b}), = [{some}]"]), deeper)
        block.names += made

    def of_tests(self, block, deeper, room):
        put = lambda text: self.put(block, text, deeper)
        flag = f"Flag({self.r.randrange(1, 3)})"
        match self.r.randrange(4):
            case 0 if room > 0:
                put(f"if {flag}:")
                self.body(block, deeper + 1, room - 1)
                put(f"elif {self.r.choice(['', 'not '])}Flag({self.r.randrange(1, 3)}):")
                self.body(block, deeper + 1, 0)
                put("else:")
                self.body(block, deeper + 1, 0)
            case 1:
                put(f"print(Flag(2) and {self.exp(block, 1)}, Flag(1) or {self.exp(block, 1)})")
            case 2:
                put(f"assert {self.r.choice(['Flag(2)', 'Flag(2)', flag])}, {self.atom(block)}")
            case _:
                value = f"{self.exp(block, 1)} if {flag} else {self.atom(block)}"
                put(f"{self.target(block)} = {value}")

    def of_instances(self, block, deeper, room):
        match self.r.randrange(6):
            case 0 | 1 if room > 0:
                self.of_with(block, deeper, room)
            case 2 if room > 0:
                self.of_loop(block, deeper, room)
            case 3:
                self.of_items_set(block, deeper)
            case 4:
                self.of_unpacking(block, deeper)
            case _:
                self.of_tests(block, deeper, room)


def script(seed):
    return Instances(seed).text()
