"""Random scripts of numbers, texts, names, branches, `while` loops and functions: closures, `nonlocal` and `global`, defaults, arguments
by name, decorators and recursion; some of lists, tuples and ranges as well, with `for` loops, unpacking and subscripts, starred parameters and
arguments that are spread, and of f-strings,
slices, dictionaries, sets, items that are assigned to and deleted, and methods of all these. One statement stands on a line. Loops and recursions end, and some
scripts raise. Sets aren't printed: their order is CPython's own. Where asked for, there are comprehensions and orders of lists and tuples as well, and
statements of the builtins and methods that come seldom, and of those that are written in Python."""
import random

HEAD = """\
def same(f):
    return f
def twice(f):
    return lambda *, a=1: f(f(a))
def rest(n):
    if n <= 0:
        return n
    return rest(n - 1)
""".split("\n")[:-1]
# classes of exceptions; a run raises some of them with texts of its own
WORDED = ["AssertionError", "KeyError", "NameError", "UnboundLocalError", "ImportError", "ModuleNotFoundError", "NotImplementedError", "StopIteration",
          "AttributeError", "GeneratorExit"]
ERRORS = WORDED + ["ValueError", "IndexError", "LookupError", "RuntimeError", "ArithmeticError", "ZeroDivisionError", "TypeError", "Exception", "BaseException"]
UNARY, BINARY = ["-", "+", "~", "not "], ["+", "-", "*", "&", "|", "^"]
COMPARE = ["<", "<=", "==", "!=", ">", ">=", "is", "is not"]


class Block:
    """A block as it is written: how deep it stands, the names that it may read, those that it binds, and its functions."""

    def __init__(self, depth, around=None):
        self.depth, self.around = depth, around
        self.names, self.functions, self.sequences, self.lists = [], [], [], []
        self.dicts, self.sets, self.errors, self.loops = [], [], [], 0
        self.classes, self.objects, self.receiver = [], [], None

    def all(self, kind):
        block, found = self, []
        while block is not None:
            found += getattr(block, kind)
            block = block.around
        return found


# methods of classes, with how many parameters each has beside the first; one calls those before it alone, so calls end
METHODS = [("m0", 0), ("m1", 1), ("m2", 2), ("_m3", 1), ("__m4", 0)]
ATTRIBUTES = ["x", "y", "z", "_u", "__v", "shared"]


class Made:
    """A class that is written: its base among those, its attributes and methods, and how many arguments `__init__` takes, if it has one."""

    def __init__(self, name, base=None, is_error=False):
        self.name, self.base, self.is_error = name, base, is_error
        self.attributes, self.methods, self.inits = [], [], None

    def all(self, kind):
        return getattr(self, kind) + (self.base.all(kind) if self.base else [])

    def arguments(self):
        return self.inits if self.inits is not None or not self.base else self.base.arguments()


class Program:
    """`containers` says that there are lists, tuples, ranges, f-strings, slices, dictionaries and sets; `exceptions` that there are `try`,
    `raise`, `assert` and exceptions; `forms` that there are comprehensions and orders of sequences; `builtins` that there are statements of
    builtins and methods that come seldom; `helpers` that there are statements of those that are written in Python; `classes` that there are
    classes, their instances and exceptions of classes of the script."""

    def __init__(self, seed, containers=False, exceptions=False, forms=False, builtins=False, helpers=False, classes=False):
        self.r = random.Random(seed)
        self.forms, self.builtins, self.helpers, self.has_classes = forms, builtins, helpers, classes
        self.lines, self.fresh, self.containers, self.exceptions, self.handling = list(HEAD), 0, containers, exceptions, 0
        self.starred = {}

    def name(self, stem):
        self.fresh += 1
        return f"{stem}{self.fresh}"

    def put(self, block, text, deeper=0):
        self.lines.append("    " * (block.depth + deeper) + text)

    # expressions
    def atom(self, block):
        names = block.all("names")
        if names and self.r.random() < 0.55:
            return self.r.choice(names)
        chance = self.r.random()
        if chance < 0.006:
            return self.r.choice(["unbound", "None", "...", "'a'", "print"])
        if chance < 0.1:
            return self.r.choice(["True", "False"])
        return str(self.r.choice([0, 1, 2, 3, 5] if chance < 0.99 else [17, 2 ** 64, 2 ** 127 - 1]))

    def exp(self, block, room=2):
        if self.has_classes and self.r.random() < 0.2:
            return self.of_object(block, room)
        if self.containers and self.r.random() < 0.2:
            return self.of_sequence(block)
        if room <= 0 or self.r.random() < 0.25:
            return self.atom(block)
        a, b = lambda: self.exp(block, room - 1), lambda: self.atom(block)
        match self.r.randrange(12):
            case 0 | 1:
                return f"({a()} {self.r.choice(BINARY)} {b()})"
            case 2:
                sign = self.r.choice(["//", "%", "<<", ">>", "**", "//", "%"])
                return f"({a()} {sign} {self.r.choice(['1', '2', '3', b()] if sign in ('//', '%') else ['0', '1', '2', '3'])})"
            case 3:
                return f"({self.r.choice(UNARY)}{a()})"
            case 4:
                return f"({a()} {self.r.choice(['and', 'or'])} {a()})"
            case 5:
                return f"({a()} if {self.test(block)} else {b()})"
            case 6:
                return f"({b()} {self.r.choice(['<', '<=', '!='])} {b()} {self.r.choice(COMPARE)} {b()})"
            case 7:
                return f"({a()} {self.r.choice(['==', '!=', 'is', 'is not'])} {self.r.choice([b(), repr('ab'), 'None'])})"
            case 8:
                x, y = self.name("p"), self.name("p")
                inner = Block(block.depth, block)
                inner.names = [x, y]
                return f"(lambda {x}, {y}={b()}: {self.exp(inner, room - 1)})({b()})"
            case 9:
                return f"rest({self.r.randrange(4)})"
            case 10 if self.r.random() < 0.3:
                return f"('x' + {self.r.choice([repr('y'), repr('zz')])} {self.r.choice(['==', '!=', 'is'])} 'xy')"
        return self.call(block, room - 1)

    # lists, tuples and ranges
    def sequence(self, block, room=1):
        names = block.all("sequences")
        if names and self.r.random() < 0.4:
            return self.r.choice(names)
        if self.forms and room and self.r.random() < 0.25:
            return self.comprehension(block)
        match self.r.randrange(8):
            case 0 | 1 | 2:
                return f"[{', '.join(self.items(block, room))}]"
            case 3 | 4:
                items = self.items(block, room)
                return f"({', '.join(items)}{',' * (len(items) == 1)})"
            case 5:
                return f"range({self.r.randrange(-1, 5)})"
            case 6:
                step = self.r.choice(["", ", 2", ", -1", ", -3", ", 0" if self.r.random() < 0.1 else ""])
                return f"range({self.r.randrange(-2, 6)}, {self.r.randrange(-2, 6)}{step})"
        return self.r.choice(["'abc'", "'\u00e9x'", "''"]) if self.r.random() < 0.3 else "(1, 2, 3)"

    # f-strings, slices, dictionaries and sets, mostly of atoms
    def part(self, block):
        return self.exp(block, 0) if self.r.random() < 0.3 else self.atom(block)

    def joined(self, block):
        """An f-string, without blanks but in its fields."""
        word = lambda: self.r.choice(["", "x", "\u00e9=", "{{", "}}"])
        return f"f'{''.join(word() if self.r.random() < 0.4 else self.field(block) for _ in range(self.r.randrange(4)))}'"

    def field(self, block):
        """One of any value, and by a spec one of an integer or a text."""
        match self.r.randrange(6):
            case 0:
                return f"{{{self.r.choice(['\'ab\'', '\'\u00e9x\''])}{self.r.choice(['', '!r', '!s'])}{self.spec('s')}}}"
            case 1:
                return f"{{{self.sequence(block, 0)}{self.r.choice(['', '!r', '!s', '!r:>9', '!s:*<20'])}}}"
            case 2:
                return f"{{{self.part(block)}{self.r.choice(['', '!r', '!s'])}}}"
            case 3:
                return f"{{{self.part(block)}{self.r.choice(['!r', '!s'])}{self.spec('s')}}}"
        constant = self.r.choice(["0", "42", "-7", "255", "True", str(2 ** 70)])
        number = self.r.choice([constant, f"len({self.sequence(block, 0)})", f"({self.atom(block)} - {self.atom(block)})"])
        return f"{{{number}{self.spec('dxXbo')}}}"

    def spec(self, types):
        """None, or a format spec, mostly one that fits, and now and then with a field for the width."""
        if self.r.random() < 0.4:
            return ""
        align = self.r.choice(["", "", "<", ">", "^"] + ["="] * (types != "s"))
        fill = self.r.choice(["", "*", "0", "_", "\u4e16"]) if align else ""
        sign = self.r.choice(["", "+", "-"]) if types != "s" else ""
        width = self.r.choice(["", "0", "1", "4", "9", "{3}", "{12}"])
        return f":{fill}{align}{sign}{self.r.choice(['', '0']) if types != 's' and width else ''}{width}{self.r.choice(['', *types])}"

    def sliced(self, block):
        """A sequence, cut."""
        bound = lambda: self.r.choice(["", "", "0", "1", "2", "-1", "-2", "5", "-7", "None"] + ["'a'"] * (self.r.random() < 0.02))
        step = self.r.choice(["", "", ":", ":1", ":2", ":-1", ":-2"] + [":0"] * (self.r.random() < 0.05))
        return f"{self.sequence(block, 0)}[{bound()}:{bound()}{step}]"

    def key(self):
        return self.r.choice(["0", "1", "2", "3", "True", "'a'", "'b'", "(1, 'a')", "None"] + ["[]"] * (self.r.random() < 0.01))

    def dictionary(self, block, most=4):
        return f"{{{', '.join(f'{self.key()}: {self.part(block)}' for _ in range(self.r.randrange(most)))}}}"

    def mapping(self, block):
        names = block.all("dicts")
        return self.r.choice(names) if names and self.r.random() < 0.7 else self.dictionary(block)

    def set_of(self, block):
        return f"{{{', '.join(self.r.choice([self.key(), self.atom(block)]) for _ in range(self.r.randint(1, 4)))}}}"

    def of_mapping(self, block):
        """A number or a truth, of an f-string, a slice, a dictionary or a set."""
        match self.r.randrange(12):
            case 0:
                return f"len({self.joined(block)})"
            case 1:
                return f"({self.joined(block)} == {self.joined(block)})"
            case 2:
                return f"len({self.sliced(block)})"
            case 3:
                return f"({self.sliced(block)} == {self.r.choice(['[]', repr('b'), '(1,)'])})"
            case 4 | 5:
                d, k = self.mapping(block), self.key()
                return f"({d}[{k}] if {k} in {d} else {self.atom(block)})" if self.r.random() < 0.95 else f"({d}[{k}])"
            case 6:
                return f"({self.key()} {self.r.choice(['in', 'not in'])} {self.mapping(block)})"
            case 7:
                return f"({self.mapping(block)} {self.r.choice(['==', '!='])} {self.mapping(block)})"
            case 8:
                return f"({self.atom(block)} {self.r.choice(['in', 'not in'])} {self.set_of(block)})"
            case 9:
                return f"({self.set_of(block)} == {self.set_of(block)})"
            case 10:
                return f"len(str({self.mapping(block)}))"
        return f"{self.r.choice(['len', 'bool'])}({self.r.choice([self.mapping, self.set_of])(block)})"

    # comprehensions and orders
    def clauses(self, block, inner):
        """The clauses of a comprehension, whose names stand in `inner`, and the first iterable of which is read in `block`."""
        text = ""
        for i in range(self.r.choice([1, 1, 1, 2])):
            over, x = self.sequence(inner if i else block, 0), self.name("c")
            if self.r.random() < 0.2:
                x, over = f"{x}, {self.name('c')}", f"[({self.atom(block)}, {self.atom(block)}), (1, 2)]"
            inner.names += x.split(", ")
            text += f" for {x} in {over}"
            if self.r.random() < 0.4:
                text += f" if {self.test(inner)}"
        return text

    def comprehension(self, block):
        """One of a list, mostly of atoms, and some of functions or of further comprehensions."""
        inner = Block(block.depth, block)
        clauses = self.clauses(block, inner)
        match self.r.randrange(8):
            case 0:
                return f"[f() for f in [lambda: {self.atom(inner)}{clauses}]]"
            case 1:
                return f"[{self.comprehension(inner)}{clauses}]" if self.r.random() < 0.5 else f"[({self.atom(inner)}, 'x'){clauses}]"
        return f"[{self.exp(inner, 1)}{clauses}]"

    def of_forms(self, block):
        """A number or a truth, of comprehensions, orders of sequences and texts of numbers."""
        inner, order = Block(block.depth, block), self.r.choice(["<", "<=", ">", ">=", "==", "!="])
        match self.r.randrange(9):
            case 0:
                clauses = self.clauses(block, inner)
                return f"len({{{self.r.choice([self.key(), self.atom(inner)])}{clauses}}})"
            case 1:
                clauses = self.clauses(block, inner)
                return f"len({{{self.atom(inner)}: {self.part(inner)}{clauses}}})"
            case 2:
                return f"len({self.comprehension(block)})"
            case 3 | 4:
                display = self.r.choice(["[{}]", "({},)"])
                one, other = ([self.r.choice(["1", "2", "True", "(1, 2)", "[3]", self.atom(block)]) for _ in range(self.r.randint(1, 3))] for _ in range(2))
                return f"({display.format(', '.join(one))} {order} {display.format(', '.join(other))})"
            case 5:
                return f"({self.mapping(block)} {self.r.choice(['==', '!='])} {self.mapping(block)})"
            case 6:
                return f"int({self.r.choice(['7', ' -12 ', '+1_000', '0', '\\t5\\n'])!r})".replace("\\\\", "\\")
            case 7:
                return f"isinstance({self.part(block)}, (int, (str, (list,))))"
        return f"hasattr({self.sequence(block, 0)}, {self.r.choice(['append', 'keys', 'items'])!r})"

    # methods
    def plain_text(self):
        return repr(self.r.choice(["", "a", "ab", " a b ", "a,b,,c", "\u00e9x\t\u00e9", "aXbXa", "  "]))

    def of_text(self, block):
        """What a method of a text gives."""
        t, part = self.plain_text(), self.r.choice(["'a'", "','", "'X'", "'\u00e9'", "'ab'", "' '"] + ["''", "1"] * (self.r.random() < 0.02))
        match self.r.randrange(7):
            case 0:
                return f"{t}.split({self.r.choice(['', part, 'None'])})"
            case 1:
                return f"{t}.{self.r.choice(['strip', 'lstrip', 'rstrip'])}({self.r.choice(['', part, 'None'])})"
            case 2:
                return f"{t}.replace({part}, {self.plain_text()})"
            case 3:
                return f"{t}.{self.r.choice(['find', 'count'])}({part})"
            case 4:
                return f"{t}.{self.r.choice(['startswith', 'endswith'])}({self.r.choice([part, f'({part}, {self.plain_text()})'])})"
            case 5:
                return f"({part}).join({t}.split({self.r.choice(['', part])}))"
        of = [self.plain_text() for _ in range(self.r.randrange(4))] + ["0"] * (self.r.random() < 0.02)
        return f"{t}.join({self.r.choice([f'[{', '.join(of)}]', f'({', '.join(of)}{',' * (len(of) == 1)})'])})"

    def of_method(self, block):
        """A number, a truth or an item, which a method gives, or the attribute of what has none."""
        lists, dicts = block.all("lists") or ["[1, 2, 3]"], block.all("dicts") or [f"({self.dictionary(block)})"]
        match self.r.randrange(9):
            case 0 | 1:
                return f"({self.of_text(block)} == {self.of_text(block)})"
            case 2:
                return f"len(str({self.of_text(block)}))"
            case 3:
                return f"{self.r.choice([*lists, '(1, True, 2)', '()'])}.count({self.atom(block)})"
            case 4:
                x, v = self.r.choice([*lists, "(1, 2, 3)"]), self.atom(block)
                return f"({x}.index({v}) if {v} in {x} else {self.atom(block)})" if self.r.random() < 0.95 else f"{x}.index({v})"
            case 5 | 6:
                d, k = self.r.choice(dicts), self.key()
                return self.r.choice([f"{d}.get({k})", f"{d}.get({k}, {self.atom(block)})", f"{d}.setdefault({k}, {self.atom(block)})",
                                      f"len({d}.{self.r.choice(['keys', 'values', 'items', 'copy'])}())", f"{d}.pop({k}, {self.atom(block)})"])
            case 7:
                return f"len({self.set_of(block)}.copy())"
        of, name = self.r.choice([self.atom(block), *lists, *dicts, "'a'", "print", "(1,)", "None"]), self.r.choice(["other", "push", "keys", "_x"])
        return f"({of}).{name}" if self.r.random() < 0.04 else f"bool({self.r.choice(lists)}.{self.r.choice(['pop', 'append', 'copy'])})"

    def of_methods(self, block, deeper):
        """A statement that calls methods. A list keeps three items at least."""
        put = lambda text, more=0: self.put(block, text, deeper + more)
        lists, dicts, sets = block.all("lists"), block.all("dicts"), block.all("sets")
        value = lambda: self.exp(block, 1)
        index = lambda: self.r.choice(["0", "1", "-1", "9", "-9", "True"] + ["'a'", "None"] * (self.r.random() < 0.02))
        match self.r.randrange(11):
            case 0 if lists:
                put(f"{self.r.choice(lists)}.append({value()})")
            case 1 if lists:
                put(f"{self.r.choice(lists)}.insert({index()}, {value()})")
            case 2 if lists:
                put(f"{self.r.choice(lists)}.extend({self.r.choice([f'[{value()}]', f'({value()}, {value()})', '()', self.r.choice(lists)])})")
            case 3 if lists:
                x = self.r.choice(lists)
                put(f"if len({x}) > 3:")
                v = self.r.choice([f"{x}[1]", "2"])
                put(self.r.choice([f"print({x}.pop(), {x})", f"{x}.pop({self.r.choice(['0', '-1', '2', 'True'])})", f"{x}.remove({v})" if v[0] != "2" else
                                   f"print({v} in {x} and {x}.remove({v}), {x})", f"del {x}[{x}.index({x}[2])]"]), 1)
            case 4 if lists:
                x = self.r.choice(lists)
                put(f"{x}.reverse()")
                put(f"print({x}, {x}.copy(), {x}.copy() is {x})")
            case 5 if lists:
                m = self.name("m")
                put(f"{m} = {self.r.choice(lists)}.{self.r.choice(['append', 'count', 'copy'])}")
                put(f"print({m}({'' if self.lines[-1].endswith('copy') else value()}), {m})")
            case 6 if dicts:
                d, made = self.r.choice(dicts), [self.name("v"), self.name("v")]
                put(f"for {', '.join(made)} in {d}.items():")
                put(f"print({made[0]}, {made[1]})", 1)
                if self.r.random() < 0.05:
                    put(f"{d}.clear()", 1)
            case 7 if dicts:
                d, v = self.r.choice(dicts), self.name("v")
                put(f"for {v} in {d}.{self.r.choice(['keys', 'values'])}():")
                put(f"print({v})", 1)
            case 8 if dicts:
                d, name = self.r.choice(dicts), self.name("d")
                put(f"{name} = {d}.copy()")
                put(f"print({d}.pop({self.key()}, None), len({name}), {name} == {d})")
            case 9 if sets:
                s, k = self.r.choice(sets), self.key()
                put(f"{s}.{self.r.choice(['add', 'add', 'discard'])}({self.r.choice([k, self.atom(block)])})")
                put(f"print(len({s}), {k} in {s}, {s} == {s}.copy())")
                if self.r.random() < 0.1:
                    put(self.r.choice([f"{s}.clear()", f"{s}.remove({k})"]))
            case 10 if not deeper:
                name = self.name("s")
                put(f"{name} = {self.set_of(block)}")
                block.sets.append(name)
            case _:
                put(f"print({self.of_text(block)}, {self.of_method(block)})")

    # builtins and methods that come seldom
    def of_builtins(self, block, deeper):
        """Statements of a builtin or a method, with a wrong argument now and then, most of which are caught."""
        put = lambda text, more=0: self.put(block, text, deeper + more)
        number, often = lambda: self.atom(block), lambda chance: self.r.random() < chance
        match self.r.randrange(12):
            case 0:
                put(f"print(abs({number()} - 3), divmod({number()}, {self.r.choice(['2', '-3', '7', 'True', number()])}))")
            case 1:
                text = self.r.choice(["'a'", "'\u00e9'", "'\\n'", "'\U0001f600'"] + ["5"] * often(0.1))
                put(f"print(ord({text}), repr(chr({self.r.choice(['97', '0', '233', 'True', f'ord({text}) + 1'] + ['-1', '1114112', repr('a')] * often(0.1))})))")
            case 2:
                i, over = self.name("n"), self.r.choice([self.sequence(block, 0), self.mapping(block), self.sliced(block)])
                put(f"{i} = iter({over})")
                put(f"for {self.name('v')} in {i}:")
                put(self.r.choice([f"print(next({i}, 7), {i} is iter({i}))", f"print(next({i}, None))", "break"]), 1)
                if often(0.3):
                    put("try:")
                    put(f"print(next({i}))", 1)
                    put("except StopIteration as stop:")
                    put("print(repr(stop))", 1)
            case 3:
                of, name = self.r.choice([number(), "'a'", "[1]", "()", "{}", "print"]), self.r.choice(["append", "index", "get", "nosuch", "join"])
                put(f"print(callable({self.r.choice(['print', 'rest', 'same', of, 'int'])}), getattr({of}, {name!r}, 3) == 3, hasattr({of}, {name!r}))")
            case 4:
                of, name = self.r.choice(["[1, 2]", "'ab'", "(1,)"]), self.r.choice(["count", "index", "count"])
                put(f"print(getattr({of}, {name!r})({self.r.choice(['1', repr('a'), number()])}))" if often(0.3) else f"print(getattr({of}, {name!r}) is None)")
            case 5 | 6:
                s = self.name("s")
                put(f"{s} = {self.set_of(block)}")
                for _ in range(self.r.randint(1, 3)):
                    k = self.r.choice([self.key(), number()])
                    put(self.r.choice([f"{s}.add({k})", f"{s}.discard({k})", f"if {k} in {s}: {s}.remove({k})", f"{s} {self.r.choice('|&-^')}= {self.set_of(block)}"]))
                put(f"print(len({s}), {self.key()} in {s}, {s} == {s}.copy(), {s} is {s})")
                if often(0.3):
                    put(f"{s}.clear()")
                    put(f"print({s}, bool({s}))")
                if often(0.1):
                    put(f"{s}.remove({self.key()})")
            case 7:
                l = self.name("l")
                put(f"{l} = [{number()}, {number()}, 1]")
                for _ in range(self.r.randint(1, 3)):
                    put(self.r.choice([f"{l}.insert({self.r.choice(['0', '1', '-1', '9'])}, {number()})", f"{l}.reverse()", f"{l}.append({number()})", f"{l}.remove(1)",
                                       f"{l}.extend([{number()}])", f"print({l}.pop({self.r.choice(['', '0', '-1'])}))"]))
                put(f"print({l}, repr({l}), str({l}))")
                if often(0.3):
                    put(f"{l}.clear()")
                    put(f"print({l})")
            case 8:
                d = self.name("d")
                put(f"{d} = {self.dictionary(block)}")
                put(f"print({d}.keys(), {d}.values(), {d}.items())")
                put(f"{d}.clear()")
                put(f"print({d}, {d}.get(1), {d}.setdefault(1, 2), {d})")
            case 9:
                x = self.r.choice([number(), "'a'", "[]", "None", "print", "range(2)", "int", "{}", "KeyError"])
                put(f"print(type({x}), isinstance({x}, ({self.r.choice(['int', 'str', 'bool', 'type', 'BaseException'])}, (list,))), "
                    f"issubclass({self.r.choice(['bool', 'int', 'KeyError'])}, {self.r.choice(['int', 'LookupError', '(str, object)'])}))")
            case 10:
                module = self.r.choice(["sys", "sys", "sys", "nosuch", "sys, nosuch"])
                put("try:")
                put(self.r.choice([f"import {module}", "import sys as s", "from sys import exit", f"from {module.split(',')[0]} import nosuch"]), 1)
                put("except ImportError as missing:")
                put("print(type(missing))", 1)
            case _:
                put("import sys")
                put("try:")
                put(f"sys.exit({self.r.choice(['', 'None', '0', '3', repr('a'), number(), '[1]'])})", 1)
                put(f"except {self.r.choice(['SystemExit', 'BaseException', '(KeyError, SystemExit)'])} as left:")
                put("print(repr(left), left)", 1)
                put("finally:")
                put("print('left')", 1)

    # builtins and methods that are written in Python
    def key_function(self, block, deeper):
        """A function that gives keys, by its name or as an expression; one is made where none is there, and some raise."""
        inner, chance = Block(block.depth, block), self.r.random()
        x = self.name("x")
        inner.names = [x]
        if chance < 0.25:
            return self.r.choice(["abs", "len", "str", "None", "int", "bool"])
        if chance < 0.7:
            return f"lambda {x}: {self.r.choice([f'-{x}', f'({x} % 2, {x})', f'({x} == 1, -{x})', f'str({x})', x, f'{x} // {x}', self.exp(inner, 1)])}"
        f, made = self.name("k"), Block(block.depth + 1, block)
        self.put(block, f"def {f}({x}):", deeper)
        self.put(made, self.r.choice([f"print('key', {x})", "pass", f"if {x} == 2: raise KeyError({x})", f"{x} = {x} or 7"]), deeper)
        self.put(made, f"return {self.r.choice([f'-{x}', f'{x} * {x}', f'6 // {x}', x, f'({x},)'])}", deeper)
        return f

    def iterable(self, block):
        """What is iterable, mostly of numbers; an iterator or no iterable now and then."""
        number, chance = lambda: self.r.choice([self.atom(block), str(self.r.randrange(-3, 9))]), self.r.random()
        if chance < 0.04:
            return self.r.choice(["5", "None", "print", self.atom(block)])
        if chance < 0.1:
            return f"iter({self.sequence(block, 0)})"
        if chance < 0.3:
            return self.r.choice([self.mapping(block), f"({self.mapping(block)}).values()", f"{{{number()}}}"])
        if chance < 0.4:
            return self.r.choice(["['b', 'a', 'c']", "'cab'", "[(2, 'b'), (1, 'z'), (1, 'a')]", "[1, 'a']", "[[1], [2]]"])
        items = [number() for _ in range(self.r.randrange(5))]
        return self.sequence(block, 0) if chance < 0.6 else self.r.choice([f"[{', '.join(items)}]", f"({', '.join(items)}{',' * (len(items) == 1)})"])

    def pairs(self, block):
        pair = lambda: f"({self.key()}, {self.atom(block)})"
        some = [pair() for _ in range(self.r.randrange(3))] + [self.r.choice(["5", "(1, 2, 3)", "'a'", "(1,)"])] * (self.r.random() < 0.06)
        return self.r.choice([f"[{', '.join(some)}]", f"[{', '.join(some)}]", self.mapping(block), "['ab', 'cd']", "{}.items()"])

    def of_helpers(self, block, deeper):
        """Statements of these, with a wrong argument now and then, most of which are caught."""
        is_caught = self.r.random() < 0.5
        if is_caught:
            self.put(block, "try:", deeper)
            self.of_helper(block, deeper + 1)
            self.put(block, f"except {self.r.choice(['Exception', '(TypeError, ValueError)', 'ArithmeticError'])} as wrong:", deeper)
            self.put(block, "print(type(wrong))", deeper + 1)
        else:
            self.of_helper(block, deeper)

    def of_helper(self, block, deeper):
        put = lambda text, more=0: self.put(block, text, deeper + more)
        xs, number, often = self.iterable(block), lambda: self.atom(block), lambda chance: self.r.random() < chance
        match self.r.randrange(12):
            case 0:
                start = self.r.choice(["", "", f", {number()}", f", start={number()}", ", ()", ", begin=1"] if often(0.3) else [""])
                put(f"print(sum({xs}{start}))")
            case 1:
                put(f"print({self.r.choice(['any', 'all'])}({xs}), {self.r.choice(['any', 'all'])}({self.iterable(block)}))")
            case 2 | 3:
                key = f", key={self.key_function(block, deeper)}" if often(0.6) else ""
                turned = self.r.choice(["", ", reverse=True", f", reverse={number()}", ", cmp=1"] if often(0.4) else [""])
                put(f"print(sorted({xs}{key}{turned}))")
            case 4 | 5:
                name, of = self.r.choice(["min", "max"]), xs if often(0.6) else f"{number()}, {number()}"
                key = f", key={self.key_function(block, deeper)}" if often(0.5) else ""
                default = f", default={number()}" if often(0.3) and of == xs else ""
                put(f"print({name}({of}{key}{default}))")
            case 6:
                made = self.r.choice([f"list({xs})", f"tuple({xs})", f"list(tuple({xs}))", f"len(set({xs}))", "list()", "tuple()", "(set(), dict())", f"list({xs}, 1)"])
                put(f"print({made})")
            case 7:
                named = self.r.choice(["", f", a={number()}, b=2", ", **{'a': 1}"])
                put(f"print(dict({self.pairs(block)}{named}), dict({named[2:]}))")
            case 8:
                l = self.name("l")
                put(f"{l} = [{number()}]")
                put(f"{l}.extend({xs})")
                put(f"print({l}, {l}.extend({self.iterable(block)}), len({l}))")
            case 9:
                d = self.name("d")
                put(f"{d} = {self.dictionary(block)}")
                put(f"{d}.update({self.pairs(block)})")
                put(f"print({d}, {d}.update({self.pairs(block)}))")
            case 10:
                texts = self.r.choice(["'abc'", "{'k': 1, 'l': 2}", f"[str(v) for v in {xs}]", "iter(('x', 'y'))", "sorted('hello')", xs])
                put(f"print({self.r.choice([repr('-'), repr(''), repr(', ')])}.join({texts}))")
            case _:
                l = self.name("l")
                put(f"{l} = list({xs})")
                key = f"key={self.key_function(block, deeper)}" if often(0.5) else ""
                turned = "reverse=True" if often(0.3) else ""
                put(f"{l}.sort({', '.join(x for x in (key, turned) if x)})")
                put(f"print({l})")

    def items(self, block, room):
        item = lambda: self.sequence(block, room - 1) if room and self.r.random() < 0.2 else self.exp(block, room)
        return [item() for _ in range(self.r.randrange(4))]

    def of_sequence(self, block):
        """A number, a truth or an item, of a sequence or of what is like one."""
        if self.forms and self.r.random() < 0.3:
            return self.of_forms(block)
        if self.r.random() < 0.3:
            return self.of_mapping(block)
        if self.r.random() < 0.25:
            return self.of_method(block)
        s = self.sequence(block)
        match self.r.randrange(6):
            case 0 | 1:
                return f"len({s})"
            case 2 | 3:
                index = self.r.choice([0, 1, -1, 2, -2])
                return f"{s}[{index}]" if self.r.random() < 0.03 else f"({s}[{index}] if len({s}) > 2 else {self.atom(block)})"
            case 4:
                return f"({self.atom(block)} {self.r.choice(['in', 'not in'])} {s})"
        return self.r.choice([f"(not {s})", f"(1 if {s} else 0)", f"({s} is [1])", f"bool({s})", f"len(str({s}))"])

    def fresh_target(self, block, made):
        """A name that the statement binds, which isn't bound before."""
        if block.names and self.r.random() < 0.5:
            return self.r.choice(block.names)
        if self.r.random() < 0.2:
            return self.item_target(block) or self.fresh_target(block, made)
        made.append(self.name("v"))
        return made[-1]

    def item_target(self, block):
        """An item of a list, which has at least three, or of a dictionary; None where there are neither."""
        lists, dicts = block.all("lists"), block.all("dicts")
        if dicts and (not lists or self.r.random() < 0.5):
            return f"{self.r.choice(dicts)}[{self.key()}]"
        index = self.r.choice(["0", "1", "-1", "-3", "True"] + ["3", "'a'"] * (self.r.random() < 0.05))
        return f"{self.r.choice(lists)}[{index}]" if lists else None

    def of_items(self, block, deeper):
        """A statement that changes items, or makes a list or a dictionary that has them."""
        put = lambda text, more=0: self.put(block, text, deeper + more)
        target, lists, dicts = self.item_target(block), block.all("lists"), block.all("dicts")
        match self.r.randrange(9):
            case 0 | 1 if target:
                put(f"{target} = {self.exp(block, 1)}")
            case 2 if target and block.names:
                put(f"{self.r.choice(block.names)} = {target} = {self.exp(block, 1)}")
            case 3 if lists:
                put(f"{self.r.choice(lists)}[{self.r.choice(['0', '-1', '1'])}] {self.r.choice(['+', '-', '*', '|'])}= {self.exp(block, 1)}")
            case 4 if dicts:
                d, k = self.r.choice(dicts), self.key()
                put(f"if {k} in {d}:")
                put(self.r.choice([f"{d}[{k}] += {self.atom(block)}", f"del {d}[{k}]"]), 1)
            case 5 if lists:
                x = self.r.choice(lists)
                put(f"{x} += [{self.exp(block, 1)}]")
                put(f"if len({x}) > 3:")
                put(f"del {x}[{self.r.choice(['0', '-1', '1'])}]", 1)
            case 6 if target and self.r.random() < 0.1:
                put(f"del {target}")
            case 7 if lists or dicts:
                put(f"print({self.r.choice(lists + dicts)}, {self.joined(block)})")
            case 8:
                put(f"print({self.joined(block)}, {self.r.choice([self.joined, self.sliced, self.mapping])(block)})")
            case _ if deeper:
                put(f"{self.mapping(block)}[{self.key()}] = {self.atom(block)}")
            case n if n % 2:
                name = self.name("d")
                put(f"{name} = {self.dictionary(block, 5)}")
                block.dicts.append(name)
            case _:
                name = self.name("s")
                put(f"{name} = [{', '.join(self.part(block) for _ in range(self.r.randint(3, 5)))}]")
                block.lists.append(name)

    def pattern(self, block, made, room=1):
        """A target, and a display that fits it, mostly."""
        if not room or self.r.random() < 0.5:
            return self.fresh_target(block, made), self.exp(block, 1)
        inner = [self.pattern(block, made, room - 1) for _ in range(self.r.randint(1, 3))]
        targets, values = ", ".join(t for t, _ in inner), [v for _, v in inner]
        if self.r.random() < 0.02:
            values.append("0")
        return self.r.choice([f"({targets},)", f"[{targets}]"]), self.r.choice([f"[{', '.join(values)}]", f"({', '.join(values)},)"])

    def for_loop(self, block, deeper, room):
        names, made = list(block.names), []
        if self.r.random() < 0.3:
            target, value = self.pattern(block, made)
            over = self.r.choice([f"[{value}]", f"({value}, {value})"])
        else:
            target, over = self.fresh_target(block, made), self.sequence(block)
        self.put(block, f"for {target} in {over}:", deeper)
        block.names += made
        self.body(block, deeper + 1, room - 1)
        if self.r.random() < 0.4:
            self.put(block, f"if {self.test(block)}:", deeper + 1)
            self.put(block, self.r.choice(["break", "continue"]), deeper + 2)
        if self.r.random() < 0.4:
            self.put(block, "else:", deeper)
            self.body(block, deeper + 1, 0)
        if self.r.random() < 0.95:
            block.names = names

    def of_containers(self, block, deeper, room):
        put = lambda text: self.put(block, text, deeper)
        if self.r.random() < 0.35:
            return self.of_items(block, deeper)
        if self.r.random() < 0.3:
            return self.of_methods(block, deeper)
        match self.r.randrange(8):
            case 0 | 1 if room > 0:
                self.for_loop(block, deeper, room)
            case 2 | 3:
                value, name = self.sequence(block), self.name("s")
                put(f"{name} = {value}")
                if not deeper:
                    block.sequences.append(name)
            case 4 | 5:
                made = []
                target, value = self.pattern(block, made, 2)
                put(f"{target} = {value}")
                block.names += made
            case 6:
                made = []
                target = f"{self.fresh_target(block, made)}, {self.fresh_target(block, made)}"
                put(f"{target} = {self.r.choice(['1, 2', '(3, 4)', 'range(2)', '[5, True]', repr('yz')] + [self.sequence(block)] * (self.r.random() < 0.1))}")
                block.names += made
            case _:
                values = [self.r.choice([self.exp, self.sequence])(block) for _ in range(self.r.randrange(4))]
                for word in ("sep", "end"):
                    if self.r.random() < 0.3:
                        values.append(f"{word}={self.r.choice([repr('-'), repr(''), repr(';'), 'None'] + ['3'] * (self.r.random() < 0.05))}")
                put(f"print({', '.join(values)})")

    def call(self, block, room):
        functions = block.all("functions")
        if not functions:
            return self.atom(block)
        f, plain, only, defaults = self.r.choice(functions)
        given = [self.exp(block, room) for _ in range(len(plain))]
        if defaults and self.r.random() < 0.5:
            given = given[:len(plain) - self.r.randint(1, defaults)]
        cut = self.r.randint(0, len(given))
        named = [f"{x}={e}" for x, e in zip(plain[cut:], given[cut:])] + [f"{x}={self.exp(block, room)}" for x in only if self.r.random() < 0.99]
        words = given[:cut]
        if self.containers:
            words, named = self.starred_arguments(block, f, words, named, cut == len(plain))
        self.r.shuffle(named)
        words += named
        if self.r.random() < 0.02:
            words = self.r.choice([words + ["other=1"], ["1", "2", "3"] + words, words[1:]])
        return f"{f}({', '.join(words)})"

    def starred_arguments(self, block, f, words, named, is_filled):
        """Some arguments more where `*NAME` or `**NAME` takes them, and some of all spread."""
        star, stars = self.starred.get(f, (False, False))
        if star and is_filled:
            words = words + [self.atom(block) for _ in range(self.r.randrange(3))]
        if stars and self.r.random() < 0.6:
            named = named + [f"{self.name('n')}={self.atom(block)}"]
        if self.r.random() < 0.15:
            i = self.r.randint(0, len(words))
            j = self.r.randint(i, len(words))
            group = "".join(f"{w}, " for w in words[i:j])
            words = words[:i] + [f"*{self.r.choice(['[%s]', '(%s)'])}" % group] + words[j:]
        if self.r.random() < 0.1:
            k = self.r.randint(0, len(named))
            entries = ", ".join("'{}': {}".format(*w.split("=", 1)) for w in named[k:])
            named = named[:k] + [f"**{{{entries}}}"]
        return words, named

    def test(self, block):
        return f"{self.exp(block, 1)} {self.r.choice(COMPARE[:6])} {self.atom(block)}" if self.r.random() < 0.7 else self.exp(block, 1)

    # exceptions
    def error(self, block, room=1):
        """A class of exceptions, one that it makes, or one that is held."""
        if block.all("errors") and self.r.random() < 0.35:
            return self.r.choice(block.all("errors"))
        own = [c for c in block.all("classes") if c.is_error]
        if own and self.r.random() < 0.6:
            return self.made_of(block, self.r.choice(own), 0) if self.r.random() < 0.8 else self.r.choice(own).name
        name = self.r.choice(ERRORS)
        # what `assert` calls isn't told from a call of its class
        if self.r.random() < 0.25 or name == "AssertionError":
            return name
        args = [self.argument(block, room) for _ in range(self.r.choice([0, 1, 1, 1, 2, 3]))]
        return f"{name}({', '.join(args)})"

    def argument(self, block, room):
        match self.r.randrange(6):
            case 0 if room:
                return self.error(block, room - 1)
            case 1:
                return self.r.choice(["'it\\'s'", "''", "None", "[]", "('a',)"])
            case 2 if self.containers:
                return self.sequence(block)
            case 3 | 4:
                return repr(self.r.choice(["a", "b", "\u00e9"]))
        return self.atom(block)

    def raising(self, block, deeper):
        put = lambda text: self.put(block, text, deeper)
        chance = self.r.random()
        if chance < 0.12 or self.handling and chance < 0.3:
            return put("raise")
        if chance < 0.33:
            return put(f"raise {self.r.choice(['5', 'int', 'None', 'print', '()'])}" if self.r.random() < 0.3 else f"assert {self.test(block)}, {self.argument(block, 1)}")
        cause = "" if self.r.random() < 0.6 else f" from {self.r.choice(['None', '5', self.error(block), self.error(block), self.error(block)])}"
        put(f"raise {self.error(block)}{cause}")

    def handled(self):
        """What a handler takes."""
        match self.r.randrange(12):
            case 0 | 1:
                return f"({', '.join(self.r.choice(ERRORS) for _ in range(self.r.randrange(1, 4)))},)"
            case 2:
                return self.r.choice(["()", "int", "5", "(5,)", "((KeyError,),)"]) if self.r.random() < 0.5 else "BaseException"
            case 3 | 4 | 5:
                return self.r.choice(["Exception", "BaseException", "LookupError", "ArithmeticError"])
        return self.r.choice(ERRORS)

    def try_of(self, block, deeper, room):
        put = lambda text, more=0: self.put(block, text, deeper + more)
        names, errors = list(block.names), list(block.errors)
        put("try:")
        self.body(block, deeper + 1, room - 1)
        if self.r.random() < 0.75:
            self.raising(block, deeper + 1)
        handlers = self.r.choice([0, 1, 1, 2, 3])
        self.handling += 1
        for i in range(handlers):
            if i == handlers - 1 and self.r.random() < 0.2:
                put("except:")
            else:
                own = [c.name for c in block.all("classes") if c.is_error]
                taken = self.handled() if not own or self.r.random() < 0.5 else self.r.choice(own + [f"({own[-1]}, KeyError)"])
                name = self.name("e") if self.r.random() < 0.7 else None
                put(f"except {taken}{f' as {name}' if name else ''}:")
                if name:
                    put(f"print({self.r.choice([name, f'repr({name})', f'[{name}]', f'({name}, 1)']) if taken in WORDED else f'type({name})'})", 1)
                    if self.r.random() < 0.3:
                        put(f"h{self.fresh} = {name}", 1)
                        block.errors.append(f"h{self.fresh}")
                    if self.r.random() < 0.2:
                        block.errors.append(name)
            self.body(block, deeper + 1, 0)
            if self.r.random() < 0.3:
                self.raising(block, deeper + 1)
            elif self.r.random() < 0.2 and block.depth:
                put(f"return {self.atom(block)}", 1)
        self.handling -= 1
        if handlers and self.r.random() < 0.4:
            put("else:")
            self.body(block, deeper + 1, 0)
        if not handlers or self.r.random() < 0.4:
            put("finally:")
            self.body(block, deeper + 1, 0)
            if self.r.random() < 0.2:
                self.raising(block, deeper + 1)
            elif self.r.random() < 0.2 and block.depth:
                put(f"return {self.atom(block)}", 1)
        if self.r.random() < 0.98:
            block.names = names
        if self.r.random() < 0.9:
            block.errors = errors

    def of_exceptions(self, block, deeper, room):
        match self.r.randrange(10):
            case 0:
                return self.raising(block, deeper) if self.r.random() < 0.4 else self.put(block, f"assert {self.test(block)} or True", deeper)
            case 1:
                x = self.name("x")
                self.put(block, f"{x} = {self.error(block, 2)}", deeper)
                return block.errors.append(x) if not deeper else None
            case 2 if block.all("errors"):
                x, y = self.r.choice(block.all("errors")), self.r.choice(block.all("errors"))
                return self.put(block, f"print({self.r.choice([f'{x} is {y}', f'{x} == {y}', f'not {x}', f'type({x})', f'{x} in [{y}]'])})", deeper)
        if room > 0:
            return self.try_of(block, deeper, room)
        return self.put(block, f"print({self.error(block)})" if self.r.random() < 0.5 else "pass", deeper)

    # classes
    def made_of(self, block, c, room=1):
        """An instance."""
        many = c.arguments()
        given = [self.exp(block, room) for _ in range(many if many is not None else self.r.randrange(3) if c.is_error else 0)]
        if self.r.random() < 0.015:
            given = self.r.choice([given + ["1"], given[1:], given + ["other=1"]])
        return f"{c.name}({', '.join(given)})"

    def attribute(self, c):
        names = c.all("attributes")
        return self.r.choice(names) if names and self.r.random() < 0.97 else self.r.choice(ATTRIBUTES[:4])

    def named_of(self, block, within=None):
        """What names an object of a class here, and the class."""
        if block.receiver and self.r.random() < 0.7:
            return block.receiver
        return self.r.choice(block.all("objects") or [(None, None)])

    def of_object(self, block, room=1):
        """A value of an attribute, of a method or of a question about classes."""
        o, c = self.named_of(block)
        if o is None:
            return self.atom(block)
        x, methods = self.attribute(c), c.all("methods")
        match self.r.randrange(10):
            case 0 | 1 | 2:
                return f"{o}.{x}"
            case 3:
                return self.r.choice([f"getattr({o}, {x!r}, 3)", f"hasattr({o}, {x!r})", f"getattr({c.name}, {x!r}, 2)"])
            case 4:
                return self.r.choice([f"isinstance({o}, {self.r.choice(block.all('classes') or [c]).name})", f"(type({o}) is {c.name})", f"issubclass({c.name}, {self.r.choice(block.all('classes') or [c]).name})"])
            case 5:
                return self.r.choice([f"callable({o}.{x})", f"({o} is {self.named_of(block)[0]})", f"({c.name}.__name__ == {c.name!r})"])
            case _ if methods and not block.receiver:
                m, many = self.r.choice(methods)
                given = [self.exp(block, 0) for _ in range(many)]
                if self.r.random() < 0.01:
                    given.append("1")
                if self.r.random() < 0.25 and not m.startswith("__"):
                    return f"{c.name}.{m}({', '.join([o, *given])})"
                return f"{o}.{m}({', '.join(given)})"
        return f"getattr({o}, {x!r}, {self.atom(block)})"

    def method(self, inner, c, name, many, is_init=False):
        """A method, whose block is in the body of the class but doesn't see it."""
        put = lambda block, text, deeper=0: self.put(block, text, deeper)
        parameters = [self.name("a") for _ in range(many)]
        words = parameters[:-1] + [f"{parameters[-1]}={self.atom(inner.around)}"] if parameters and self.r.random() < 0.2 and not is_init else parameters
        body = Block(inner.depth + 1, inner.around)
        own = self.r.choice(["self", "self", "me"])
        put(inner, f"def {name}({', '.join([own, *words])}):")
        body.names, body.receiver = list(parameters), (own, c)
        above = c.base.all("methods") if c.base else []
        if is_init:
            if c.base and c.base.arguments() is not None and self.r.random() < 0.8:
                put(body, f"super().__init__({', '.join(self.r.choice(parameters + ['1']) for _ in range(c.base.arguments()))})")
            for x in self.r.sample(ATTRIBUTES, self.r.randint(1, 3)):
                put(body, f"{own}.{x} = {self.r.choice(parameters + [self.exp(body, 1)])}")
                c.attributes.append(x)
        for _ in range(self.r.randint(0, 2)):
            self.of_receiver(body, own, c, name)
        if (name, many) in above and self.r.random() < 0.7:
            put(body, self.r.choice(["print({})", "return {}"]).format(f"super().{name}({', '.join(parameters)})"))
        if not is_init and self.r.random() < 0.9:
            put(body, self.r.choice([f"return {self.exp(body, 1)}", f"return {own}.{self.attribute(c)}", f"return getattr({own}, {self.attribute(c)!r}, {self.atom(body)})", "return len('ab')"]))
        elif self.lines[-1].endswith("):"):
            put(body, "pass")

    def of_receiver(self, body, own, c, name):
        x = self.r.choice(ATTRIBUTES)
        before = [m for m, _ in METHODS].index(name) if name != "__init__" else len(METHODS)
        callable_ = [(m, n) for m, n in c.all("methods") if [k for k, _ in METHODS].index(m) < before and not m.startswith("__")]
        match self.r.randrange(7):
            case 0 | 1:
                self.put(body, f"{own}.{x} = {self.exp(body, 1)}")
                if name == "__init__":
                    c.attributes.append(x)
            case 2 if callable_:
                m, many = self.r.choice(callable_)
                self.put(body, f"print({own}.{m}({', '.join(self.atom(body) for _ in range(many))}))")
            case 3:
                self.put(body, f"if hasattr({own}, {x!r}):")
                self.put(body, self.r.choice([f"{own}.{x} += 1", f"print({own}.{x})"] if not x.startswith("__") else ["print('has it')"]), 1)
            case 4:
                self.put(body, f"setattr({own}, {x!r}, {self.atom(body)})")
            case 5 if body.around.all("names"):
                self.put(body, f"print({self.r.choice(body.around.all('names'))})")
            case _:
                self.put(body, f"print({self.exp(body, 1)})")

    def a_class(self, block, deeper, inside=0):
        """A class, some in a class, and some of exceptions."""
        put = lambda text: self.put(block, text, deeper)
        known = block.all("classes")
        name, base, word = self.name("C"), None, ""
        if known and self.r.random() < 0.6:
            base = self.r.choice(known)
            word = f"({base.name})"
        elif self.exceptions and self.r.random() < 0.35:
            word = f"({self.r.choice(['Exception', 'ValueError', 'KeyError', 'LookupError', 'RuntimeError'])})"
        elif self.r.random() < 0.15:
            word = self.r.choice(["(object)", "()", "(int)" if self.r.random() < 0.1 else "(object)", "(5)" if self.r.random() < 0.1 else "()"])
        c = Made(name, base, word not in ("", "()", "(object)", "(int)", "(5)") and base is None or base is not None and base.is_error)
        if self.r.random() < 0.15:
            put("@same")
        put(f"class {name}{word}:")
        inner = Block(block.depth + deeper + 1, block)
        if self.r.random() < 0.15:
            self.put(inner, "'a text'")
        for _ in range(self.r.randrange(3)):
            self.of_body(inner, c, block)
        if self.r.random() < 0.5:
            c.inits = self.r.randrange(3)
            self.method(inner, c, "__init__", c.inits, True)
        for m, many in self.r.sample(METHODS, self.r.randrange(3)):
            self.method(inner, c, m, many)
            c.methods.append((m, many))
        if not inside and self.r.random() < 0.1:
            inner.names.append(self.a_class(inner, 0, 1).name)
        if not inner.names and not c.methods and c.inits is None:
            self.put(inner, self.r.choice(["pass", "print('body')", "x = 1"]))
        return c

    def of_body(self, inner, c, block):
        """A statement of a class's body, which binds names of the class, some of which are names around it too."""
        names = block.names if self.r.random() < 0.15 else []
        x = self.r.choice([*ATTRIBUTES, *names])
        own = Block(inner.depth, None)
        own.names = [*inner.names, "1", "2"]
        match self.r.randrange(8):
            case 0 if inner.names:
                self.put(inner, f"if {self.r.choice(inner.names)} == 1:")
                self.put(inner, f"{x} = {self.atom(own)}", 1)
                self.put(inner, "else:")
                self.put(inner, f"{x} = {self.exp(block, 1)}", 1)
            case 1:
                self.put(inner, f"for {x} in range({self.r.randrange(1, 3)}):")
                self.put(inner, f"print({x})", 1)
            case 2 if inner.names and len(inner.names) > 1:
                y = inner.names.pop()
                self.put(inner, f"del {y}")
                c.attributes = [a for a in c.attributes if a != y]
                return
            case 3:
                self.put(inner, f"print({self.atom(own)}, {self.exp(block, 1)})")
                return
            case 4:
                self.put(inner, f"{x} = lambda self, n=1: n")
            case _:
                self.put(inner, f"{x} = {self.r.choice([self.exp(block, 1), self.atom(own), self.atom(block)])}")
        inner.names.append(x)
        c.attributes.append(x)

    def of_classes(self, block, deeper, room):
        put = lambda text, more=0: self.put(block, text, deeper + more)
        classes = block.all("classes")
        o, c = self.named_of(block)
        if not classes or self.r.random() < 0.25:
            if deeper or block.depth > 2:
                return put("pass")
            c = self.a_class(block, deeper)
            return block.classes.append(c)
        if o is None or self.r.random() < 0.25:
            c, o = self.r.choice(classes), self.name("o")
            put(f"{o} = {self.made_of(block, c)}")
            return block.objects.append((o, c)) if not deeper else None
        x, m = self.r.choice(ATTRIBUTES[:4] + ["shared"]), self.name("m")
        match self.r.randrange(12):
            case 0 | 1:
                put(f"{o}.{x} = {self.exp(block, 1)}")
            case 2:
                put(f"{c.name}.{x} = {self.exp(block, 1)}")
                c.attributes.append(x)
            case 3:
                put(f"if hasattr({o}, {x!r}):")
                put(self.r.choice([f"{o}.{x} += {self.atom(block)}", f"print({o}.{x})", f"{o}.{x} = {o}.{x}, 1"]), 1)
            case 4:
                put("try:")
                put(f"del {self.r.choice([o, c.name])}.{x}", 1)
                put("except AttributeError as missing:")
                put("print(missing)", 1)
            case 5 if c.all("methods"):
                name, many = self.r.choice([k for k in c.all("methods") if not k[0].startswith("__")] or [("m0", 0)])
                put(f"{m} = {self.r.choice([o, c.name])}.{name}")
                is_bound = f"= {o}." in self.lines[-1]
                put(f"print({m}({', '.join([o] * (not is_bound) + [self.atom(block) for _ in range(many)])}))")
            case 6:
                put(f"setattr({self.r.choice([o, c.name, '5' if self.r.random() < 0.1 else o])}, {x!r}, {self.exp(block, 1)})")
            case 7:
                put(f"print({c.name}, type({o}), {o}.{self.attribute(c)})")
            case 8:
                put(f"{o}.{x}, {o}._u = {self.exp(block, 1)}, {self.exp(block, 1)}")
            case 9 if self.containers:
                put(f"for {o}.{x} in {self.sequence(block, 0)}:")
                put(f"print({o}.{x})", 1)
            case 10:
                put(f"{c.name}.m0 = lambda self: {self.atom(block)}")
                put(f"print({o}.m0())")
            case _:
                put(f"print({self.of_object(block)}, {self.of_object(block)})")

    # statements
    def target(self, block, among=None):
        if among or block.names and self.r.random() < 0.5:
            return self.r.choice(among or block.names)
        x = self.name("v")
        block.names.append(x)
        return x

    def statement(self, block, deeper, room):
        put = lambda text: self.put(block, text, deeper)
        if self.has_classes and self.r.random() < 0.45:
            return self.of_classes(block, deeper, room)
        if self.exceptions and self.r.random() < 0.3:
            return self.of_exceptions(block, deeper, room)
        if self.builtins and self.r.random() < 0.25:
            return self.of_builtins(block, deeper)
        if self.helpers and self.r.random() < 0.25:
            return self.of_helpers(block, deeper)
        if self.containers and self.r.random() < 0.45:
            return self.of_containers(block, deeper, room)
        match self.r.randrange(16):
            case 0 | 1 | 2:
                value = self.exp(block)
                put(f"{self.target(block)} = {value}")
            case 3:
                value = self.exp(block)
                put(f"{self.target(block)} = {self.target(block)} = {value}")
            case 4:
                value = self.exp(block)
                put(f"{self.target(block)}: int = {value}")
            case 5 | 6 if block.names:
                sign = self.r.choice(["+", "-", "*", "|", "&", "//", "^"])
                put(f"{self.r.choice(block.names)} {sign}= {self.exp(block, 1)}")
            case 7 if len(block.names) > 2 and not deeper:
                x = self.r.choice(block.names)
                put(f"del {x}")
                if self.r.random() < 0.7:
                    block.names.remove(x)
            case 8 | 9 if room > 0:
                put(f"if {self.test(block)}:")
                self.body(block, deeper + 1, room - 1)
                if self.r.random() < 0.4:
                    put(f"elif {self.test(block)}:")
                    self.body(block, deeper + 1, room - 1)
                if self.r.random() < 0.5:
                    put("else:")
                    self.body(block, deeper + 1, room - 1)
            case 10 | 11 if room > 0:
                self.loop(block, deeper, room)
            case 12 | 13 if room > 0 and not deeper and block.depth < 3:
                self.function(block, room)
            case 14:
                put(self.call(block, 1))
            case _:
                put(f"print({', '.join(self.exp(block, 2) for _ in range(self.r.randrange(1, 3)))})")

    def body(self, block, deeper, room):
        names = list(block.names)
        for _ in range(self.r.randint(1, 3)):
            self.statement(block, deeper, room)
        if self.r.random() < 0.2:
            self.put(block, "pass", deeper)
        if self.r.random() < 0.98:
            block.names = names

    def loop(self, block, deeper, room):
        i = self.name("i")
        self.put(block, f"{i} = 0", deeper)
        self.put(block, f"while {i} < {self.r.randrange(4)}:", deeper)
        self.put(block, f"{i} += 1", deeper + 1)
        self.body(block, deeper + 1, room - 1)
        if self.r.random() < 0.5:
            self.put(block, f"if {self.test(block)}:", deeper + 1)
            self.put(block, self.r.choice(["break", "continue"]), deeper + 2)
        if self.r.random() < 0.4:
            self.body(block, deeper + 1, 0)
        if self.r.random() < 0.4:
            self.put(block, "else:", deeper)
            self.body(block, deeper + 1, room - 1)

    def function(self, block, room):
        f = self.name("f")
        plain = [self.name("a") for _ in range(self.r.randrange(3))]
        only = [self.name("k") for _ in range(self.r.choice([0, 0, 1, 2]))]
        defaults = self.r.randint(0, len(plain))
        words = [x if i < len(plain) - defaults else f"{x}={self.exp(block, 1)}" for i, x in enumerate(plain)]
        star, stars = (self.name(x) if self.containers and self.r.random() < 0.15 else None for x in ("r", "w"))
        if star or only:
            words += [f"*{star or ''}"] + [x if self.r.random() < 0.5 else f"{x}={self.exp(block, 1)}" for x in only]
        if stars:
            words.append(f"**{stars}")
        if self.r.random() < 0.15:
            self.put(block, "@same")
        self.put(block, f"def {f}({', '.join(words)}):")
        inner = Block(block.depth + 1, block)
        if self.r.random() < 0.2:
            self.put(inner, "'a text of its own'")
        outer = [x for x in block.names if block.depth]
        if outer and self.r.random() < 0.6:
            x = self.r.choice(outer)
            self.put(inner, f"nonlocal {x}")
            self.put(inner, f"{x} = {self.exp(block, 1)}")
        if self.r.random() < 0.3:
            x = self.name("g")
            self.put(inner, f"global {x}")
            self.put(inner, f"{x} = {self.exp(block, 1)}")
            self.put(inner, f"{x} += 1")
        inner.names, inner.sequences, inner.dicts = plain + only, [star] * bool(star), [stars] * bool(stars)
        for _ in range(self.r.randint(1, 4)):
            self.statement(inner, 0, room - 1)
        if inner.functions and self.r.random() < 0.4:
            self.put(inner, f"return {inner.functions[-1][0]}")
        elif self.r.random() < 0.97:
            self.put(inner, f"return {self.exp(inner)}" if self.r.random() < 0.97 else "return")
        if inner.functions and self.lines[-1].endswith("return " + inner.functions[-1][0]):
            made = self.name("f")
            self.put(block, f"{made} = {f}({', '.join([self.atom(block) for _ in plain] + [f'{x}={self.atom(block)}' for x in only])})")
            block.functions.append((made, *inner.functions[-1][1:]))
            self.starred[made] = self.starred[inner.functions[-1][0]]
        else:
            block.functions.append((f, plain, only, defaults))
            self.starred[f] = bool(star), bool(stars)

    def text(self):
        module = Block(0)
        for _ in range(self.r.randint(4, 10)):
            self.statement(module, 0, 2)
        return "\n".join(self.lines) + "\n"


def program(seed, containers=False, exceptions=False, forms=False, builtins=False, helpers=False, classes=False):
    return Program(seed, containers, exceptions, forms, builtins, helpers, classes).text()
