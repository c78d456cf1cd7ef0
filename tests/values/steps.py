"""Writes the table of test_containers, and what CPython answers to its rows.

Run with CPython 3.12 in this folder. A row is steps with ` / ` between them, a step a word and its operands: `dict set tuple list` make
an object of operands, `item put del` are subscripts of a dictionary, `in` asks for an operand in a container, `add` is the item of a
comprehension, `.NAME` a method, `iter` and `next` are for iterators, `| & - ^` operators of sets, with `=` behind them in place, and
`same` compares two sets. An operand is `n t f e N`, `i` and an integer, `s` and a text, `x q h` an instance of a class of a script that
has no special method, `__eq__` or `__hash__`, or `#` and the number of an object that a step has made. An answer has what each step
answers, and then what the objects that were made hold.
"""

import random
from pathlib import Path

import containers
from containers import Equal, Hashed, NeedsHash, Ordered, Plain

CRATE = Path(__file__).resolve().parent.parent.parent / "crates" / "test_containers"
INSTANCES = {"x": Plain(), "q": Equal(), "h": Hashed()}
CONSTANTS = {"n": None, "t": True, "f": False, "e": ..., "N": NotImplemented}
KEYS = ["n", "t", "f", "e", "N", "i0", "i1", "i-1", "i2", f"i{2 ** 127 - 1}", "s", "sa", "sb", "s1", "x"]
METHODS = {dict: ["get", "keys", "values", "items", "pop", "setdefault", "update", "clear", "copy", "append"],
           Ordered: ["add", "discard", "remove", "clear", "copy", "sort", "pop"]}
SIGNS = {"|": "BitOr", "&": "BitAnd", "-": "Sub", "^": "BitXor"}


class Iterator:
    """An iterator of CPython, over what it goes, its place, and how many entries there were at the start."""

    def __init__(self, over, container):
        self.over, self.container, self.at, self.place, self.count = over, container, iter(over), 0, len(over)
        self.keys = list(container)

    def may_go_on(self):
        """Whether CPython says what comes next: keys are as they were, or there are more or fewer."""
        return self.at is not None and (len(self.container) != self.count or list(self.container) == self.keys)


class Machine:
    """The steps of a row, one after another."""

    def __init__(self):
        self.world = containers.World()
        self.expected = containers.Expected(self.world)
        self.made, self.behind, self.answers = [], {}, []

    def value(self, word):
        if word in CONSTANTS:
            return CONSTANTS[word]
        if word in INSTANCES:
            return INSTANCES[word]
        if word[0] == "#":
            return self.made[int(word[1:])]
        return int(word[1:]) if word[0] == "i" else word[1:]

    def word(self, value):
        for word, thing in [*CONSTANTS.items(), *INSTANCES.items()]:
            if thing is value:
                return word
        for number, thing in enumerate(self.made):
            if thing is value:
                return f"#{number}"
        return f"i{value}" if type(value) is int else f"s{value}" if type(value) is str else None

    def given(self, value):
        word = self.word(value)
        if word is None:
            self.made.append(value)
            return f"new {self.word(value)}"
        return word

    def new(self, value):
        self.made.append(value)
        return f"new #{len(self.made) - 1}"

    # steps
    def step(self, text):
        name, *words = text.split(" ")
        values = [self.value(word) for word in words]
        try:
            told = self.done(name, values)
        except NeedsHash:
            told = "outside hash"
        except TypeError as error:
            told = f"TypeError: s{error}"
        except KeyError as error:
            told = f"KeyError: {self.word(error.args[0])}"
        except RuntimeError:
            values[0].at = None
            told = "RuntimeError: scontainer changed during iteration"
        self.answers.append(told)

    def done(self, name, values):
        if name == "dict":
            d = {}
            for key, value in zip(values[::2], values[1::2]):
                self.expected.hash(key)
                d[key] = value
            return self.new(d)
        if name == "set":
            s = Ordered()
            for item in values:
                self.expected.hash(item)
                s.setdefault(item)
            return self.new(s)
        if name in ("tuple", "list"):
            # one of its own each time
            return self.new(containers_tuple(values) if name == "tuple" else list(values))
        if name[0] == ".":
            return self.method(name[1:], *values)
        return getattr(self, "do_" + {"in": "contains", "del": "delete", **{s: "operator" for s in SIGNS}, **{s + "=": "operator" for s in SIGNS}}.get(name, name))(
            *values, *([name] if name.rstrip("=") in SIGNS else []))

    def hashed(self, container, value):
        """A set may be sought in a set."""
        if not (type(container) is Ordered and type(value) is Ordered):
            self.expected.hash(value)

    def do_item(self, d, key):
        self.expected.hash(key)
        return self.given(d[key])

    def do_put(self, d, key, value):
        self.expected.hash(key)
        d[key] = value
        return "n"

    def do_delete(self, d, key):
        self.expected.hash(key)
        del d[key]
        return "n"

    def do_contains(self, value, container):
        if type(container) is Ordered:
            return self.given(self.world.hashed(value) in set(container))
        self.expected.hash(value)
        return self.given(value in container)

    def do_add(self, s, item):
        self.expected.hash(item)
        s.setdefault(item)
        return "n"

    def do_iter(self, over):
        if type(over) is Iterator:
            return self.word(over)
        return self.new(Iterator(over, self.behind.get(id(over), over)))

    def do_next(self, iterator):
        if iterator.at is None:
            return "end"
        try:
            item = next(iterator.at)
        except StopIteration:
            iterator.at = iterator.over = None
            return "end"
        iterator.place += 1
        # a pair is a tuple of its own each time
        return self.given(item)

    def do_same(self, a, b):
        return self.given(set(a) == set(b))

    def do_operator(self, a, b, sign):
        entries = self.expected.combined(SIGNS[sign[0]], a, b)
        if sign[-1] == "=" and len(sign) > 1:
            a.clear()
            a.update(entries)
            return self.word(a)
        return self.new(Ordered(entries))

    def method(self, name, container, *args):
        kind = type(container)
        counts = {dict: {"get": (1, 2), "keys": (0,), "values": (0,), "items": (0,), "pop": (1, 2), "setdefault": (1, 2), "update": (1,), "clear": (0,),
                         "copy": (0,)}, Ordered: {"add": (1,), "discard": (1,), "remove": (1,), "clear": (0,), "copy": (0,)}}[kind]
        if len(args) not in counts.get(name, ()):
            return "outside feature"
        if name == "update":
            return "help update"
        if name == "copy":
            return self.new(kind(container))
        if name == "clear":
            container.clear()
            return "n"
        if name in ("keys", "values", "items"):
            view = getattr(container, name)()
            self.behind[id(view)] = container
            return self.new(view)
        if kind is dict:
            if not (name == "pop" and not container):
                self.expected.hash(args[0])
            return self.given(getattr(container, name)(*args))
        if name == "add":
            return self.do_add(container, *args)
        self.hashed(container, args[0])
        there = type(args[0]) is not Ordered and args[0] in container
        if not there and name == "remove":
            raise KeyError(args[0])
        if there:
            del container[args[0]]
        return "n"

    # what objects hold
    def held(self, thing):
        kind = type(thing)
        if kind is dict:
            return "{" + ", ".join(f"{self.word(k)}: {self.word(v)}" for k, v in thing.items()) + "}"
        if kind is Ordered:
            return "{" + ", ".join(map(self.word, thing)) + "}"
        if kind is tuple:
            return "(" + ", ".join(map(self.word, thing)) + ")"
        if kind is list:
            return "[" + ", ".join(map(self.word, thing)) + "]"
        if kind is Iterator:
            return f"iterator {thing.place} of {thing.count} over {'nothing' if thing.over is None else self.word(thing.over)}"
        return f"{kind.__name__[5:]} {self.word(self.behind[id(thing)])}"

    def answer(self):
        return " / ".join(self.answers) + "".join(f" | {self.held(thing)}" for thing in self.made)


def containers_tuple(values):
    """A tuple that is no other's object; CPython has one empty tuple, so that there is none here."""
    assert values
    return tuple([*values])


def answer(row):
    machine = Machine()
    for step in row.split(" / "):
        machine.step(step)
    return machine.answer()


class Writer:
    """A row by chance, of steps that CPython tells the answers of."""

    def __init__(self, chooser):
        self.chooser, self.machine, self.steps = chooser, Machine(), []

    def do(self, step):
        self.steps.append(step)
        self.machine.step(step)

    def numbers(self, *kinds):
        return [f"#{n}" for n, thing in enumerate(self.machine.made) if type(thing) in kinds]

    def key(self):
        """Mostly what is a key."""
        choice = self.chooser.random()
        if choice < 0.08:
            return self.chooser.choice(["q", "h", *self.numbers(dict, list, Ordered)])
        if choice < 0.3:
            return self.chooser.choice(self.numbers(tuple) or KEYS)
        return self.chooser.choice(KEYS[:8] if choice < 0.7 else KEYS)

    def keys(self, most):
        return [self.key() for _ in range(self.chooser.randrange(most + 1))]

    def pick(self, *kinds):
        return self.chooser.choice(self.numbers(*kinds) or [""])

    def next_step(self):
        chooser = self.chooser
        d, s, both = self.pick(dict), self.pick(Ordered), self.pick(dict, Ordered)
        views = containers.VIEWS.values()
        steps = [f"in {self.key()} {both}", f"iter {self.pick(dict, Ordered, *views)}"]
        if d:
            method = chooser.choice(METHODS[dict])
            steps += [f"item {d} {self.key()}", f"put {d} {self.key()} {self.key()}", f"put {d} {self.key()} {self.key()}", f"del {d} {self.key()}"]
            steps += [" ".join([f".{method}", d, *args]) for args in ([], [self.key()], [self.key()], [self.key(), self.key()])]
        if s:
            other = self.pick(Ordered)
            sign = chooser.choice([*SIGNS])
            method = chooser.choice(METHODS[Ordered])
            steps += [f"{sign} {s} {other}", f"{sign}= {s} {other}", f"same {s} {other}", f"add {s} {self.key()}"]
            steps += [" ".join([f".{method}", s, *args]) for args in ([], [self.key()], [self.key()])]
        going = [n for n in self.numbers(Iterator) if self.machine.value(n).over is None or self.machine.value(n).may_go_on()]
        steps += [f"next {n}" for n in going] * 2
        return chooser.choice(steps)

    def row(self):
        chooser = self.chooser
        for _ in range(chooser.randrange(3)):
            self.do(" ".join(["tuple", chooser.choice(KEYS), *[w for w in self.keys(2)]]))
        if chooser.random() < 0.3:
            self.do(" ".join(["list", *self.keys(2)]))
        first = chooser.random()
        if first < 0.65:
            keys = self.keys(5)
            self.do(" ".join(["dict", *[w for key in keys for w in (key, self.key())]]))
        if first > 0.5:
            self.do(" ".join(["set", *self.keys(5)]))
        if not self.numbers(dict, Ordered):
            self.do("dict i1 sa t sb")
        for _ in range(chooser.randrange(3, 12)):
            self.do(self.next_step())
        return " / ".join(self.steps)


def rows(count):
    chooser = random.Random(7)
    for _ in range(count):
        yield Writer(chooser).row()


def main():
    lines = list(dict.fromkeys(rows(3000)))
    (CRATE / "args").write_text("steps\nrows.txt\n", "utf-8", newline="\n")
    (CRATE / "data" / "rows.txt").write_text("".join(line + "\n" for line in lines), "utf-8", newline="\n")
    (CRATE / "stdout").write_text("".join(answer(line) + "\n" for line in lines), "utf-8", newline="\n")
    print(len(lines), "rows")


if __name__ == "__main__":
    main()
