#!/usr/bin/env python3
"""Writes the table of test_write: statements, each of which stands in a script, and what the definitions of names, of pieces and of
their layout say of the code of their expressions and targets. Of the project's code nothing is run.

    rows.py DIRECTORY
"""
import os
import sys

HERE = os.path.dirname(os.path.abspath(__file__))
sys.path[:0] = [os.path.join(HERE, "..", "code"), os.path.join(HERE, "..", "run")]

from definitions import items, listed, load  # noqa: E402
from machines import Pieces  # noqa: E402
from trees import Trees  # noqa: E402

CRATES = os.path.join(HERE, "..", "..", "crates")

ROWS = """
# constants and names
None; True; False; ...; 7; -7; 'text'; a; b; c; d; __private; __public__
# one operand or two
-a; +b; ~c; not d
a + 1; a - b; a * b; a / b; a // b; a % b; a ** b; a << b; a >> b; a & b; a | b; a ^ b
a.x; a.__x; a.__x__; a.x.y; a[b]; a[b][c]
# slices
a[:]; a[b:]; a[:b]; a[::b]; a[b:c]; a[b::c]; a[:b:c]; a[b:c:d]
# displays
(); (a,); a, b, 3; []; [a]; [a, [b, c]]; {a}; {a, b}; {}; {a: b}; {a: b, c: d, 1: 2}
# comparisons
a < b; a <= b; a > b; a >= b; a == b; a != b; a in b; a not in b; a is b; a is not b
a < b < c; a < b == c is not d; (a < b) < c
# `and`, `or`, conditional expressions
a and b; a or b; a and b and c; a or b or c or d; a and (b or c); (a and b) or not c
a if b else c; a if b else c if d else 1; (a if b else c) if (d and a) else (b or c)
# f-strings
f''; f'text'; f'{a}'; f'{a!s}'; f'{a!r}'; f'{a:x}'; f'{a:{b}}'; f'{a:>{b}}'; f'{a!r:{b}{c}}'; f'x{a}y{b:_{c!r}_{d}}z'; f'{f"{a}-"}{b}'
# calls
a(); a(b); a(b, c); a(b, x=c); a(x=b, y=c); a(*b); a(**b); a(b, *c, x=d, **a); a(b)(c).x(d)
# functions and generators
lambda: a; lambda x: x; lambda x=a: x; lambda x, y=a, z=b: x; lambda *, x=a, y, z=b: x; lambda x=a, *, y=b: x; lambda x=a, *y, z, **w: x
a + (lambda x=b: x); (a for i in b); (i for i in a + b if c)
# comprehensions
[a for i in b]; {i for i in b}; {i: j for i in a for j in b}; [i for i in a if b if c]; [i for i in a if b for j in c if d if a]
[[j for j in i] for i in a]; [(i, j) for i, j in a]; [i for i, (j, *a.x) in b]; {i: lambda: i for i in a}; [i for i in [j for j in a if j] if i]
# `yield`
yield; yield a; yield from a; a + (yield b)
# the test of a loop, made again
while a: pass
while a + b: pass
while a and b: pass
while (): pass
while (a, b): pass
while []: pass
while {}: pass
while {a: b}: pass
while f'': pass
while f'{a}{b}': pass
while a[:b]: pass
while a if b else c: pass
while not a < b < c: pass
while a(b): pass
while a.x: pass
while lambda: a: pass
while lambda x=b: a: pass
while lambda *, x=b: a: pass
while [i for i in a]: pass
while (i for i in a): pass
while (yield): pass
while (yield a): pass
while (yield from a): pass
# targets
a = 0; b = 0; c = 0; d = 0; k = 0; __p = 0; a.x = 0; a.__x = 0; a[b] = 0; a[b:c] = 0; a = b = c = 0
a, b = 0; a, *b = 0; *a, b, c = 0; [a, (b, c.x), *d] = 0; (a,) = 0; a.x, b[c + d] = 0
# in the body of a class
@k; @c; @d; @__private; @k = 0; @__p = 0; @k.__x = 0; @lambda: c; @lambda x=k: k; @[i for i in k]; @{i: lambda: i for i in k}; @(i for i in k)
# places
a += 1; a.x += 1; a[b] += 1; a[b][c] += 1
"""


# where the rows stand: behind what is said there, in front of what is behind
METHOD = """\
def around(c):
    class _K:
        def method(a, b):
            nonlocal c
            {}
            lambda: (b, c)
"""
CLASS = """\
def around(c):
    class _K:
        {}
        k = 0
"""


def coded(name):
    return listed(name.encode())


def text_of(name):
    return bytes(items(name)).decode()


class CodedTrees(Trees):
    """Names are lists of bytes, as the definitions of names take them apart."""
    word = staticmethod(coded)


def list_of(statements):
    """A list of statements, one by one."""
    while statements[0] == "more":
        yield statements[1]
        statements = statements[2]


def blocks(text):
    """The function of a script, and the class in it."""
    function = next(list_of(Trees(text).tree))
    return function, next(list_of(function[-1]))


class Names:
    """How the definitions name the variables of blocks."""

    def __init__(self):
        self.definitions = load(CRATES)

    def of(self, module, name):
        return self.definitions.get(f"Rattle.sem_names.specs.{module}", name)

    def around(self, text, block):
        """What code asks of a block, with names as texts."""
        raw = self.of("Around", "around_by")(1, self.of("Script", "naming_script")(CodedTrees(text).tree), block)

        def variable(v):
            return {"scope": v["scope"], "name": text_of(v["name"])}
        return {"null": 1, "variable": lambda within: lambda name: variable(raw["variable"](within)(coded(name))),
                "spelled": lambda name: text_of(raw["spelled"](coded(name))),
                "captured": lambda number: listed(map(variable, items(raw["captured"](number))))}


class Table:
    def __init__(self):
        self.names = Names()
        self.specs = d = Pieces(CRATES)
        self.layout = d.get("pt_assembler", "Layout", "layout")
        self.begun = d.get("pt_assembler", "Layout", "begun")
        self.block_of = d.get("pt_assembler", "Layout", "block_of")
        self.exp = d.get("sem_compile", "emitter.ExpPiece", "exp_piece")
        self.target = d.get("sem_compile", "emitter.ExpPiece", "target_piece")
        self.place = d.get("sem_compile", "emitter.ExpPiece", "place_piece")

    def pieces(self, around, statement):
        """The pieces of a statement, each from the act behind those before it."""
        match statement[0]:
            case "expr":
                yield lambda n: self.exp(around, statement[2], n, False, ())
            case "while":
                yield lambda n: self.exp(around, statement[2], n, True, ())
            case "assign":
                targets = statement[2]
                while targets[0] == "more_targets":
                    yield lambda n, t=targets[1]: self.target(around, t, n, ())
                    targets = targets[2]
            case "augmented":
                yield lambda n: self.place(around, statement[2], n, ())
            case _:
                raise ValueError(statement)

    @staticmethod
    def stand(row):
        """The script in which a row stands, with its statement and the number of its block."""
        if row.startswith("@"):
            text = CLASS.format(row[1:])
            _, of_class = blocks(text)
            return text, next(list_of(of_class[-1])), of_class[4]
        text = METHOD.format(row)
        _, of_class = blocks(text)
        method = next(list_of(of_class[-1]))
        return text, list(list_of(method[-1]))[1], method[4]

    def told(self, row):
        text, statement, block = self.stand(row)
        written = self.begun((), (), (), (), (), (), 0)
        for piece in self.pieces(self.names.around(text, block), statement):
            written = self.layout(piece(written["act"]), (), written)
        heading = {"name": {"0": 0}, "first_line": {"0": 1}, "parameters": 0, "rest": {"positional": False, "named": False},
                   "keyword_only": 0, "kind": ("Function",)}
        block = self.block_of(heading, written)
        marks = [f" {m['pc']['0']}:{m['act']['0']}:{m['line']['0']}" + "!" * m["again"] for m in items(block["marks"])]
        names = "".join(f"; {x}" + "".join(f" {t['0']}" for t in items(block[x])) for x in ("locals", "cells", "free") if items(block[x]))
        texts = "; texts" + "".join(f" '{t or ''}'" for t in items(written["texts"]))
        constants = "; constants [" + ", ".join(map(constant, items(written["constants"]))) + "]"
        lists = "".join(f"; list [{', '.join(map(str, items(xs)))}]" for xs in items(written["lists"]))
        return bytes(items(block["instructions"])).hex() + "".join(marks) + names + texts + constants + lists


def constant(c):
    """As Rust's `Debug` shows it."""
    match c:
        case ("Text", t):
            return f"Text(TextNo({t['0']}))"
        case ("Int", n):
            return f"Int({n})"
    return c[0]


def main(directory):
    table = Table()
    rows = [row for line in ROWS.strip().split("\n") for row in ([line] if line.startswith(("#", "while")) else line.split("; "))]
    with open(os.path.join(directory, "data", "rows.txt"), "w", encoding="utf-8") as f:
        f.write("".join(row + "\n" for row in rows))
    with open(os.path.join(directory, "stdout"), "w", encoding="utf-8") as f:
        f.write("".join((row if row.startswith("#") else table.told(row)) + "\n" for row in rows))


if __name__ == "__main__":
    main(sys.argv[1] if sys.argv[1:] else os.path.join(CRATES, "test_write"))
