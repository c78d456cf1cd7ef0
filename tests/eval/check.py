"""Runs the definitions of pt_eval beside CPython's own `eval`: what is shown of an expression in a frame, over written expressions and over
random ones. With --write it writes the table of test_eval and what these answer to its rows.

usage: check.py [--from N] [--many N] [--write]. Run with CPython 3.12 in this folder.
"""
import argparse
import builtins
import random
import re
import sys
import threading
import warnings
from pathlib import Path

HERE = Path(__file__).resolve().parent
sys.path.insert(0, str(HERE.parent / "run"))
import definitions
from counting import Count
from definitions import integer, items, listed, value_of
from objects import ByteTrees, text_of, word

CRATES = HERE.parent.parent / "crates"
TABLE = CRATES / "test_eval"
LEAST, GREATEST = -(2 ** 127), 2 ** 127 - 1
IMPURE = re.compile(r"\w\(|lambda|\bfor\b|yield")
# exceptions whose texts are CPython's here, and those that say less
SAME = ("name ", "unsupported operand", "bad operand", "not supported between", "has no attribute", "unhashable", "negative shift")
OWN = {"ZeroDivisionError": "division by zero", "IndexError": "index out of range"}


class Heap:
    """The objects of a start, those of functions that are written in Python among them, and those that things of CPython are."""

    def __init__(self, all_):
        get = all_.get
        self.objects = items(get("Rattle.pt_builtin_objects.specs.Start", "start_objects")())
        self.objects += items(get("Rattle.pt_helper_objects.specs.Objects", "helper_objects")(lambda helper: True))
        names = [text_of(r[1]) for r in items(get("Rattle.pt_builtin_objects.specs.Start", "start_rows")())]
        keys = "Rattle.pt_dicts.specs.Keys"
        self.coded, self.key_value = get(keys, "coded"), get(keys, "key_value")
        self.known, self.kept = {}, []
        for place, name in enumerate(names):
            if hasattr(builtins, name):
                self.known.setdefault(id(getattr(builtins, name)), place)

    def value(self, thing):
        return value_of(thing, self.put)

    def put(self, thing):
        if id(thing) not in self.known:
            self.kept.append(thing)
            self.known[id(thing)] = len(self.objects)
            self.objects.append(None)
            self.objects[self.known[id(thing)]] = self.object_of(thing)
        return self.known[id(thing)]

    def entry(self, key, value):
        first = self.value(key)
        codes = self.coded(self.key_value(listed(self.objects), 1000, first))
        return {"key": codes[1], "first": first, "value": value}

    def object_of(self, thing):
        match thing:
            case str():
                return ("Str", word(thing))
            case list() | tuple():
                return (type(thing).__name__.capitalize(), listed([self.value(x) for x in thing]))
            case dict():
                return ("Dict", listed([self.entry(k, self.value(v)) for k, v in thing.items()]))
            case set():
                return ("Set", listed([self.entry(k, ("None",)) for k in thing]))
            case range():
                return ("Range", {"start": integer(thing.start), "stop": integer(thing.stop), "step": integer(thing.step)})
        raise TypeError(thing)


class Checked:
    """The definitions over a frame."""

    def __init__(self, local, module):
        self.all = definitions.load(str(CRATES))
        heap = Heap(self.all)
        named = lambda names: listed([{"name": word(x), "value": heap.value(v)} for x, v in names.items()])
        held = [{"name": word(x), "value": v} for x, v in self.held(heap)]
        self.local, self.module = listed(items(named(local)) + held), named(module)
        self.answer = self.all.get("Rattle.pt_eval.specs.Answers", "answer")
        self.heap = listed(heap.objects)

    @staticmethod
    def held(heap):
        """What CPython has otherwise: an instance of a script's class, an exception of one, a function, a frame and code."""
        def put(kind, *parts):
            heap.objects.append((kind, *parts))
            return ("Obj", {"0": len(heap.objects) - 1})
        made = lambda name, base: put("Class", {"name": word(name), "base": ("Some", {"0": base}), "scripted": True, "names": ()})[1]
        none = {"args": (), "cause": ("None",), "context": ("None",), "hides_context": False, "trace": (), "names": ()}
        yield "inst", put("Instance", {"class": made("C", 0), "names": ()})
        yield "err", put("Error", {"class": made("E", 29), **none})
        yield "func", put("Function", {"block": {"0": 1}, "hidden": False, "defaults": (), "cells": ()})
        yield "frame", put("Frame", {"0": 1})
        yield "code", put("CodeRef", {"0": 1}, False)

    def __call__(self, text):
        tree = ByteTrees(text).tree
        shown = self.answer(self.local, self.module, tree[1][2], self.heap)
        if shown[0] == "Shown":
            return text_of(shown[1]), shown[2]
        return (shown[0], text_of(shown[1])) if shown[0] == "Raise" else shown[0]


def integers_in(value, deep=0):
    if isinstance(value, int):
        yield value
    if isinstance(value, range):
        yield from (value.start, value.stop, value.step)
    if isinstance(value, (list, tuple, set, dict)) and deep < 20:
        for x in value:
            yield from integers_in(x, deep + 1)
        if isinstance(value, dict):
            for x in value.values():
                yield from integers_in(x, deep + 1)


def by_python(text, local, module):
    if IMPURE.search(text):
        return "Refused"
    try:
        value = eval(text, {"__name__": "__main__", **module}, dict(local))
    except Exception as e:
        return "Raise", type(e).__name__, str(e)
    return re.sub(r"<built-in method \w+ of \w+ object at 0x\w+>", "<builtin_function_or_method object>", repr(value)), bool(value)


def same_value(here, python):
    """The same text, or one of sets whose items stand in another order."""
    return here == python or sorted(here) == sorted(python)


def agree(here, python):
    """Whether an answer is CPython's, or what is said here in its place: what is no container would be gone through by the prelude,
    dictionaries have no `|`, any value is laid out by its text, and a slice is a key by itself, without a text. None where the answer is
    a limit."""
    if python[0] == "Raise" and python[2].startswith("unsupported format string"):
        return True
    if here == "Refused":
        return python == "Refused" or python[0] == "Raise" and python[2].startswith("argument of type")
    if python == "Refused":
        return False
    if here[0] == "Raise":
        if here[1].startswith("Outside: "):
            return None
        if python[0] != "Raise":
            return here[1] == "TypeError: unsupported operand type(s) for |: 'dict' and 'dict'"
        kind, _, said = here[1].partition(": ")
        if not said:
            return "slice" in python[2] or python[2].startswith("unhashable")
        if kind in OWN:
            return kind == python[1] and said == OWN[kind]
        if any(s in python[2] for s in SAME) or kind == "KeyError":
            return (kind, said) == (python[1], re.sub(r"\. Did you mean.*|\. Perhaps.*", "", python[2]))
        return kind == python[1]
    return here[1] == python[1] and same_value(here[0], python[0])


LOCAL = {"a": 7, "b": -3, "n": None, "t": True, "s": "it's", "u": "", "l": [1, [2, "x"], None], "e": [], "p": (1, 2), "q": (5,),
         "d": {"x": 1, 2: [3], None: "n"}, "z": {}, "m": {1, "y"}, "r": range(2, 20, 5), "big": GREATEST}
MODULE = {"a": "hidden", "g": 12, "w": "abc", "k": [[3], [4]], "f": {"k": {"j": 1}}, "len": 3}
LOCAL["o"] = [1]
LOCAL["o"].append(LOCAL["o"])

WRITTEN = """a
b
g
w
len
nowhere
int
open
Ellipsis
__name__
...
None
True
'a\\nb'
"it's" 'two'
a + b
a - -b
a // 0
a % 0
1 << -1
a ** 2
a ** -1
a / 2
big + 1
-big - 2
s + w
s * 2
2 * l
l + l
p + q
p + l
s + 1
m | {3}
m & {1}
m - {"y"}
m ^ {9}
d | d
s % 1
not a
not u
-t
~a
+b
-s
a < b
a < g < 20
a < g < 3 < nowhere
b < a == 7 != 8
1 < 2 in l
1 in l
2 not in p
'x' in d
'bc' in w
1 in w
l == [1, [2, 'x'], None]
l is l
l is not e
n is None
p < (1, 3)
p < l
s < w
a < s
d == {'x': 1, 2: [3], None: 'n'}
m == {'y', 1}
l[0]
l[1][1]
l[-1]
l[9]
l['x']
s[0]
s[1:]
s[::-1]
l[:2]
l[0:3:2]
l[::0]
p[1:]
r[1]
r[:2]
d['x']
d['y']
d[[1]]
d[p]
f['k']['j']
f['k']['no']
a[0]
n.x
a.imaginary
l.append
s.join
d.keys
d.nope
x.y.z
[]
[a, b, [g]]
(a,)
()
{a, 1}
{1, True, 'x'}
{[1]}
{}
{'k': a, 'l': [b]}
{'k': 1, 'k': 2}
{l: 1}
o
f''
f'{a}'
f'x{a}y{b}z'
f'{a:>5}|{s!r:>9}|{w:^7}'
f'{a:{g}}'
f'{a:{g}{"d"}}'
f'{n}{t}{l}'
f'{s!s}'
f'{a:q}'
f'{l:>3}'
f'{nowhere}'
f'{a:{nowhere}}'
a and b
a and u and nowhere
u or e
u or e or a
a or nowhere
n and nowhere
a if t else nowhere
nowhere if e else b
nowhere if nowhere else 1
1 if [] else 2 if {} else 3
len(l)
u and len(l)
a if t else print(1)
[x for x in l]
{x for x in l}
{x: 1 for x in l}
(x for x in l)
lambda: 1
lambda x=a: x
[lambda: 1]
f'{len(l)}'
f'{a:{len(l)}}'
{'k': str(1)}
l[len(l) - 1]
a < len(l)
a < 1 < len(l)
l.append(1)
-abs(b)
not len(l)
a.b(1).c
(yield)
(yield 1)
(yield from l)
1 if len(l) else 2
s[len(u):]
(1, len(l))
a and (b or len(l))""".split("\n")

BINARY = ["+", "-", "*", "//", "%", "|", "&", "^", "<<", ">>"]
COMPARED = ["<", "<=", ">", ">=", "==", "!=", "in", "not in", "is", "is not"]


# of what CPython has otherwise: what is shown
HELD = """inst | refused
[inst] | refused
(1, {2: inst}) | refused
inst is inst | True true
inst is not a | True true
inst == 1 | refused
inst != inst | refused
inst < 1 | refused
inst + 1 | refused
1 * inst | refused
inst and 1 | refused
u and inst | '' false
1 if inst else 2 | refused
not inst | refused
1 < 2 < inst | refused
inst in l | refused
1 in [inst] | refused
[inst] == [1] | refused
f'{inst}' | refused
f'{inst!r:>3}' | refused
f'{a:{inst}}' | refused
{inst: 1}['x'] | *** KeyError: 'x'
{1: 2}[inst] | *** KeyError
inst.x | *** AttributeError: 'C' object has no attribute 'x'
inst.__code__ | *** AttributeError: 'C' object has no attribute '__code__'
err | refused
err.__cause__ | None false
err.args | () false
func | <function object> true
func.__code__ | refused
func.__name__ | *** Outside: feature
func.x | *** AttributeError: 'function' object has no attribute 'x'
sum | <builtin_function_or_method object> true
[any, sorted] | [<builtin_function_or_method object>, <builtin_function_or_method object>] true
sum is sum | True true
sum is all | False false
any == all | False false
sum != all | True true
sum < all | *** TypeError: '<' not supported between instances of 'builtin_function_or_method' and 'builtin_function_or_method'
sum + 1 | *** TypeError: unsupported operand type(s) for +: 'builtin_function_or_method' and 'int'
f'{sorted}' | '<builtin_function_or_method object>' true
{sum: 1}[sum] | 1 true
sum.x | *** AttributeError: 'builtin_function_or_method' object has no attribute 'x'
sum.__code__ | refused
sum.__name__ | *** AttributeError: 'builtin_function_or_method' object has no attribute '__name__'
sum(l) | refused
l or sorted(l) | refused
list | <class 'list'> true
l.sort | <builtin_function_or_method object> true
sum_of | *** NameError: name 'sum_of' is not defined
_sort | *** NameError: name '_sort' is not defined
frame | <frame object> true
frame.f_lineno | refused
frame.x | refused
u or frame.f_back | refused
u and frame.f_back | '' false
code | <code object> true
code.co_name | refused
[code][0].x | refused
a % inst / nowhere | refused""".split("\n")


class Expressions:
    def __init__(self, seed):
        self.r = random.Random(seed)

    def leaf(self):
        return self.r.choice([*LOCAL, *MODULE, "nowhere", "0", "1", "2", "-1", "17", "'x'", "'ab'", "''", "None", "True", "False", "[]", "()", "{}"])

    def make(self, depth):
        r = self.r
        if depth == 0 or r.random() < 0.15:
            return self.leaf()
        sub = lambda: self.make(depth - 1)
        kind = r.randrange(15)
        if kind < 3:
            op = r.choice(BINARY)
            right = str(r.randrange(-1, 9)) if op in ("<<", ">>", "*") and r.random() < 0.8 else sub()
            return f"({sub()} {op} {right})"
        if kind == 3:
            return f"({r.choice(['-', '+', '~', 'not '])}({sub()}))"
        if kind < 6:
            links = "".join(f" {r.choice(COMPARED)} ({sub()})" for _ in range(r.randrange(1, 4)))
            return f"(({sub()}){links})"
        if kind == 6:
            op = r.choice([" and ", " or "])
            return "(" + op.join(f"({sub()})" for _ in range(r.randrange(2, 4))) + ")"
        if kind == 7:
            return f"(({sub()}) if ({sub()}) else ({sub()}))"
        if kind < 10:
            return f"({sub()})[{sub()}]"
        if kind == 10:
            part = lambda: r.choice(["", str(r.randrange(-4, 5)), sub()])
            return f"({sub()})[{part()}:{part()}:{part()}]" if r.random() < 0.5 else f"({sub()})[{part()}:{part()}]"
        if kind == 11:
            many = ", ".join(sub() for _ in range(r.randrange(1, 4)))
            return r.choice([f"[{many}]", f"({many},)", "{" + many + "}"])
        if kind == 12:
            return "{" + ", ".join(f"{sub()}: {sub()}" for _ in range(r.randrange(0, 3))) + "}"
        if kind == 13:
            return f"({sub()}).{r.choice(['items', 'append', 'nope', 'keys', 'join', 'x'])}"
        field = lambda: "{" + f"({self.leaf()})" + r.choice(["", "!r", "!s"]) + r.choice(["", ":>6", ":<3", ":{g}", ":^{a}"]) + "}"
        literal = lambda: r.choice(["", "x", "=", "é"])
        return 'f"' + literal() + field() + literal() + r.choice([field(), ""]) + '"'


def spelled(here):
    """An answer, as test_eval writes it."""
    if here == "Refused":
        return "refused"
    return f"*** {here[1]}" if here[0] == "Raise" else f"{here[0]} {str(here[1]).lower()}"


def main():
    words = argparse.ArgumentParser()
    words.add_argument("--from", type=int, default=0, dest="first")
    words.add_argument("--many", type=int, default=300)
    words.add_argument("--write", action="store_true")
    args = words.parse_args()
    warnings.simplefilter("ignore")
    checked = Checked(LOCAL, MODULE)
    texts = WRITTEN + [Expressions(seed).make(1 + seed % 4) for seed in range(args.first, args.first + args.many)]
    count = {"alike": 0, "outside": 0, "refused": 0, "raised": 0}
    bad = 0
    table = []
    for text in texts:
        python = by_python(text, LOCAL, MODULE)
        here = checked(text)
        table.append((text, spelled(here)))
        same = agree(here, python)
        if same is None:
            count["outside"] += 1
            continue
        if not same:
            bad += 1
            print("differs:", text, "| here", here, "| CPython", python)
        count["alike"] += 1
        count["refused"] += here == "Refused"
        count["raised"] += here[0] == "Raise"
    for row in HELD:
        text, answer = row.split(" | ")
        here = spelled(checked(text))
        table.append((text, answer))
        if here != answer:
            bad += 1
            print("differs:", text, "| here", here, "| by the rules", answer)
    if args.write:
        (TABLE / "data" / "rows.txt").write_text("".join(f"{text}\n" for text, _ in table), "utf-8")
        (TABLE / "stdout").write_text("".join(f"{answer}\n" for _, answer in table), "utf-8")
    print(len(texts), "expressions,", ", ".join(f"{n} {k}" for k, n in count.items()), f"; {bad} differ")
    return bad > 0


if __name__ == "__main__":
    # definitions are evaluated by value, so that a list that holds itself is gone through as deep as may be
    sys.setrecursionlimit(1_000_000)
    threading.stack_size(1 << 29)
    ended = []
    runs = threading.Thread(target=lambda: ended.append(main()))
    runs.start()
    runs.join()
    sys.exit(ended != [False])
