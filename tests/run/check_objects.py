"""Compares runs by the definitions of `sem_run.run`, `pt_host` and `pt_prog` with those of CPython 3.12.1: what is printed, the events in order,
the ending, and the traceback of an exception that leaves the script, over the written scripts below and over random ones.

  check_objects.py [--crates FOLDER] [--from N] [--many N] [--show SEED] [--bare] [--coded]

With --bare it compares runs that nothing hooks into, by `pt_bare_runs`, with runs by `sem_run.run` that nobody is asked in; with --coded
those with the same of the script's code, of at most 2,000 acts.
"""
import argparse
import collections
import contextlib
import io
import os
import re
import sys
import warnings

from check import EVENTS, RULES, TRACED, Plan, alike, first_difference, of_ended_iteration, of_one_line, of_spread_call
from coded import CodedRunner
from definitions import items, listed, number
from classes import CLASSES, OWN
from exceptions import EXCEPTIONS
from objects import NamesRunner, ObjectRunner, text_of
from programs import WORDED, program
from record import CALLS, Recorder

sys.path.append(os.path.join(os.path.dirname(os.path.abspath(__file__)), "..", "tracebacks"))

import deep  # noqa: E402
from raising import exception_of, printed as traceback_of  # noqa: E402

# exceptions whose texts are CPython's
NAMED = ("<NameError>", "<UnboundLocalError>", "<AttributeError>")


def as_here(text):
    """What CPython prints, in which functions have no text of their own here."""
    text = text.replace("No active exception to reraise", "no active exception")
    text = re.sub(r"<function \S+ at 0x\w+>", "<function object>", text)
    text = re.sub(r"<bound method \S+ of .*? at 0x\w+>>", "<method object>", text)
    text = re.sub(r"<class '__main__\.(?:\S*\.)?(\w+)'>", r"<class '\1'>", text)
    text = of_classes(text)
    return re.sub(r"<built-in (function \w+|method \w+ of \w+ object at 0x\w+)>", "<builtin_function_or_method object>", text)


def of_classes(text):
    """What is told of classes: an AttributeError of one, and their names, here without what is around them."""
    text = re.sub(r"^(?:(?:\w+|<locals>)\.)+(?=\w+(?:: |$))", "", text, flags=re.MULTILINE)
    return re.sub(r"type object '\w+' has no attribute", "'type' object has no attribute", text)


def traceback_by_python(text):
    """What CPython prints of the exception that leaves a script, without suggestions of other names."""
    with contextlib.redirect_stdout(io.StringIO()):
        return of_classes(re.sub(r"\. Did you mean: '\w+'\?$", "", traceback_of(exception_of("script.py", text)), flags=re.MULTILINE))


def by_class(traceback):
    """A traceback in which exceptions stand by their classes alone, but for those whose texts are CPython's."""
    lines = [re.sub(r"^(\w+): .*", lambda m: m[0] if m[1] in WORDED else m[1], line) for line in traceback.splitlines()]
    return "\n".join(lines)


class Told:
    """What a run tells, in the words of `record`."""

    def __init__(self, text):
        self.lines, self.heard = text.split("\n"), {"trace": [], "tool": []}
        self.told_last, self.target, self.log = {}, None, []

    def hear(self, stream, rules, event):
        if not any([rule(self, stream, event) for rule in rules]):
            self.heard[stream].append(event)


class Check:
    def __init__(self, crates, runner=ObjectRunner):
        self.runner = runner(crates)

    def run(self, text, most=20000):
        blocks, outputs, state, step = self.runner.run(text, most)
        told, heap = Told(text), state["world"]["heap"]
        for event in (o[1] for o in outputs if o[0] == "gives"):
            what = event["what"]
            where = (blocks[event["block"]["number"]].key, event["line"])
            value = self.runner.describe(what[1], heap) if what[0] in ("returns", "unwinds", "raises", *CALL_KINDS) else ""
            value = "<function>" if what[0] in CALL_KINDS and value == "<method>" else value
            if what[0] in TRACED:
                told.hear("trace", (of_ended_iteration, of_one_line), (TRACED[what[0]], *where, "None" if what[0] == "unwinds" else value, False, event["frame"]))
            if what[0] in EVENTS:
                told.hear("tool", (of_ended_iteration, of_one_line, of_spread_call), (EVENTS[what[0]], *where, value, False, event["frame"]))
        told.log = [text_of(o[1]) for o in outputs if o[0] == "logs"]
        out = "".join(text_of(o[1]) for o in outputs if o[0] == "prints")
        self.traceback = self.runner.traceback(step[1][1], step[1][2]["world"]) if step[0] == "ends" and step[1][0] == "raised" else ""
        return told, out, self.ending(step, heap), sum(o[0] == "begins" for o in outputs)

    def ending(self, step, heap):
        if step[0] != "ends":
            return (step[0],)
        match step[1]:
            case ("raised", error, _):
                return ("raised", self.runner.describe(error, heap), self.runner.text_of_error(error, heap))
            case ("outside", what, line):
                return ("outside", what[0], line)
        return (step[1][0],)

    def compare(self, text):
        """What differs, if anything does, and how the run ended. One that leaves the profile is compared as far as it comes."""
        told, out, end, acts = self.run(text)
        recorder = Recorder(text, Plan(), RULES)
        recorder.space["__name__"] = "__main__"
        recorder.run()
        left = end[0] == "outside"
        difference = None
        for stream in ("trace", "tool"):
            a, b = alike(recorder.heard[stream]), alike(told.heard[stream])
            i = first_difference(a[:len(b)] if left else a, b)
            if i is not None:
                difference = difference or [stream, i, a[max(0, i - 3):i + 3], b[max(0, i - 3):i + 3]]
        printed = as_here(recorder.out)
        if not (printed.startswith(out) if left else printed == out):
            difference = difference or ["out", printed[-200:], out[-200:]]
        wanted = recorder.end if end[0] == "done" else "done" if recorder.end == "done" else ("raised", recorder.end)
        if end[0] == "exited":
            wanted = ("exited",) if recorder.exits else wanted
        if not left and (end[0] if end[0] == "done" else end[:2]) != wanted:
            difference = difference or ["end", recorder.end, end]
        if not left and end[:2] == ("raised", recorder.end) and recorder.end in NAMED and of_classes(recorder.error) != end[2]:
            difference = difference or ["text", recorder.error, end[2]]
        if not left and difference is None and end[0] == "raised":
            a, b = by_class(traceback_by_python(text)), by_class(self.traceback)
            difference = None if a == b else ["traceback", a, b]
        return difference, end, acts, sum(len(e) for e in told.heard.values())


CALL_KINDS = ("calls", "returns_from", "raises_from")
OUTER = """\
def outer():
    n = 1
    def inner(k=2):
        nonlocal n
        n = n + k
        return n
    inner()
    return inner(k=5)
print(outer())
"""
DEEP = "def f():\n    f()\nf()\n"
# a script and its bound on acts; what it prints, the lines that are told, its acts and how it ends
WRITTEN = [
    ("", 9, "", [], 0, ("done",)),
    ("", 0, "", [], 0, ("done",)),
    ("pass\n", 0, "", [], 0, ("spent",)),
    ("pass\n", 1, "", [1], 1, ("done",)),
    ("x = 0\nwhile x < 2:\n    x += 1\nprint(x)\n", 99, "2\n", [1, 2, 3, 2, 3, 2, 4], 26, ("done",)),
    ("x = 2\nwhile x: x -= 1\n", 99, "", [1, 2, 2, 2], 16, ("done",)),
    ("print(x)\n", 99, "", [1], 2, ("raised", "<NameError>", "name 'x' is not defined")),
    ("print(sum([1, 2]))\n", 99, "3\n", [1], 25, ("done",)),
    ("print(list(range(2)),\n  [3, 1].sort())\n", 99, "[0, 1] None\n", [1, 2, 1], 80, ("done",)),
    ("sum([1, None])\n", 99, "", [1], 18, ("raised", "<TypeError>", "unsupported operand type(s) for +: 'int' and 'NoneType'")),
    ("sum()\n", 99, "", [1], 2, ("outside", "Feature", 1)),
    ("list(5)\n", 99, "", [1], 7, ("raised", "<TypeError>", "'int' object is not iterable")),
    ("sum([1, 2, 3])\n", 9, "", [1], 9, ("spent",)),
    (OUTER, 99, "8\n", [1, 9, 2, 3, 7, 5, 6, 8, 5, 6], 31, ("done",)),
    (DEEP, 9999, "", [1, 3] + [2] * 999, 2002, ("raised", "<RecursionError>", "too many activations")),
    (DEEP, 2001, "", [1, 3] + [2] * 999, 2001, ("spent",)),
    ("def f(a, *, b): return a\nf(1)\n", 99, "", [1, 2], 5, ("raised", "<TypeError>", "f() misses argument 'b'")),
    ("def f(a): pass\nf(1, 2)\n", 99, "", [1, 2], 6, ("raised", "<TypeError>", "f() got too many arguments")),
    ("def f(a): pass\nf(b=1)\n", 99, "", [1, 2], 5, ("raised", "<TypeError>", "f() got an unexpected argument 'b'")),
    ("def f(a): pass\nf(1, a=1)\n", 99, "", [1, 2], 6, ("raised", "<TypeError>", "f() got argument 'a' twice")),
    ("(1)(2)\n", 99, "", [1], 3, ("raised", "<TypeError>", "'int' object is not callable")),
    ("def f():\n    g = lambda: x\n    g()\n    x = 1\nf()\n", 99, "", [1, 5, 2, 3, 2], 9,
     ("raised", "<NameError>", "cannot access free variable 'x' where it is not associated with a value in enclosing scope")),
    ("def f():\n    x = 1\n    del x\n    x\nf()\n", 99, "", [1, 5, 2, 3, 4], 8,
     ("raised", "<UnboundLocalError>", "cannot access local variable 'x' where it is not associated with a value")),
    ("x = 170141183460469231731687303715884105727\nprint(x)\nprint(x + 1)\n", 99, "170141183460469231731687303715884105727\n", [1, 2, 3], 10,
     ("outside", "Integer", 3)),
    ("x = 1\nprint(x / 2)\n", 99, "", [1, 2], 6, ("outside", "Float", 2)),
    ("print('a' * 2)\n", 99, "aa\n", [1], 6, ("done",)),
    ("print((i for i in ()))\n", 99, "", [1], 4, ("outside", "Feature", 1)),
]


# scripts of lists, tuples and ranges
CONTAINERS = [
    "for i in range(3): print([i], 'x')\n",
    "for i in [1, 2]:\n    print(i)\nelse:\n    print('no break')\nprint(i)\n",
    "for c in 'h\u00e9\u4e16':\n    if c == '\u4e16': break\n    print(c, end='|')\nelse:\n    print('never')\nprint()\n",
    "for i in range(5):\n    if i % 2: continue\n    print(i, end=' ')\nprint(sep='-')\n",
    "a, (b, c) = 1, [2, (3,)]\nprint(a, b, c, sep='; ', end='.\\n')\n",
    "[a, b] = 'xy'\n(c,) = range(7, 8)\nprint(a + b, c)\n",
    "for (a, b), c in [((1, 2), 3), ('pq', 'r')]: print(a, b, c)\n",
    "a, b = [1, 2, 3]\n", "a, b = (1,)\n", "a, b = 5\n", "a, b = range(3)\n", "for a, b in [1]: pass\n", "for x in 5: pass\n", "for x in None: print(x)\n",
    "a = [1, 2, 3]\nprint(a[0], a[-1], a[True], (4, 5)[1], 'ab\u00e9'[2], range(9)[4], range(9)[-1])\n",
    "print([1, 2][2])\n", "print(()[0])\n", "print('abc'[-4])\n", "print([1]['a'])\n", "print(5[0])\n", "print(range(3)[3])\n",
    "print(len([1, [2]]), len(()), len('h\u00e9'), len(range(2, 9, 3)), len(range(3, 1)))\n", "len(5)\n",
    "print([], (), (1,), [1, (2, [3])], ['a', \"it's\"], [None, True, ...])\n", "print(range(3), range(1, 4), range(9, 1, -2), [range(2)])\n",
    "print(str([1, 'a']), repr('a\\n'), str('a'), str(), repr(None), str(True))\n", "print(int('12'), int(), int(True), int(-3), bool([]), bool('a'), bool())\n",
    "x = [1, 2]\ny = x\nz = [1, 2]\nprint(x is y, x is z, x == z, x != y)\n", "print(1 in [1, 2], 3 not in (1, 2), 2 in range(5), [] in [[]])\n",
    "def f(a, b=(1, 2)):\n    for x in b:\n        a = a + x\n        if a > 3: return [a, b]\n    return a,\nprint(f(0), f(3), f(1, b=[1, 1]))\n",
    "def total(xs):\n    t = 0\n    for x in xs: t += x\n    return t\nprint(total([1, 2, 3]), total(range(10)), total(()))\n",
    "def f():\n    for i in (1, 2):\n        try:\n            if i == 1: continue\n            return i\n        finally:\n            print('left', i)\nprint(f())\n",
    "for i in range(2):\n    for j in range(3):\n        if j == 1: break\n        print(i, j)\n    else:\n        print('inner')\nelse:\n    print('outer')\n",
    "it = iter([1, 2])\nfor x in it: print(x)\nfor x in it: print('none')\nelse: print('at its end')\n",
    "p = print\nl = len\np(l([p, l]), callable(p))\n", "print(list, range, len)\nfor f in (str, repr): print(f('a'))\n", "print(*[1, 2])\n", "print('a', sep=1)\n",
    "print('a', end=2)\n", "print('a', 'b', sep=None, end=None)\n", "print(1, file=None)\n", "len(x=1)\n", "range('a')\n", "range(1, 2, 0)\n", "for x in range(0, 10**20, 4 * 10**19): print(x)\n",
    "x = 1, 2\nfor i in x: x = i\nprint(x)\n", "a = b = [0]\nprint(a is b, not a, not ())\n", "print(not [], 1 if (0,) else 2)\nwhile []: pass\n", "for _ in (): print('no')\nprint(_)\n",
]


# scripts of imports, and of exits
IMPORTS = [
    "import sys\nprint(sys.exit, callable(sys.exit), callable(sys))\n", "import sys as s, sys\nprint(s is sys, s == sys)\n",
    "from sys import exit, exit as leave\nprint(exit is leave)\n", "def f():\n    import sys\n    return sys.exit\nprint(f() is f())\n",
    "import sys\nfor v in (None, 0, -1, True, 'a', [1]):\n    try: sys.exit(v)\n    except SystemExit as e: print(repr(e), e)\n",
    "import nosuch\n", "import sys, nosuch as n\n", "from nosuch import n\n", "def f():\n    import nosuch\ntry: f()\nexcept ImportError as e: print(e, repr(e))\nf()\n",
    "try: import nosuch\nexcept ModuleNotFoundError:\n    import sys\n    print(sys is sys)\n", "try: from sys import nosuch\nexcept ImportError: print('none')\n",
    "import sys\ntry: sys.nosuch\nexcept AttributeError: print('none')\n", "import sys\nsys.exit(1, 2)\n", "import sys\nsys.exit(status=1)\n",
    "import sys\nprint(1)\nsys.settrace\n", "from sys import exit, monitoring\n", "from sys import _getframe, gettrace\n",
]
EXITS = [
    "import sys\nsys.exit(3)\n", "import sys\nsys.exit('bye')\n", "from sys import exit\nexit()\n", "import sys\ndef f(): return sys.exit\nf()(257)\n",
    "import sys\ntry:\n    1 // 0\nfinally:\n    sys.exit(None)\n", "import sys\ntry: sys.exit(1)\nexcept Exception: print('never')\nfinally: print('left')\n",
    "import sys\nsys.exit([1])\n", "raise SystemExit(-1)\n",
]


# scripts of comprehensions, whose names are those of `sem_names`, in code of the module itself and in functions, and of the names of builtins
NAMES = [
    "i = 5\nprint([i for i in range(3) if i], {i: i * i for i in range(3)}, len({i % 2 for i in range(5)}), i)\n",
    "fs = [lambda: i for i in range(3)]\nprint([f() for f in fs])\n", "x = [[j for j in range(i)] for i in range(4)]\nprint(x)\n",
    "fs = [lambda j=j: i + j for i in range(2) for j in range(3)]\nprint([f() for f in fs])\n", "print([missing for i in (1,)])\n",
    "print([i for i in (1,)])\nprint(i)\n", "[1 // i for i in (1, 0)]\n", "[i for i in 5]\n", "def f(i): return [lambda: i for i in (1, i)]\nprint([g() for g in f(3)])\n",
    "xs = [(a, b) for a, (b, *c) in [(1, (2, 3)), (4, (5,))]]\nprint(xs)\n", "def g(): return x\nprint([x for x in (1,)])\nx = 2\nprint(g(), [g() for x in (5,)])\n",
    "try:\n    [1 // x for x in (1, 0)]\nexcept ZeroDivisionError:\n    print([x for x in 'ab'])\n",
    "a = [f() for f in [lambda: [k() for k in [lambda: i + j for j in (1, 2)]] for i in (10, 20)]]\nprint(a)\n",
    "print(__name__, [__name__ for __name__ in (1,)])\n",
    "def f(i): return [lambda: i for i in (1, i)]\nprint([f(3)[0](), f(3)[1]()])\n", "def f(a):\n    x = 1\n    return [(x, z) for x in a for z in a if x < z], x\nprint(f((1, 2, 3)))\n",
    "def f(xs): return [lambda j=j: i + j for i in xs for j in xs]\nprint(f((1, 2))[1]())\n", "def f(): return [1 // i for i in (1, 0)]\nf()\n",
    "def f(): return __name__\nprint(__name__, f())\n__name__ = 1\nprint(__name__, f())\n",
    "open = 3\nprint(open)\ndel open\nopen\n", "def f(id, hash=2): return id + hash\nprint(f(1), f(1, hash=3))\ndir\n",
]


def containers(check):
    """How many of those scripts, and of those of exceptions, imports, exits and classes, differ from CPython."""
    bad = 0
    for text in CONTAINERS + EXCEPTIONS + IMPORTS + EXITS + CLASSES:
        difference, end, _, _ = check.compare(text)
        if difference:
            bad += 1
            print(text, *difference, sep="\n    ")
    return bad


def by_rule(check):
    """How many of the scripts of classes that have a rule of their own run otherwise."""
    bad = 0
    for text, *wanted in OWN:
        _, out, end, _ = check.run(text)
        if [out, end] != wanted:
            bad += 1
            print(text, [out, end], wanted, sep="\n    ")
    return bad


def by_names(crates):
    """How many of those differ from CPython."""
    check, bad = Check(crates, NamesRunner), 0
    for text in NAMES:
        difference, _, _, _ = check.compare(text)
        if difference:
            bad += 1
            print(text, *difference, sep="\n    ")
    return bad


def written(check):
    """How many of the written scripts run otherwise than they are to."""
    bad = 0
    for text, most, *wanted in WRITTEN:
        told, out, end, acts = check.run(text, most)
        lines = [int(line.split()[1]) for line in told.log if line.startswith("line ")]
        if [out, lines, acts, end] != wanted:
            bad += 1
            print(text, [out, lines[:40], acts, end], wanted, sep="\n    ")
    return bad


RAISED_OUT = """\
def f(n):
    if n: return f(n - 1)
    return missing
def g():
    try:
        return f(2)
    finally:
        print("out")
g()
"""
# scripts whose runs go through functions, closures and handlers, and their bounds on acts
CALLING = [
    ("def f(): return 1\nprint(f() + f())\n", 99), ("f = lambda x, y=2: x - y\nprint(f(5), f(5, y=4))\n", 99), (RAISED_OUT, 999), (RAISED_OUT, 24),
    ("def f(n): return 1 if n < 2 else n * f(n - 1)\nprint(f(20))\n", 999), ("def f(n): return 1 if n < 2 else n * f(n - 1)\nprint(f(20))\n", 55),
    ("def adder(n):\n    def add(m): return n + m\n    return add\nx = adder(2)\ny = adder(3)\nprint(x(1), y(1))\n", 99),
    ("def f():\n    n = 0\n    def g():\n        nonlocal n\n        n += 1\n        return n\n    while g() < 5: pass\n    return n\nprint(f())\n", 199),
    ("def even(n): return n == 0 or odd(n - 1)\ndef odd(n): return n != 0 and even(n - 1)\nprint(even(10), odd(10))\n", 999),
    ("def f():\n    try: return missing\n    except NameError: raise\ndef g(): f()\ng()\n", 99), ("def f():\n    try: return missing\n    except: raise\ndef g(): f()\ng()\n", 99),
    ("def f():\n    try: return 1\n    finally: return 2\nprint(f())\n", 99), ("def f(): return f\nprint(f()() is f)\n", 99),
]


def without_frames(ending):
    """An ending without the frames of its traceback, as a bare run has it."""
    match ending:
        case ("raised", error, view):
            return ("raised", error, view["world"])
        case ("outside", what, line):
            return ("outside_at", what, line)
    return ending


def bare(check, scripts):
    """Compares runs that nothing hooks into with runs where nobody is asked: what they write, their acts and their endings."""
    bad, ends, acts, opened = 0, collections.Counter(), 0, 0
    for text, most in scripts:
        _, outputs, state, step = check.runner.run(text, most)
        wanted = (items(check.runner.writes(True, listed(outputs))), state["units"], without_frames(step[1]))
        if check.runner.bare_run(text, most) != wanted:
            bad += 1
            print(text, most, step[1][0], sep="\n    ")
        ends[step[1][0]] += 1
        acts, opened = acts + wanted[1], opened + state["frames"]
    print(", ".join(f"{k} {n}" for k, n in sorted(ends.items())))
    print(f"{len(scripts)} bare runs, {acts} acts, {opened} activations, {bad} with a difference")
    return bad > 0


def by_code(crates, scripts):
    """Compares bare runs of scripts with those of their code."""
    runner, bad, acts, ends = CodedRunner(crates), 0, 0, collections.Counter()
    for text, most in scripts:
        one, other = runner.both_outcomes(text, min(most, 2000))
        if one != other:
            bad += 1
            print(text, one[1:], other[1:], sep="\n    ")
        ends[one[2][0]] += 1
        acts += one[1] or 0
    print(", ".join(f"{k} {n}" for k, n in sorted(ends.items())))
    print(f"{len(scripts)} bare runs beside their code's, {acts} acts, {bad} with a difference")
    return bad > 0


def main():
    p = argparse.ArgumentParser()
    p.add_argument("--crates", default="../../crates")
    p.add_argument("--from", type=int, default=0, dest="first")
    p.add_argument("--many", type=int, default=100)
    p.add_argument("--show", type=int)
    p.add_argument("--bare", action="store_true")
    p.add_argument("--coded", action="store_true")
    a = p.parse_args()
    plain = CALLING + [w[:2] for w in WRITTEN] + [(t, 999) for t in CONTAINERS + EXCEPTIONS + IMPORTS + EXITS + CLASSES] + [(program(s, containers=s % 2 > 0, exceptions=s % 4 > 1, classes=s % 8 > 4), 20000) for s in range(a.first, a.first + a.many)]
    if a.coded:
        return by_code(a.crates, plain)
    check = Check(a.crates)
    if a.bare:
        return bare(check, plain)
    bad = 0 if a.show is not None else written(check) + containers(check) + by_rule(check) + by_names(a.crates)
    ends, acts, events = collections.Counter(), 0, 0
    seeds = [a.show] if a.show is not None else range(a.first, a.first + a.many)
    calling = [] if a.show is not None else sorted({(text, text) for text, _ in CALLING})
    for seed, text in [(seed, program(seed, containers=seed % 4 > 0, exceptions=seed % 3 > 0, helpers=seed % 5 < 2, classes=seed % 2 > 0)) for seed in seeds] + calling:
        difference, end, taken, told = check.compare(text)
        ends[" ".join(str(e) for e in end[:2])] += 1
        acts, events = acts + taken, events + told
        if difference:
            bad += 1
            print(seed, *difference, sep="\n    ")
        if a.show is not None:
            print("\n".join(f"{i + 1:3} {line}" for i, line in enumerate(text.split("\n"))), end)
    print(", ".join(f"{k} {n}" for k, n in sorted(ends.items())))
    print(f"{len(WRITTEN) + len(CONTAINERS) + len(EXCEPTIONS) + len(IMPORTS) + len(EXITS) + len(CLASSES) + len(OWN) + len(NAMES) + len(calling)} written scripts, {len(seeds)} random ones, "
          f"{acts} acts, {events} events, {bad} with a difference")
    return bad > 0


if __name__ == "__main__":
    warnings.simplefilter("ignore")
    sys.exit(deep.call(main))
