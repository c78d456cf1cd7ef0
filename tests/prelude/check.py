"""Runs the functions of the prelude in CPython, with its primitives as plain functions, beside CPython's own builtins: over random builtin
values, and over instances of classes of a script where a function is for those. Beside that: which functions the shorter text lacks.

usage: check.py [--many N]. Run with CPython 3.12 in this folder.
"""
import builtins
import contextlib
import io
import operator
import random
import sys
from pathlib import Path

import primitives
import texts

sys.path.insert(0, str(Path(__file__).resolve().parent.parent / "run"))
from counting import Count

SCRIPT = '''
class Truth:
    def __init__(self, v): self.v = v
    def __bool__(self): return self.v
class Sized:
    def __init__(self, v): self.v = v
    def __len__(self): return self.v
class Plain: pass
class Walk:
    def __init__(self, xs): self.xs = xs
    def __iter__(self): return iter(self.xs)
class Steps:
    def __init__(self, xs): self.xs = list(xs)
    def __iter__(self): return self
    def __next__(self):
        if not self.xs: raise StopIteration
        return self.xs.pop(0)
class Within:
    def __init__(self, xs): self.xs = xs
    def __contains__(self, v): return v in self.xs
class Shown:
    def __init__(self, t): self.t = t
    def __repr__(self): return self.t
class Told(Shown):
    def __str__(self): return "<" + self.t + ">"
class Left:
    def __init__(self, v): self.v = v
    def __add__(self, o): return ("left", self.v) if self.v else NotImplemented
    def __lt__(self, o): return ("less", self.v) if self.v else NotImplemented
    def __eq__(self, o): return self.v == 2 if self.v else NotImplemented
class Right:
    def __radd__(self, o): return "right"
    def __gt__(self, o): return "more"
'''
# each operator with its sign, and the methods that are asked
OPERATORS = [(operator.add, "+", "__add__", "__radd__"), (operator.lt, "<", "__lt__", "__gt__"), (operator.eq, "==", "__eq__", "__eq__"),
             (operator.ne, "!=", "__ne__", "__ne__")]


def script():
    space = {"__name__": "script"}
    exec(SCRIPT, space)
    return space


def prelude(text):
    space = dict(primitives.PRIMITIVES)
    exec(text, space)
    return space


def number():
    return random.choice([0, 1, -1, 2, 3, random.randrange(-9, 10), True, False])


def text():
    return "".join(random.choice("ab cd'\"\\\n\té") for _ in range(random.randrange(5)))


def plain():
    return random.choice([number, text, lambda: None, number])()


def key():
    return random.choice([number(), text(), (number(), text()), None])


def value(depth=0):
    if depth > 2 or random.random() < 0.4:
        return plain()
    make = lambda: [value(depth + 1) for _ in range(random.randrange(4))]
    return random.choice([make, lambda: tuple(make()), lambda: {key() for _ in range(random.randrange(3))},
                          lambda: {key(): value(depth + 1) for _ in range(random.randrange(3))}, lambda: range(number() + 1)])()


def iterable():
    """What makes the same iterable anew each time."""
    v = random.choice([lambda: [value(1) for _ in range(random.randrange(6))], lambda: tuple(number() for _ in range(random.randrange(6))), text,
                       lambda: range(random.randrange(6)), lambda: {key(): number() for _ in range(3)}, lambda: {number() for _ in range(4)}, plain])()
    return random.choice([lambda: v, lambda: v, lambda: iter(v), lambda: (w for w in v)])


def alike():
    """A list of items that have an order, mostly."""
    of = random.choice([number, text, number, lambda: (number(), text()), plain])
    return [of() for _ in range(random.randrange(7))]


def answer(f):
    """What a call answers, as what can be compared: its value with its class, or the class of its exception."""
    try:
        v = f()
    except Exception as e:
        return ("raises", TypeError if isinstance(e, primitives.Bad) else type(e))
    if hasattr(v, "__next__"):
        try:
            return ("items", [shown(w) for w in v])
        except Exception as e:
            return ("raises", TypeError if isinstance(e, primitives.Bad) else type(e))
    return ("value", shown(v))


def shown(v):
    return (type(v).__name__, repr(sorted(v, key=repr)) if type(v) is set else repr(v))


class Answers(Count):
    def both(self, what, f, g):
        self.see(what, answer(f), answer(g))


def of_iterables(p, count):
    for name in "list tuple set any all".split():
        x = iterable()
        count.both(name, lambda: p[name + "_of"](x()), lambda: getattr(builtins, name)(x()))
    x, start = iterable(), random.choice([0, 0, 1, -3, (), []])
    count.both("sum", lambda: p["sum_of"](x(), start), lambda: sum(x(), start))
    n = random.randrange(5)
    count.both("take", lambda: p["take_of"](x(), n), lambda: list(x())[:n + 1])
    count.both("iter", lambda: p["enumerate_of"](x(), n), lambda: enumerate(x(), n))
    xs = [iterable() for _ in range(random.randrange(4))]
    count.both("zip", lambda: p["zip_of"](*(x() for x in xs)), lambda: zip(*(x() for x in xs)))
    f = random.choice([str, lambda v: v + 1, lambda v: (v, v), len])
    count.both("map", lambda: p["map_of"](f, x()), lambda: map(f, x()))
    f = random.choice([None, bool, lambda v: v != 1, lambda v: v > 0])
    count.both("filter", lambda: p["filter_of"](f, x()), lambda: filter(f, x()))
    items = random.choice([alike(), tuple(alike()), text(), range(random.randrange(5))])
    count.both("reversed", lambda: p["reversed_of"](items), lambda: reversed(items))
    it, jt = iter(alike()), iter(alike())
    it, jt = iter([1, 2]), iter([1, 2])
    for _ in range(4):
        count.both("next", lambda: p["next_or_of"](it, "none"), lambda: next(jt, "none"))


def of_orders(p, count):
    xs, k = alike(), random.choice([None, None, str, lambda v: -v, lambda v: (v, 1)])
    kw = {"key": k} if random.random() < 0.6 else {}
    for name in ("min", "max"):
        more = {**kw, "default": 7} if random.random() < 0.4 else kw
        count.both(name, lambda: p[name + "_of"](xs, **more), lambda: getattr(builtins, name)(xs, **more))
        if len(xs) > 1:
            count.both(name, lambda: p[name + "_of"](*xs, **kw), lambda: getattr(builtins, name)(*xs, **kw))
    order = {**kw, "reverse": random.choice([True, False, 1])} if random.random() < 0.5 else kw
    count.both("sorted", lambda: p["sorted_of"](xs, **order), lambda: sorted(xs, **order))
    a, b = list(xs), list(xs)
    done = answer(lambda: b.sort(**order))
    count.see("sort", answer(lambda: p["sort_of"](a, **order)), done)
    # a sort that fails leaves CPython's list in some order
    if done[0] == "value":
        count.see("sort", shown(a), shown(b))


def of_containers(p, count):
    a, b = [value(1) for _ in range(random.randrange(4))], [value(1) for _ in range(random.randrange(4))]
    b = list(a) if random.random() < 0.5 else b
    for made in (list, tuple):
        count.both("==", lambda: p["same_of"](made(a), made(b)), lambda: made(a) == made(b))
    c, d = {key(): value(1) for _ in range(3)}, {key(): value(1) for _ in range(3)}
    d = dict(reversed(c.items())) if random.random() < 0.5 else d
    count.both("==", lambda: p["pairs_of"](c, d), lambda: c == d)
    v = random.choice([*a, plain()])
    count.both("in", lambda: p["in_of"](a, v), lambda: v in a)
    e, f, x = list(a), list(a), iterable()
    count.both("extend", lambda: p["extend_of"](e, x()), lambda: f.extend(x()))
    pairs = random.choice([c, list(c.items()), [(1, 2), (3,)], [5], 7, [(1, 2, 3)], ["ab", "cd"], ()])
    g, h = dict(d), dict(d)
    count.both("update", lambda: p["update_of"](g, pairs), lambda: h.update(pairs))
    count.see("update", shown(g), shown(h))
    named = {"a": 1, "b": number()} if random.random() < 0.5 else {}
    count.both("dict", lambda: p["dict_of"](pairs, **named), lambda: dict(pairs, **named))
    parts = random.choice([[text() for _ in range(3)], a, (t for t in [text(), text()])])
    parts = list(parts)
    count.both("join", lambda: p["join_of"](", ", iter(parts)), lambda: ", ".join(iter(parts)))


def held():
    """A value whose text the prelude makes, some within themselves."""
    v = random.choice([value, lambda: {key(): value(1)}.items(), lambda: {key(): 1}.keys(), lambda: {1: value(1)}.values(),
                       lambda: ValueError(*[value(1) for _ in range(random.randrange(3))]), lambda: KeyError(text()), lambda: StopIteration(3)])()
    if type(v) is list and random.random() < 0.4:
        v.append(random.choice([v, (v,), {1: v}]))
    if type(v) is dict and random.random() < 0.4:
        v["self"] = random.choice([v, [v]])
    return v


def of_texts(p, count):
    v = held()
    count.see("repr", answer(lambda: p["repr_of"](v)), answer(lambda: repr(v)))
    # a text is its own: no function is asked
    if type(v) is not str:
        count.see("str", answer(lambda: p["str_of"](v)), answer(lambda: str(v)))
    xs, sep, end = [held() for _ in range(random.randrange(3))], text(), text()
    out = io.StringIO()
    with contextlib.redirect_stdout(out):
        print(*xs, sep=sep, end=end)
    primitives.printed.clear()
    p["print_of"](xs, sep, end)
    count.see("print", "".join(primitives.printed), out.getvalue())


def of_instances(p, s, count):
    for x in (s["Truth"](number()), s["Truth"](random.random() < 0.5), s["Sized"](random.randrange(-2, 4)), s["Sized"]("x"), s["Plain"]()):
        count.both("truth", lambda: p["truth_of"](x), lambda: bool(x))
        count.both("len", lambda: p["len_of"](x), lambda: len(x))
    xs = alike()
    count.both("iter", lambda: p["iter_of"](s["Walk"](xs)), lambda: iter(s["Walk"](xs)))
    for name in ("iter", "next"):
        x = random.choice([s["Plain"](), s["Truth"](True)])
        count.both(name, lambda: p[name + "_of"](x), lambda: getattr(builtins, name)(x))
    a, b = s["Steps"](xs), s["Steps"](xs)
    for _ in range(3):
        count.both("next", lambda: p["next_of"](a), lambda: next(b))
    count.both("list", lambda: p["list_of"](s["Steps"](xs)), lambda: list(s["Steps"](xs)))
    v = random.choice([*xs, 5])
    for made in (s["Within"], s["Walk"], s["Steps"]):
        count.both("in", lambda: p["in_of"](made(xs), v), lambda: v in made(xs))
    for x in (s["Shown"](text()), s["Told"](text()), s["Shown"](3)):
        count.both("repr", lambda: p["repr_of"]([x, (x,)]), lambda: repr([x, (x,)]))
        count.both("str", lambda: p["str_of"](x), lambda: str(x))
    some = lambda: random.choice([s["Left"](random.randrange(3)), s["Right"](), s["Plain"](), 3])
    x, y = some(), some()
    for f, sign, name, back in OPERATORS:
        # of two operands of one class CPython asks the first alone
        if (primitives.is_of_script(x) or primitives.is_of_script(y)) and type(x) is not type(y) and (sign != "!=" or not isinstance(x, s["Left"]) and not isinstance(y, s["Left"])):
            count.both(sign, lambda: p["binary_of"](x, y, name, back, sign), lambda: f(x, y))


def of_nothing(p, count):
    for name in "list tuple set dict".split():
        count.both(name, lambda: p[name + "_of"](), lambda: getattr(builtins, name)())
    count.both("zip", lambda: p["zip_of"](), lambda: zip())


def main(words):
    many = int(words[words.index("--many") + 1]) if "--many" in words else 200
    random.seed(11)
    count, p, s = Answers("prelude", "CPython"), prelude(texts.whole()), script()
    of_nothing(p, count)
    for _ in range(many):
        of_iterables(p, count)
        of_orders(p, count)
        of_containers(p, count)
        of_texts(p, count)
        of_instances(p, s, count)
    whole, first = texts.functions(texts.whole()), texts.functions(texts.first())
    count.see("lacking", sorted(set(whole) - set(first)), sorted(texts.called(texts.whole())))
    count.see("order", [f for f in whole if f in first], list(first))
    compile(texts.first(), "prelude", "exec")
    print(f"{count.all} cases, {count.differ} differ")
    return count.differ > 0


if __name__ == "__main__":
    sys.exit(main(sys.argv[1:]))
