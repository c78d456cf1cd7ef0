"""Runs the definition of `repr` beside CPython, over lists, tuples, dictionaries, sets and views that stand inside one another, and
inside themselves.

Run with CPython 3.12 in this folder. A set's items are those of CPython, in the order that it has them in.
"""

import gc
import random
import sys
from pathlib import Path

HERE = Path(__file__).resolve().parent
sys.path.insert(0, str(HERE.parent / "run"))
import definitions
from definitions import integer, items, listed

LEAVES = [None, True, False, 0, -7, 2 ** 100, "", "it's", 'a"b', "\u00e9\n", ..., range(3), (), ("a", 1)]
VIEWS = {"dict_keys": "Keys", "dict_values": "Values", "dict_items": "Items"}
KEYS = [None, True, 0, -7, "", "a'b", (1, ("x",)), ..., range(2, 9, 3)]


class Heap:
    """The objects that values of CPython are."""

    def __init__(self):
        self.objects, self.known = [], {}

    def value(self, thing):
        if thing is None or thing is ...:
            return ("None",) if thing is None else ("Ellipsis",)
        if isinstance(thing, bool):
            return ("Bool", thing)
        if isinstance(thing, int):
            return ("Int", integer(thing))
        if id(thing) not in self.known:
            self.known[id(thing)] = len(self.objects)
            self.objects.append(None)
            self.objects[self.known[id(thing)]] = self.object_of(thing)
        return ("Obj", {"0": self.known[id(thing)]})

    def entry(self, first, value):
        return {"key": listed(repr(first).encode()), "first": self.value(first), "value": self.value(value)}

    def object_of(self, thing):
        if isinstance(thing, str):
            return ("Str", listed(thing.encode()))
        if isinstance(thing, range):
            return ("Range", {"start": integer(thing.start), "stop": integer(thing.stop), "step": integer(thing.step)})
        if isinstance(thing, dict):
            return ("Dict", listed([self.entry(key, value) for key, value in thing.items()]))
        if isinstance(thing, set):
            return ("Set", listed([self.entry(item, None) for item in thing]))
        if type(thing).__name__ in VIEWS:
            return ("View", {"part": (VIEWS[type(thing).__name__],), "dict": self.value(gc.get_referents(thing)[0])[1]})
        return (type(thing).__name__.capitalize(), listed([self.value(item) for item in thing]))


def made(source, depth):
    """A value by chance, which stands in itself nowhere."""
    kind = source.randrange(6) if depth else 0
    if kind == 0:
        return source.choice(LEAVES)
    if kind == 1:
        return set(source.sample(KEYS, source.randrange(4)))
    parts = [made(source, depth - 1) for _ in range(source.randrange(4))]
    if kind > 3:
        entries = dict(zip(source.sample(KEYS, len(parts)), parts))
        return source.choice([entries.keys(), entries.values(), entries.items()]) if kind == 5 else entries
    return tuple(parts) if kind == 2 else parts


def answer(told):
    return bytes(items(told[1][1])).decode() if told[0] == "New" else repr(told)


def main():
    sys.setrecursionlimit(100000)
    known = definitions.load(str(HERE.parent.parent / "crates"))
    pieces = known.get("Rattle.pt_reprs.specs.Reprs", "repr_pieces")
    content = known.get("Rattle.pt_reprs.specs.Texts", "text_content")
    source = random.Random(5)
    itself, both = {}, {"a": [3]}
    itself[1] = itself
    both["b"] = {2: ("x", [both])}
    own, others = {}, {1: "x"}
    own[1] = own.values()
    others[2] = [others.items(), others.keys()]
    values = [own, own[1], own.values(), own.items(), others, others.items(), {}.keys(), {}.values(), {}.items(), {"a": 1}.keys(), [{2: (3,)}.items()],
              {}, set(), {1: 2, "a": [3]}, {1, 2}, {("a", 2)}, itself, both, (itself,), [set(), {}, {1}], {1: {}, 2: {3: set()}},
              *(made(source, 3) for _ in range(200))]
    wrong = 0
    for value in values:
        heap = Heap()
        told = heap.value(value)
        got = answer(content(pieces(listed(heap.objects), told)))
        if got != repr(value):
            wrong += 1
            print(f"{got}, and not {value!r}", flush=True)
    print(f"{len(values)} values, {wrong} differ")
    return wrong > 0


if __name__ == "__main__":
    sys.exit(main())
