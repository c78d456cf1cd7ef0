"""Runs the definition of values in the order of their keys beside CPython's `sorted`, over random keys of each kind, and some that have no order.

usage: sorting.py [--many N]. Run with CPython 3.12 in this folder.
"""
import random
import sys
from pathlib import Path

HERE = Path(__file__).resolve().parent
sys.path.insert(0, str(HERE.parent / "run"))
import definitions
from counting import Count
from definitions import integer, items, listed
from operations import CRATES

NUMBERS, TEXTS = [0, 1, -1, True, False, 2, 5, -7, 2 ** 100, -2 ** 127], ["", "a", "b", "ab", "B", "\u00e9", "\uffff", "\U0001f600", "a\x00"]


class Heap:
    """Objects, and values that name them."""

    def __init__(self):
        self.objects = []

    def value(self, thing):
        match thing:
            case bool():
                return ("Bool", thing)
            case int():
                return ("Int", integer(thing))
            case str():
                return self.put(("Str", listed(thing.encode())))
            case tuple() | list():
                return self.put((type(thing).__name__.capitalize(), listed([self.value(v) for v in thing])))
        return ("None",)

    def put(self, made):
        self.objects.append(made)
        return ("Obj", {"0": len(self.objects) - 1})


def kind(key):
    """The kind that a key is of: a number, a text, or what each item of a tuple is; None for another."""
    if isinstance(key, (int, str)):
        return type(key) is str
    if isinstance(key, tuple) and all(isinstance(v, (int, str)) for v in key):
        return [type(v) is str for v in key]
    return None


def fault(keys):
    """What is wrong with the first key that isn't like the one before it."""
    if keys and kind(keys[0]) is None:
        return "outside"
    for one, other in zip(keys, keys[1:]):
        if kind(one) != kind(other):
            is_mixed = isinstance(kind(one), bool) and isinstance(kind(other), bool)
            return f"'<' not supported between instances of '{type(other).__name__}' and '{type(one).__name__}'" if is_mixed else "outside"
    return None


def wanted(keys, falling):
    return fault(keys) or sorted(range(len(keys)), key=keys.__getitem__, reverse=falling)


def told(content):
    match content:
        case ("New", ("List", values)):
            return [definitions.number(v[1]) for v in items(values)]
        case ("Outside", ("Sort",)):
            return "outside"
        case ("Raise", _, ("Some", text)) | ("Raise", _, text):
            return bytes(items(text)).decode()
    return content


def some_keys():
    number, text = lambda: random.choice(NUMBERS), lambda: random.choice(TEXTS)
    make = random.choice([number, text, number, text, *[lambda of=of: tuple(f() for f in of) for of in ((number,), (text, number), (number, number, text), ())]])
    keys = [make() for _ in range(random.randrange(8))]
    for _ in range(random.random() < 0.25):
        keys.insert(random.randrange(len(keys) + 1), random.choice([None, number(), text(), [1], (number(),), (text(), text()), (None,), ((1,), 2)]))
    return keys


def main(words):
    many = int(words[words.index("--many") + 1]) if "--many" in words else 3000
    random.seed(5)
    sort = definitions.load(str(CRATES)).get("Rattle.pt_sorting.specs.Sorting", "sorted_content")
    count = Count("definition", "CPython")
    for _ in range(many):
        keys, falling, heap = some_keys(), random.random() < 0.4, Heap()
        made = [heap.value(k) for k in keys]
        values = [("Int", integer(n)) for n in range(len(keys))]
        count.see(f"{keys} {falling}", told(sort(listed(heap.objects), falling, listed(values), listed(made))), wanted(keys, falling))
    print(f"{count.all} lists of keys, {count.differ} differ")
    return count.differ > 0


if __name__ == "__main__":
    sys.setrecursionlimit(100_000)
    sys.exit(main(sys.argv[1:]))
