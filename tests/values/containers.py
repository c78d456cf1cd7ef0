"""Runs the definitions of operations on dictionaries and sets beside CPython, over values of each kind and over random ones.

Run with CPython 3.12 in this folder. Sets keep the order of insertion, and an operator gives the first set's items before the
second's: their order is that of dictionaries of CPython, and their items are those of its sets.
"""

import itertools
import random
import sys
from pathlib import Path

HERE = Path(__file__).resolve().parent
sys.path.insert(0, str(HERE.parent / "run"))
import definitions
from definitions import integer, items, listed, number, value_of

CRATES = HERE.parent.parent / "crates"
CLASSES = ("object type int bool str list tuple set dict range slice NoneType ellipsis NotImplementedType function method "
           "builtin_function_or_method generator frame code module super dict_keys dict_values dict_items iterator").split()
ERRORS = {37: "IndexError", 38: "KeyError", 41: "RuntimeError", 43: "RecursionError", 44: "StopIteration", 45: "TypeError", 46: "ValueError"}
DEPTH = 1000
VIEWS = {"Keys": type({}.keys()), "Values": type({}.values()), "Items": type({}.items())}
FEATURE = ("outside", "Feature")
NONE = ("Value", None)


class NeedsHash(Exception):
    """A `__hash__` of a script would be asked."""


class Plain:
    """A class of a script, whose instances are keys by object."""


class Equal:
    """One that has `__eq__` alone."""

    def __eq__(self, other):
        return self is other


class Hashed:
    """One that has `__hash__`."""

    def __hash__(self):
        raise NeedsHash


class Below(Hashed):
    """One that has it from its base."""


class Failure(Exception):
    """An exception class of a script."""


SCRIPTED = [Plain, Equal, Hashed, Below, Failure]


class Ordered(dict):
    """A set that keeps the order of insertion: its items with None behind each."""


class Cursor:
    """An iterator over a container, the number of its next item, and how many entries there were at the start."""

    def __init__(self, over, place, count):
        self.over, self.place, self.count = over, place, count


def module(crate, name):
    return f"Rattle.{crate}.specs.{name}"


class Definitions:
    def __init__(self):
        self.all = definitions.load(str(CRATES))

    def __call__(self, crate, page, name):
        return self.all.get(module(crate, page), name)


class Heap:
    """Things of CPython as objects of a heap."""

    def __init__(self, get):
        self.name_codes = get("pt_dicts", "Keys", "name_codes")
        self.coded = get("pt_dicts", "Keys", "coded")
        self.key_value = get("pt_dicts", "Keys", "key_value")
        self.objects, self.things, self.known, self.behind = [("Module", ("Sys",))] * 60, {}, {}, {}
        for place, name in [*enumerate(CLASSES), *ERRORS.items()]:
            self.objects[place] = ("Class", {"name": listed(name.encode()), "scripted": False, "base": ("None",), "names": ()})
        for place, kind in enumerate(SCRIPTED, 50):
            names = [name for name in ("__hash__", "__eq__") if kind.__dict__.get(name) is not None and kind in (Equal, Hashed)]
            entries = [{"key": self.name_codes(listed(name.encode())), "first": ("None",), "value": ("Ellipsis",)} for name in names]
            base = ("Some", {"0": 52}) if kind is Below else ("None",)
            self.objects[place] = ("Class", {"name": listed(kind.__name__.encode()), "scripted": True, "base": base, "names": listed(entries)})

    def listed(self):
        return listed(self.objects)

    def put(self, thing):
        if id(thing) not in self.known:
            place = len(self.objects)
            self.known[id(thing)], self.things[place] = place, thing
            self.objects.append(None)
            self.objects[place] = self.object_of(thing)
        return self.known[id(thing)]

    def entries(self, thing):
        """Those of a dictionary or of an ordered set."""
        out = []
        for key, value in thing.items():
            first, behind = self.value(key), self.value(value)
            codes = self.coded(self.key_value(self.listed(), DEPTH, first))
            assert codes[0] == "Ok", key
            out.append({"key": codes[1], "first": first, "value": behind})
        return listed(out)

    def object_of(self, thing):
        kind = type(thing)
        if kind is str:
            return ("Str", listed(thing.encode()))
        if kind in (list, tuple):
            return (kind.__name__.capitalize(), listed([self.value(x) for x in thing]))
        if kind is Ordered:
            return ("Set", self.entries(thing))
        if kind is dict:
            return ("Dict", self.entries(thing))
        if kind is range:
            return ("Range", {"start": integer(thing.start), "stop": integer(thing.stop), "step": integer(thing.step)})
        if kind is Cursor:
            over = ("None",) if thing.over is None else ("Some", {"0": self.put(thing.over)})
            return ("Cursor", {"over": over, "place": thing.place, "count": thing.count})
        for part, view in VIEWS.items():
            if kind is view:
                return ("View", {"part": (part,), "dict": {"0": self.put(self.behind[id(thing)])}})
        if kind in SCRIPTED:
            return ("Error" if kind is Failure else "Instance", {"class": {"0": 50 + SCRIPTED.index(kind)}, "names": (), "args": ()})
        return {type(len): ("Builtin", {}), type(module): ("Function", {"hidden": False}), type: ("Class", {"name": listed(b"C"), "scripted": False})}[kind]

    def value(self, thing):
        return value_of(thing, self.put)

    # back to things of CPython
    def thing(self, value, after=()):
        kind = value[0]
        if kind in ("None", "Ellipsis", "NotImplemented"):
            return {"None": None, "Ellipsis": ..., "NotImplemented": NotImplemented}[kind]
        if kind == "Bool":
            return value[1] if isinstance(value[1], bool) else value[1] == (True,)
        if kind == "Int":
            return number(value[1])
        place = value[1]["0"]
        return self.things[place] if place < len(self.objects) else self.held(after[place - len(self.objects)])

    def held(self, what):
        """What an object holds, as a pair of its kind and that."""
        kind, inner = what
        if kind in ("Dict", "Set"):
            return (kind, [(self.thing(e["first"]), self.thing(e["value"])) for e in items(inner)])
        if kind in ("List", "Tuple"):
            return (kind, [self.thing(v) for v in items(inner)])
        if kind == "View":
            return (kind, inner["part"][0], self.things[inner["dict"]["0"]])
        if kind == "Cursor":
            return (kind, None if inner["over"][0] == "None" else self.things[inner["over"][1]["0"]], inner["place"], inner["count"])
        return what

    def keys_stand(self, what):
        """Whether each entry has the key of its first form."""
        if what[0] in ("Dict", "Set"):
            for e in items(what[1]):
                if depth_of(self.thing(e["first"])) > 100:
                    continue
                assert self.coded(self.key_value(self.listed(), DEPTH, e["first"])) == ("Ok", e["key"])
                assert what[0] == "Dict" or e["value"] == ("None",)

    def told(self, content):
        """What a content says: an answer, and what an object holds from then on."""
        kind = content[0]
        if kind == "Value":
            return ("Value", self.thing(content[1]))
        if kind == "New":
            self.keys_stand(content[1])
            return ("new", *self.held(content[1]))
        if kind == "Raise":
            return ("raise", self.class_name(content[1]), bytes(items(content[2])).decode())
        if kind == "Outside":
            return ("outside", content[1][0])
        if kind == "Help":
            assert content[2] is False or content[2] == (False,)
            return ("help", content[1][0])
        assert kind == "Changed", content
        change, answer = content[1], content[2]
        new = items(change["objects"])
        if answer[0] == "Raise":
            assert not new and change["replacement"] == ("None",)
            return ("raise", self.class_name(answer[1]), self.thing(answer[2][1]) if answer[2][0] == "Some" else None)
        told = ("end",) if answer[0] == "End" else ("Value", self.thing(answer[1], new))
        if change["replacement"][0] == "None":
            return told
        replaced = change["replacement"][1]
        self.keys_stand(replaced["object"])
        return (*told, self.things[replaced["id"]["0"]], *self.held(replaced["object"]))

    def class_name(self, id):
        return bytes(items(self.objects[id["0"]][1]["name"])).decode()


def same(a, b):
    """Whether two answers are the same, with the very objects, but for texts, tuples and what is told of them."""
    if a is b:
        return True
    if type(a) is not type(b):
        return False
    if isinstance(a, (int, str)):
        return a == b
    if isinstance(a, (tuple, list)):
        return len(a) == len(b) and all(map(same, a, b))
    return False


def depth_of(value):
    depth = 0
    while type(value) is tuple:
        depth += 1
        value = value[0] if value else None
    return depth


def guarded(f):
    """What an operation of CPython gives, or what the project has for its exception."""
    try:
        return f()
    except NeedsHash:
        return ("outside", "Hash")
    except TypeError as error:
        return ("raise", "TypeError", str(error))
    except KeyError as error:
        return ("raise", "KeyError", error.args[0])
    except RecursionError:
        return ("raise", "RecursionError", "too many activations")
    except RuntimeError:
        return ("raise", "RuntimeError", "container changed during iteration")


def nested(depth):
    value = ()
    for _ in range(depth - 1):
        value = (value,)
    return value


class World:
    """Values that a row may name: keys of each kind, what is no key, and containers."""

    def __init__(self):
        self.plain = [Plain(), Plain(), Failure()]
        x = self.plain[0]
        self.keys = [None, True, False, 0, 1, -1, 2, 2 ** 100, "", "a", "1", "\u00e9", (), (1,), (True,), (1, 2), ("a", (None, 0)), ("a", (None, False)),
                     (x,), ..., NotImplemented, len, *self.plain]
        self.wrong = [[], [1], {}, {1: 2}, Ordered(), Ordered.fromkeys([1]), Equal(), Hashed(), Below(), ([],), (1, {}), (Hashed(), []), ([], Hashed()),
                      (Ordered(),), ((Equal(),),)]
        self.values = [None, 1, True, "v", (), [], {}, x]
        self.all = self.keys + self.wrong

    def hashed(self, value):
        """The value as CPython is to hash it: an ordered set is a set."""
        if isinstance(value, Ordered):
            return set(value)
        # few calls of CPython stand inside one another
        if type(value) is tuple and depth_of(value) < 100:
            return tuple(map(self.hashed, value))
        return value

    def refused(self, value):
        return guarded(lambda: hash(self.hashed(value)) and None)

    def dictionary(self, chooser):
        d = {}
        for _ in range(chooser.choice([0, 1, 2, 3, 5, 9, 20])):
            d[chooser.choice(self.keys)] = chooser.choice(self.values)
        for key in [k for k in d if chooser.random() < 0.2]:
            del d[key]
        return d

    def ordered(self, chooser):
        return Ordered.fromkeys(self.dictionary(chooser))


def pairs(d):
    return list(d.items())


class Expected:
    """What CPython answers to each operation, and what it leaves in the container."""

    def __init__(self, world):
        self.world = world

    def dict_content(self, args):
        d = {}

        def fill():
            for key, value in zip(args[::2], args[1::2]):
                self.hash(key)
                d[key] = value
            return ("new", "Dict", pairs(d))
        return guarded(fill)

    def set_content(self, args):
        s = Ordered()

        def fill():
            for item in args:
                self.hash(item)
                s.setdefault(item)
            assert any(depth_of(x) > 100 for x in args) or set(s) == set(args)
            return ("new", "Set", pairs(s))
        return guarded(fill)

    def hash(self, value):
        if depth_of(value) > DEPTH:
            raise RecursionError
        hash(self.world.hashed(value))

    def held(self, kind, d, answer):
        return ("Value", answer, d, kind, pairs(d))

    def item_content(self, d, key):
        return self.with_key(d, key, lambda copy: ("Value", copy[key]))

    def with_key(self, d, key, f):
        def act():
            self.hash(key)
            return f({**d})
        return guarded(act)

    def set_item_content(self, d, key, value):
        def act(copy):
            copy[key] = value
            return ("Value", None, d, "Dict", pairs(copy))
        return self.with_key(d, key, act)

    def delete_item_content(self, d, key):
        def act(copy):
            del copy[key]
            return ("Value", None, d, "Dict", pairs(copy))
        return self.with_key(d, key, act)

    def has_key_content(self, d, key):
        return self.with_key(d, key, lambda copy: ("Value", key in copy))

    def dict_method_content(self, name, d, args):
        counts = {"Get": (1, 2), "Keys": (0,), "Values": (0,), "Items": (0,), "Pop": (1, 2), "Setdefault": (1, 2), "Update": (1,), "Clear": (0,), "Copy": (0,)}
        if len(args) not in counts.get(name, ()):
            return FEATURE
        if name in VIEWS:
            return ("new", "View", name, d)
        if name == "Update":
            return ("help", "UpdateOf")

        def act():
            copy = {**d}
            # what CPython hashes and doesn't
            if args and not (name == "Pop" and not copy):
                self.hash(args[0])
            got = getattr(copy, name.lower())(*args)
            if name == "Copy":
                return ("new", "Dict", pairs(got))
            if name == "Get" or pairs(copy) == pairs(d) and name in ("Pop", "Setdefault"):
                return ("Value", got)
            return ("Value", got, d, "Dict", pairs(copy))
        return guarded(act)

    def add_content(self, s, item):
        def act(copy):
            copy.setdefault(item)
            real = set(s)
            real.add(item)
            assert real == set(copy)
            return ("Value", None, s, "Set", pairs(copy))
        return self.with_key(s, item, act)

    def has_item_content(self, s, item):
        return guarded(lambda: ("Value", self.world.hashed(item) in set(s)))

    def set_method_content(self, name, s, args):
        if len(args) not in {"Add": (1,), "Discard": (1,), "Remove": (1,), "Clear": (0,), "Copy": (0,)}.get(name, ()):
            return FEATURE
        if name == "Add":
            return self.add_content(s, args[0])
        if name == "Copy":
            return ("new", "Set", pairs(s))

        def act():
            real = set(s)
            try:
                getattr(real, name.lower())(*map(self.world.hashed, args))
            except KeyError as error:
                raise KeyError(args[0]) from error
            left = [(k, None) for k in s if k in real]
            return ("Value", None) if len(left) == len(s) and name != "Clear" else ("Value", None, s, "Set", left)
        return guarded(act)

    def combined(self, op, a, b):
        signs = {"BitOr": lambda a, b: a | b, "BitAnd": lambda a, b: a & b, "Sub": lambda a, b: a - b, "BitXor": lambda a, b: a ^ b}
        real = signs[op](set(a), set(b))
        # 1 and True are one item, whose first form is that of the first set
        first = [k for k in a if k in real]
        return [(k, None) for k in [*first, *(k for k in b if k in real and k not in first)]]

    def combined_content(self, op, a, b):
        return ("new", "Set", self.combined(op, a, b))

    def combined_in_place(self, op, a, b):
        return ("Value", a, a, "Set", self.combined(op, a, b))

    def same_items(self, a, b):
        return set(a) == set(b)


    def iterator_content(self, value, behind):
        if isinstance(value, Cursor):
            return ("Value", value)
        if isinstance(value, (Plain, Hashed, Equal, Failure)):
            return ("help", "IterOf")

        def act():
            iter(value)
            count = len(value) if isinstance(value, (dict, *VIEWS.values())) else 0
            return ("new", "Cursor", value, 0, count)
        return guarded(act)

    def next_content(self, cursor, behind, turns, change):
        """What an iterator of CPython gives after so many turns and a change of the container, which is put back."""
        d = cursor.over if behind is None else behind
        before = pairs(d)
        it = iter(cursor.over)
        for _ in range(turns):
            next(it)
        change(d)

        def act():
            try:
                item = next(it)
            except StopIteration:
                return ("end", cursor, "Cursor", None, turns, cursor.count)
            if isinstance(cursor.over, VIEWS["Items"]):
                item = ("Tuple", list(item))
            return ("Value", item, cursor, "Cursor", cursor.over, turns + 1, cursor.count)
        wanted, held = guarded(act), pairs(d)
        d.clear()
        d.update(before)
        return wanted, held


METHODS = "Join Append Get Keys Values Items Pop Setdefault Update Clear Copy Add Discard Remove".split()
OPERATORS = ["BitOr", "BitAnd", "Sub", "BitXor"]
PAGES = {"dict_content": ("pt_mappings", "Entering"), "item_content": ("pt_mappings", "Items"), "set_item_content": ("pt_mappings", "Items"),
         "delete_item_content": ("pt_mappings", "Items"), "has_key_content": ("pt_mappings", "Items"),
         "dict_method_content": ("pt_mappings", "Methods"), "set_content": ("pt_sets", "Members"), "add_content": ("pt_sets", "Members"),
         "has_item_content": ("pt_sets", "Members"), "same_items": ("pt_sets", "Members"), "set_method_content": ("pt_sets", "Methods"),
         "iterator_content": ("pt_views", "Cursors"), "next_content": ("pt_views", "Cursors"), "combined_content": ("pt_sets", "Operators"), "combined_in_place": ("pt_sets", "Operators")}


class Rows:
    def __init__(self):
        self.get = Definitions()
        self.world = World()
        self.expected = Expected(self.world)
        self.counts, self.wrong = {}, 0

    def answer(self, name, *args):
        """What the definition gives."""
        f = self.get(*PAGES[name], name)
        heap = Heap(self.get)
        if name in ("iterator_content", "next_content"):
            value, behind = args
            heap.behind = behind
            operand = heap.value(value)
            return heap.told(f(heap.listed(), operand))
        if name in ("dict_content", "set_content"):
            values = listed([heap.value(v) for v in args[0]])
            return heap.told(f(heap.listed(), values))
        if name in ("dict_method_content", "set_method_content"):
            method, container, rest = args
            id, entries = {"0": heap.put(container)}, heap.entries(container)
            values = listed([heap.value(v) for v in rest])
            return heap.told(f((method,), heap.listed(), id, entries, values))
        if name in ("combined_content", "combined_in_place"):
            op, a, b = args
            id, first, second = {"0": heap.put(a)}, heap.entries(a), heap.entries(b)
            return heap.told(f((op,), id, first, second) if name == "combined_in_place" else f((op,), first, second))
        container, *rest = args
        id, entries = {"0": heap.put(container)}, heap.entries(container)
        if name == "same_items":
            return f(entries, heap.entries(rest[0]))
        values = [heap.value(v) for v in rest]
        changes = name in ("set_item_content", "delete_item_content", "add_content")
        return heap.told(f(heap.listed(), *([id] if changes else []), entries, *values))

    def row(self, name, *args):
        self.compare(name, args, self.answer(name, *args), getattr(self.expected, name)(*args))

    def compare(self, name, args, got, wanted):
        self.counts[name] = self.counts.get(name, 0) + 1
        if not same(got, wanted):
            self.wrong += 1
            if self.wrong < 40:
                print(f"{name} {args!r:.300}: {got!r:.300}, and not {wanted!r:.300}")


def every_value(rows, chooser):
    """Each operation at each value, in containers of each size."""
    world = rows.world
    containers = [{}, {1: "one"}, {True: 1, "a": [], (1,): None}, world.dictionary(chooser), dict.fromkeys(world.keys)]
    for d in containers:
        s = Ordered.fromkeys(d)
        for v in world.all:
            rows.row("item_content", d, v)
            rows.row("set_item_content", d, v, chooser.choice(world.values))
            rows.row("delete_item_content", d, v)
            rows.row("has_key_content", d, v)
            rows.row("add_content", s, v)
            rows.row("has_item_content", s, v)
            for method in METHODS:
                rows.row("dict_method_content", method, d, [v])
                rows.row("dict_method_content", method, d, [v, chooser.choice(world.values)])
                rows.row("set_method_content", method, s, [v])
        for method in METHODS:
            for container, name in ((d, "dict_method_content"), (s, "set_method_content")):
                rows.row(name, method, container, [])
                rows.row(name, method, container, [1, 2, 3])
    for v in world.all:
        rows.row("set_content", [v])
        rows.row("dict_content", [v, 1])


def deep(rows):
    """How many tuples may stand inside one another."""
    for depth in (DEPTH, DEPTH + 1):
        key = nested(depth)
        rows.row("set_content", [key])
        rows.row("dict_content", [1, 2, key, 1])
        rows.row("item_content", {1: 2}, key) if depth > DEPTH else None
        rows.row("dict_method_content", "Pop", {}, [key])


def displays(rows, chooser, count):
    for _ in range(count):
        some = chooser.sample(rows.world.keys, 6) + chooser.choices(rows.world.keys, k=6)
        if chooser.random() < 0.3:
            some.append(chooser.choice(rows.world.wrong))
        some += [True, 1, (1,), (True,)]
        args = chooser.choices(some, k=chooser.choice([0, 2, 4, 6, 12, 24]))
        rows.row("set_content", args)
        rows.row("dict_content", args)


def operators(rows, chooser, count):
    for _ in range(count):
        a, b = rows.world.ordered(chooser), rows.world.ordered(chooser)
        if chooser.random() < 0.3:
            b = Ordered.fromkeys(chooser.sample(list(a), len(a)))
        for x, y in ((a, b), (b, a), (a, a)):
            for op in OPERATORS:
                rows.row("combined_content", op, x, y)
                rows.row("combined_in_place", op, x, y)
            rows.row("same_items", x, y)


def put_back(d, entries):
    d.clear()
    d.update(entries)


def changes(d, chooser):
    """What may happen to a container between two turns: nothing, a value that is replaced, an entry more, one less, none left."""
    def more(d):
        d["new"] = None

    def less(d):
        d.pop(chooser.choice(list(d)), None) if d else more(d)

    def replaced(d):
        for key in d:
            d[key] = "other" if type(d) is dict else None
    return [lambda d: None, replaced, more, less, lambda d: d.clear()]


def iterators(rows, chooser, count):
    """Iterators at each place over containers and their views, which change or don't."""
    world = rows.world
    x = world.plain[0]
    for value in [[], [1], (), (1, 2), "", "ab", range(3), 1, None, True, x, Failure(), len, Cursor([1], 1, 0), Cursor({}, 0, 0)]:
        rows.row("iterator_content", value, {})
    for n in range(count):
        d = {} if n == 0 else world.dictionary(chooser)
        views = [d.keys(), d.values(), d.items()]
        behind = {id(view): d for view in views}
        for over in [d, Ordered.fromkeys(d), *views]:
            rows.row("iterator_content", over, behind)
            for turns in range(len(over) + 1):
                for change in changes(over, chooser):
                    cursor = Cursor(over, turns, len(over))
                    # CPython goes over the container first, and the definition sees what it left
                    container = behind.get(id(over), over)
                    before = pairs(container)
                    wanted, held = rows.expected.next_content(cursor, behind.get(id(over)), turns, change)
                    put_back(container, held)
                    got = rows.answer("next_content", cursor, behind)
                    put_back(container, before)
                    rows.compare("next_content", (over, turns, held), got, wanted)
        done = Cursor(None, chooser.randrange(4), chooser.randrange(4))
        rows.compare("next_content", (done,), rows.answer("next_content", done, {}), ("end", done, "Cursor", None, done.place, done.count))


def at_random(rows, chooser, count):
    world = rows.world
    for _ in range(count):
        d, s = world.dictionary(chooser), world.ordered(chooser)
        key = chooser.choice(list(d) or world.keys) if chooser.random() < 0.5 else chooser.choice(world.all)
        value = chooser.choice(world.values)
        for name in ("item_content", "delete_item_content", "has_key_content"):
            rows.row(name, d, key)
        rows.row("set_item_content", d, key, value)
        rows.row("dict_method_content", chooser.choice(METHODS), d, chooser.choice([[key], [key, value]]))
        rows.row("set_method_content", chooser.choice(METHODS), s, [key])


def main():
    sys.setrecursionlimit(100000)
    chooser = random.Random(1)
    rows = Rows()
    every_value(rows, chooser)
    deep(rows)
    displays(rows, chooser, 300)
    operators(rows, chooser, 60)
    iterators(rows, chooser, 12)
    at_random(rows, chooser, 300)
    for name, count in rows.counts.items():
        print(f"{name}: {count} rows")
    print(f"{sum(rows.counts.values())} rows, {rows.wrong} differ")
    return 1 if rows.wrong else 0


if __name__ == "__main__":
    sys.exit(main())
