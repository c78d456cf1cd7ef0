"""Rows of operations that change lists, of attributes and of methods, and what CPython answers to them.

list_operations.py runs the definitions over them. A row is an operation and its operands: `set_item` of a value, a container and an index,
`delete_item` of a container and an index, `list_add` of a list and an item, `m_NAME` a call of a method of its object and the
arguments, and `a_NAME` an attribute of a value: which method it is, or that it is missing. `m_sort` has the values of `key` and `reverse`. An operand is `n t f e`, `i` and an
integer, `s` and a text, `[ .. ]` a list, `( .. )` a tuple, `d` and how many lists stand inside one another, `=` the object of the
method, or a word of OTHERS. An answer is followed by what the list is then. What the project has otherwise than CPython is said where it
is answered.
"""

import random

from prims import BAD, DEPTH, FEATURE, GREATEST, LEAST, PLAIN, TOO_DEEP, Iterator, Scripted, ScriptedError, is_same, name_of, spelled

INDEX = "IndexError: index out of range"
BAD_TYPE, BAD_VALUE = f"TypeError: {BAD}", f"ValueError: {BAD}"


def others():
    """What stands for itself; ranges, iterators, dictionaries, sets, views and slices; instances of a script's classes."""
    return {"F": others, "P": print, "O": PLAIN, "C": int, "R": range(3), "K": Iterator([4, 5], 0), "D": {}, "S": set(), "V": {}.keys(),
            "W": slice(None), "E": ValueError("x"), "X": Scripted(), "Y": ScriptedError("x")}


OTHERS = list(others())
INSTANCES = (Scripted, ScriptedError)
METHODS = {
    str: "join split strip lstrip rstrip replace find startswith endswith count",
    list: "append extend insert pop remove index count reverse sort clear copy",
    tuple: "index count",
    dict: "get keys values items pop setdefault update clear copy",
    set: "add discard remove clear copy",
}
UNBUILT = {
    str: "capitalize casefold center encode expandtabs format format_map index isalnum isalpha isascii isdecimal isdigit isidentifier "
         "islower isnumeric isprintable isspace istitle isupper ljust lower maketrans partition removeprefix removesuffix rfind rindex "
         "rjust rpartition rsplit splitlines swapcase title translate upper zfill",
    dict: "fromkeys popitem",
    set: "difference difference_update intersection intersection_update isdisjoint issubset issuperset pop symmetric_difference "
         "symmetric_difference_update union update",
}
# attributes that are no methods of texts and containers, and aren't there yet
LATER = {type(others): "__name__ __code__", type: "__name__", ValueError: "args __cause__ __context__", ScriptedError: "args __cause__ __context__"}


class Row:
    """A row's operation and operands, each made anew."""

    def __init__(self, row):
        self.kind, *words = row.split(" ")
        self.words, self.others, self.values, self.known = words, others(), [], {}
        at = 0
        while at < len(words):
            value, at = self.value_of(words, at)
            self.values.append(value)

    def value_of(self, words, at):
        word = words[at]
        if word in ("[", "("):
            items, at = [], at + 1
            while words[at] not in ("]", ")"):
                value, at = self.value_of(words, at)
                items.append(value)
            return (items if word == "[" else tuple(items)), at + 1
        return self.single(word), at + 1

    def single(self, word):
        if word == "=":
            return self.values[0]
        if word in self.others:
            return self.others[word]
        if word[0] == "i":
            return int(word[1:])
        if word[0] == "s":
            return word[1:]
        if word[0] == "d":
            value = []
            for _ in range(int(word[1:]) - 1):
                value = [value]
            return value
        return {"n": None, "t": True, "f": False, "e": ...}[word]

    def shown(self, value, depth=4):
        if value is None or value is ... or isinstance(value, bool):
            return {None: "n", ...: "e", True: "t", False: "f"}[value]
        if isinstance(value, int):
            return f"i{value}"
        if isinstance(value, str):
            return "s" + spelled(value)
        if isinstance(value, (list, tuple)):
            if depth == 0:
                return ".."
            inner = " ".join(self.shown(v, depth - 1) for v in value)
            return f"{'[' if isinstance(value, list) else '('} {inner}{' ' if inner else ''}{']' if isinstance(value, list) else ')'}"
        return next(word for word, thing in self.others.items() if thing is value)


def reaches(value):
    """Whether a value can't be compared without methods of a script."""
    seen, left = [], [value]
    while left:
        value = left.pop()
        if isinstance(value, INSTANCES):
            return True
        if isinstance(value, (list, tuple)) and not any(value is v for v in seen[-9:]):
            seen.append(value)
            left.extend(value)
    return False


class Untold(Exception):
    """What is answered where values can't be compared."""


def equal(a, b):
    """Whether two values are equal; of some kinds that isn't told yet."""
    if is_same(a, b):
        return True
    if isinstance(a, (list, tuple)) and type(a) is type(b):
        return items_equal(a, b, DEPTH)
    for kind in (dict, set, slice):
        if isinstance(a, kind) and isinstance(b, kind):
            raise Untold(FEATURE)
    if isinstance(a, type({}.keys())) or isinstance(b, type({}.keys())):
        return False
    return a == b


def items_equal(a, b, depth):
    while True:
        if depth == 0:
            raise Untold(TOO_DEEP)
        if len(a) != len(b):
            return False
        # lists that stand deep inside one another
        if len(a) == 1 and isinstance(a[0], (list, tuple)) and type(a[0]) is type(b[0]) and not is_same(a[0], b[0]):
            a, b, depth = a[0], b[0], depth - 1
            continue
        for v, w in zip(a, b):
            same = is_same(v, w) or (items_equal(v, w, depth - 1) if isinstance(v, (list, tuple)) and type(v) is type(w) else equal(v, w))
            if not same:
                return False
        return True


def sought(row, values, x):
    """Where a value stands, and how often, as far as that is told."""
    if reaches(row.values[0]) or reaches(x):
        raise Untold(FEATURE)
    for i, v in enumerate(values):
        if equal(v, x):
            yield i


def class_name(value):
    return name_of(type(value))


def extend(row, l, x):
    """Of lists and tuples it is done at once; a helper goes through all else that is iterable."""
    if isinstance(x, (list, tuple)):
        l.extend(x)
        return "n"
    if isinstance(x, (str, range, Iterator, dict, set, type({}.keys()), *INSTANCES)):
        return "help extend"
    return f"TypeError: '{class_name(x)}' object is not iterable"


def list_method(row, name, l, *args):
    if name in ("reverse", "clear") and not args:
        getattr(l, name)()
        return "n"
    if name == "copy" and not args:
        return row.shown(l.copy()) + " new"
    if name == "append" and len(args) == 1:
        l.append(args[0])
        return "n"
    if name == "extend" and len(args) == 1:
        return extend(row, l, *args)
    if name == "insert" and len(args) == 2:
        if not isinstance(args[0], int):
            return BAD_TYPE
        place = max(-len(l), min(len(l), args[0]))
        l.insert(place, args[1])
        return "n"
    if name == "pop" and len(args) < 2:
        if args and not isinstance(args[0], int):
            return BAD_TYPE
        try:
            return row.shown(l.pop(*args))
        except (IndexError, OverflowError):
            return INDEX
    if name == "remove" and len(args) == 1:
        for i in sought(row, l, *args):
            del l[i]
            return "n"
        return BAD_VALUE
    if name == "sort" and len(args) == 2:
        return "help sort"
    return sequence_method(row, name, l, *args)


def sequence_method(row, name, values, *args):
    if name == "index" and len(args) == 1:
        for i in sought(row, values, *args):
            return f"i{i}"
        return BAD_VALUE
    if name == "count" and len(args) == 1:
        return f"i{len(list(sought(row, values, *args)))}"
    return FEATURE


def method(row, name, receiver, *args):
    if isinstance(receiver, list):
        return list_method(row, name, receiver, *args)
    return sequence_method(row, name, receiver, *args) if isinstance(receiver, tuple) else FEATURE


def changed_item(row, change, container, index):
    """Of a list by an integer; of dictionaries that isn't there yet."""
    if isinstance(container, dict):
        return FEATURE
    if not isinstance(container, list):
        return f"TypeError: '{class_name(container)}' object is not subscriptable"
    if not isinstance(index, int):
        return BAD_TYPE
    try:
        change()
        return "n"
    except (IndexError, OverflowError):
        return INDEX


def attribute(row, name, value):
    """Names that a run doesn't have come first; then methods."""
    kind = type(value)
    special = name[:2] == "__" == name[-2:] and len(name) > 4
    if name == "__dict__" or special and kind in (str, list, dict, set) or name in UNBUILT.get(kind, "").split():
        return FEATURE
    if name in METHODS.get(kind, "").split():
        assert callable(getattr(value, name))
        return f"method {name}"
    if name in LATER.get(kind, "").split():
        return FEATURE
    return "missing"


def answered(row):
    kind, values = row.kind, row.values
    if kind == "set_item":
        x, container, index = values
        return changed_item(row, lambda: container.__setitem__(index, x), container, index)
    if kind == "delete_item":
        container, index = values
        return changed_item(row, lambda: container.__delitem__(index), container, index)
    if kind == "list_add":
        if not isinstance(values[0], list):
            return FEATURE
        values[0].append(values[1])
        return "n"
    name = kind[2:]
    return method(row, name, *values) if kind[:2] == "m_" else attribute(row, name, *values)


def answer(line):
    row = Row(line)
    try:
        told = answered(row)
    except Untold as untold:
        told = str(untold)
    changing = row.values[1] if row.kind == "set_item" else row.values[0]
    if row.kind[:2] != "a_" and isinstance(changing, list):
        told += f" | {row.shown(changing)}"
    return told


PLAIN_WORDS = ["n", "t", "f", "e", "i0", "i1", "i2", "i-1", "s", "sa", "sab", "s\u20ac", "[ ]", "( )", "[ i1 ]", "( i1 sa )", *OTHERS]
INDEXES = [*(f"i{n}" for n in (0, 1, 2, 3, 4, 5, -1, -2, -3, -4, -5, -6, 2 ** 63, -(2 ** 63), GREATEST, LEAST)), "t", "f", "n", "sa", "W", "X", "( )"]
LISTS = ["[ ]", "[ i1 ]", "[ i1 sa n ]", "[ i3 t f [ ] ( ) ]", "[ [ i1 ] ( i1 sa ) sab e i1 ]", "[ X i1 ]", "[ ( Y ) i1 ]", "[ D S V R F O P C W K E ]"]
TUPLES = ["( )", "( i1 )", "( i1 sa n i1 t )", "( [ i1 ] ( i1 ) X )"]
LIST_NAMES = METHODS[list].split()


def of_items():
    for a in [*LISTS, *TUPLES, "sab", *OTHERS, "n", "i3"]:
        for i in INDEXES:
            yield f"set_item s\u20ac {a} {i}"
            yield f"set_item [ i5 ] {a} {i}"
            yield f"delete_item {a} {i}"
        yield f"list_add {a} sx"
        yield f"list_add {a} ( i1 )"


def of_methods():
    for a in [*LISTS, *TUPLES]:
        for name in LIST_NAMES:
            yield f"m_{name} {a}"
            for x in [*PLAIN_WORDS, "="]:
                yield f"m_{name} {a} {x}"
        for i in INDEXES:
            yield f"m_pop {a} {i}"
            yield f"m_insert {a} {i} sx"
        for name in ("append", "sort", "index", "pop", "insert", "count"):
            yield f"m_{name} {a} i1 i1 i1"
            yield f"m_{name} {a} i1 i1"
    for a in [*(w for w in OTHERS if w not in "DS"), "n", "i3"]:
        for name in LIST_NAMES:
            yield f"m_{name} {a}"
            yield f"m_{name} {a} i1"


def of_attributes():
    names = {name for names in (*METHODS.values(), *UNBUILT.values(), *LATER.values()) for name in names.split()}
    for name in sorted(names | {"__dict__", "__len__", "__class__", "____", "__x", "x__", "__x__", "x", "Append", "appen", "appendd", "\u00e9"}):
        for a in ["[ i1 ]", "( )", "sab", *(w for w in OTHERS if w != "C"), "n", "i3", "t", "e"]:
            yield f"a_{name} {a}"


def of_searches():
    source = random.Random(4)
    for _ in range(1500):
        name, a = source.choice(["index", "count", "remove"]), source.choices(PLAIN_WORDS, k=source.randrange(0, 7))
        yield " ".join([f"m_{name}", "[", *a, "]", source.choice([*PLAIN_WORDS, *a])])
        yield " ".join([f"m_{name}", "(", *(w for w in a if w not in "XY"), ")", source.choice(PLAIN_WORDS)])


def deep_rows():
    for name in ("index", "count", "remove"):
        for a in (998, 999, 1000, 1001):
            yield f"m_{name} [ i1 d{a} i2 ] d{a}"
            yield f"m_{name} ( d{a} ) d{a + 1}"


def all_rows():
    for rows in (of_items, of_methods, of_attributes, of_searches, deep_rows):
        yield from rows()
