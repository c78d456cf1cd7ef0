"""Writes the table of test_prims, and what CPython answers to its rows.

Run with CPython 3.12 in this folder. A row is an operation and its operands: `truth not`, `u-` a unary operator, `b+` a binary
one, `i+` that of an augmented assignment, `c<` a comparison with `_` for a blank, `tuple list item iter next`, `unpack2` of so many
items, and `call_NAME` of a builtin function, of which `call_print` has a separator and an end first. An operand is `n t f e N`, `i` and
an integer, `s` and a text with `_` for a blank, `s*N*TEXT` that so many times, `u` and a text as it stands, `d` and how many lists stand
inside one another, `k` and how many tuples stand around the class of integers, or a word of OBJECTS. An
answer that changes a list or an iterator is followed by what that is then. What the project has otherwise than CPython is said where it
is answered.
"""

import itertools
import operator
import random
import types
import warnings
from pathlib import Path

CRATE = Path(__file__).resolve().parent.parent.parent / "crates" / "test_prims"
LIMIT = 16_777_216
ENTRIES = 4_194_304
DEPTH = 1000
LEAST, GREATEST = -(2 ** 127), 2 ** 127 - 1
BINARY = {"+": operator.add, "-": operator.sub, "*": operator.mul, "/": operator.truediv, "//": operator.floordiv,
          "%": operator.mod, "**": operator.pow, "&": operator.and_, "|": operator.or_, "^": operator.xor,
          "<<": operator.lshift, ">>": operator.rshift}
UNARY = {"+": operator.pos, "-": operator.neg, "~": operator.invert}
ORDERS = {"<": operator.lt, "<=": operator.le, ">": operator.gt, ">=": operator.ge}
COMPARISONS = [*ORDERS, "==", "!=", "in", "not in", "is", "is not"]
BAD = "bad argument"
TOO_DEEP = "RecursionError: too many activations"
FEATURE = "outside feature"


class Scripted:
    """A class of a script."""


class ScriptedError(Exception):
    """An exception class of a script."""


class Other(Exception):
    """What the project answers where that isn't a value of CPython."""


def first(a, b):
    return a, b


def second(a, b):
    return b, a


class Iterator:
    """An iterator of CPython, over what it goes, and the place that the project's has."""

    def __init__(self, over, place):
        self.over, self.place, self.at = over, place, iter(over)

    def __iter__(self):
        return self

    def __next__(self):
        item = next(self.at)
        self.place += len(item.encode()) if isinstance(self.over, str) else 1
        return item


def made(over, turns):
    it = Iterator(over, 0)
    for _ in range(turns):
        next(it)
    return it


def objects():
    """A function, another, a builtin one, an object that only stands for itself, a module, a class; what holds values; instances of a
    script's classes; then lists and tuples, of which some hold others or an instance, ranges and iterators."""
    x = Scripted()
    one, three, ended, self_a, self_b = [1], (3,), made([], 0), [], []
    self_a.append(self_a)
    self_b.append(self_b)
    ended.over = None
    return {"F": first, "G": second, "P": print, "O": PLAIN, "M": types, "C": int, "L": one, "T": (), "D": {}, "S": set(), "R": range(3),
            "V": {}.keys(), "E": ValueError(), "X": x, "Y": ScriptedError(),
            "oE": [], "oA": [1, "ab", None], "oB": [1, "ab", None], "oT": (1, "ab", None), "oI": [True, 2], "oJ": [1, 2], "oQ": [one], "oU": [[1]],
            "oX": [x], "oY": (x,), "oS": self_a, "oP": self_b, "oO": three, "oW": ([1], (2, "h\u00e9")), "oR": range(0, 10, 3), "oM": range(0, 12, 3),
            "oN": range(5, 5), "oK": range(7, 0, -2), "oL": slice(None), "oC": made([4, 5], 1), "oZ": made("h\u00e9l", 1), "oF": made(range(9, 1, -3), 1),
            "oH": made((6,), 1), "oV": ended,
            "oD": {1: 2, "a": one}, "oDe": {"a": [1], True: 2}, "oDk": {1: 2, "a": one, None: 3}, "oDl": {1: 2, "b": one}, "oDv": {1: 3, "a": one},
            "oDx": {1: x}, "oLa": slice(1, three, None), "oLb": slice(1, (*[3],), None), "oLc": slice(1, 2, 3),
            "oG": [1, 3], "oGa": [1, 2, 0], "oGb": [[1, 2], 3], "oGc": [[1, 3], 0], "oGd": ([1], (2, "b")), "oGm": [1, "x"],
            "oKa": (str, int), "oKb": ((str, (bool,)), list), "oKc": (int, 5), "oKd": (5, int), "oKe": ((), (str, ((int,),)))}


PLAIN = object()
OBJECTS = objects()
COMPOUND = "LTDSRVE"
INSTANCES = "XY"
HELPED = ["X", "Y", "oX", "oY", "oDx"]


def spelled(text):
    """A text on one line of ASCII; of a long one its length alone."""
    if len(text) > 200:
        return f"#{len(text)}"
    return "".join({"\n": "\\n", "\\": "\\\\"}.get(c) or (c if " " <= c <= "~" else f"\\u{{{ord(c):x}}}") for c in text)


def nested(depth):
    """So many lists inside one another."""
    value = []
    for _ in range(depth - 1):
        value = [value]
    return value


def around(depth):
    """So many tuples around the class of integers."""
    value = int
    for _ in range(depth):
        value = (value,)
    return value


class Row:
    """A row's operation and operands. Each row has objects of its own, since it may change them."""

    def __init__(self, row):
        self.kind, *self.words = row.split(" ")
        self.objects = objects()
        self.values = [self.value_of(word) for word in self.words]
        self.helped = [self.objects[word] for word in HELPED]

    def value_of(self, word):
        if word[0] == "i":
            return int(word[1:])
        if word[0] == "s":
            count, _, text = word[2:].partition("*")
            return text * int(count) if word[1:2] == "*" else word[1:].replace("_", " ")
        if word[0] == "d":
            return nested(int(word[1:]))
        if word[0] == "u":
            return word[1:]
        if word[0] == "k":
            return around(int(word[1:]))
        return self.objects[word] if word in self.objects else {"n": None, "t": True, "f": False, "e": ..., "N": NotImplemented}[word]

    def is_instance(self, value):
        return isinstance(value, (Scripted, ScriptedError))

    def needs_help(self, value):
        return any(value is x for x in self.helped)

    # answers
    def word_of(self, value):
        for word, thing in self.objects.items():
            if thing is value and not (word == "T" and "T" not in self.words):
                return word
        return None

    def item(self, value):
        """A value that stands in another."""
        if value is None:
            return "n"
        if isinstance(value, bool):
            return "t" if value else "f"
        if isinstance(value, int):
            if not LEAST <= value <= GREATEST:
                raise Other("outside integer")
            return f"i{value}"
        if isinstance(value, str):
            return f"s{spelled(value)}"
        word = self.word_of(value)
        if word:
            return word
        for word, thing in zip(self.words, self.values):
            if thing is value:
                return word
        return self.made(value)

    def made(self, value):
        """What a container, a range or an iterator holds."""
        if isinstance(value, (list, tuple)):
            if len(value) > ENTRIES:
                raise Other("outside length")
            return f"{type(value).__name__}({','.join(map(self.item, value))})"
        if isinstance(value, set):
            return f"set({','.join(map(self.item, value))})"
        if isinstance(value, range):
            return f"range({value.start},{value.stop},{value.step})"
        if isinstance(value, Iterator):
            return f"iterator({'nothing' if value.over is None else self.item(value.over)},{value.place})"
        return "?"

    def shown(self, value):
        """A value that an operation gives."""
        if isinstance(value, float):
            return "outside float"
        is_new = self.kind in ("b+", "b*", "i+", "i*")
        if isinstance(value, str):
            if len(value) > LIMIT:
                return "outside length"
            return f"s{spelled(value)}" + ("" if not is_new and any(value is v for v in self.values) else " new")
        if isinstance(value, type):
            return f"class {name_of(value)}"
        if value is ... or value is NotImplemented:
            return {...: "e", NotImplemented: "N"}[value]
        if isinstance(value, (list, tuple, set, range, Iterator)) and not any(value is v for v in [*self.values, *self.objects.values()]):
            return self.made(value) + " new"
        # CPython has one empty tuple, and hands out an operand that it would have to copy
        if isinstance(value, tuple) and (is_new or self.kind in ("tuple", "call_getattr")):
            return self.made(value) + " new"
        return self.item(value)

    def class_name(self, value):
        return name_of(type(value))

    def fails(self, text):
        return Other(f"TypeError: {text}")

    def is_deep(self, *values):
        """Whether containers stand too deep inside one another, or inside themselves in two values that are compared."""
        return all(isinstance(v, list) and depth_of(v) > DEPTH for v in values)


def depth_of(value):
    depth = 0
    while isinstance(value, list) and depth <= DEPTH:
        depth += 1
        value = value[0] if value else None
    return depth


def name_of(kind):
    """The name of a class; each iterator has the same one."""
    return "iterator" if kind is Iterator else kind.__name__


def computed(row, sign, a, b):
    """An operator at two integers; what is far out of range isn't computed."""
    if sign == "/" or sign == "**" and b < 0:
        return "outside float"
    if sign == "**" and abs(a) > 1 and b >= 128 or sign == "<<" and a and b >= 128:
        return "outside integer"
    try:
        return row.shown(BINARY[sign](a, b))
    except ZeroDivisionError:
        return "ZeroDivisionError: division by zero"
    except ValueError as error:
        return f"ValueError: {error}"


def is_long(a, b):
    """Whether a sequence so many times is too long."""
    number, sequence = (a, b) if isinstance(a, int) else (b, a)
    return isinstance(number, int) and isinstance(sequence, (str, list, tuple)) and number * len(sequence) > (
        LIMIT if isinstance(sequence, str) else ENTRIES)


def binary(row, sign, a, b):
    """The text names the plain operator and the classes alone. The formats of `%` aren't there, nor are sets."""
    if row.is_instance(a) or row.is_instance(b):
        return f"help binary {sign}"
    if isinstance(a, int) and isinstance(b, int):
        return computed(row, sign, a, b)
    if sign == "%" and isinstance(a, str):
        return FEATURE
    wrong = f"TypeError: unsupported operand type(s) for {sign}: '{row.class_name(a)}' and '{row.class_name(b)}'"
    if sign == "*" and is_long(a, b):
        return "outside length"
    if sign == "|" and isinstance(a, dict) or isinstance(a, type) or isinstance(b, type):
        return wrong
    if sign in "-&|^" and not (isinstance(a, set) and isinstance(b, set)):
        return wrong
    try:
        return row.shown(BINARY[sign](a, b))
    except (TypeError, OverflowError):
        return wrong


def in_place(row, sign, a, b):
    """A list changes in place, of items of lists and tuples; a helper goes through what else is iterable."""
    if isinstance(a, list) and sign == "+":
        if row.is_instance(b):
            return "help extend"
        if not isinstance(b, (list, tuple)):
            if isinstance(b, (str, range, Iterator, dict, set, type({}.keys()))):
                return "help extend"
            return f"TypeError: '{row.class_name(b)}' object is not iterable"
        a += b
        return row.shown(a)
    if isinstance(a, list) and sign == "*" and isinstance(b, int):
        if is_long(a, b):
            return "outside length"
        a *= b
        return row.shown(a)
    if isinstance(a, set) and isinstance(b, set) and sign in "-&|^":
        IN_PLACE[sign](a, b)
        return row.shown(a)
    return binary(row, sign, a, b)


IN_PLACE = {"-": set.difference_update, "&": set.intersection_update, "|": set.update, "^": set.symmetric_difference_update}


def unary(row, sign, a):
    try:
        return row.shown(UNARY[sign](a))
    except TypeError:
        return f"TypeError: bad operand type for unary {sign}: '{row.class_name(a)}'"


def is_same(a, b):
    """Integers and texts are compared by value."""
    return a is b or type(a) is type(b) and isinstance(a, (int, str)) and a == b


def equal(row, a, b):
    for kind, helper in ((list, "same"), (tuple, "same"), (dict, "pairs")):
        if isinstance(a, kind) and isinstance(b, kind) and (row.needs_help(a) or row.needs_help(b)):
            return f"help {helper}"
    if a is not b and row.is_deep(a, b):
        return TOO_DEEP
    if isinstance(a, type({}.keys())) or isinstance(b, type({}.keys())):
        return a is b
    return a == b


def turned(told):
    return not told if isinstance(told, bool) else f"{told} inverted" if told.startswith("help") else told


def order(row, sign, a, b):
    """The text names the classes of the items that differ first."""
    held = type(a) is type(b) and isinstance(a, (list, tuple, slice))
    if held and (row.needs_help(a) or row.needs_help(b)):
        return FEATURE
    if a is not b and row.is_deep(a, b):
        return TOO_DEEP
    try:
        if isinstance(a, (set, type({}.keys()))) or isinstance(b, (set, type({}.keys()))):
            raise TypeError
        return ORDERS[sign](a, b)
    except TypeError as error:
        return f"TypeError: {error}" if held else f"TypeError: '{sign}' not supported between instances of '{row.class_name(a)}' and '{row.class_name(b)}'"


def is_in(row, a, b):
    """A helper looks in what is no container; an instance is looked for by a helper too."""
    if isinstance(b, range) and row.is_instance(a):
        return FEATURE
    if isinstance(b, type({}.keys())) and row.needs_help(a):
        return "help in"
    if isinstance(b, (dict, set, type({}.keys()))):
        return not isinstance(a, type({}.keys())) and found(row, a, b)
    if isinstance(b, (list, tuple)):
        if row.needs_help(a) or row.needs_help(b):
            return "help in"
        if any(a is not v and row.is_deep(a, v) for v in b):
            return TOO_DEEP
        for v in b:
            told = equal(row, v, a)
            if told is not False:
                return told
        return False
    if isinstance(b, (str, range)):
        try:
            return a in b
        except TypeError:
            return f"TypeError: {BAD}"
    return "help in"


def found(row, a, b):
    """Whether a key is there; a view is one by object."""
    try:
        return a in b
    except TypeError as error:
        return f"TypeError: {error}"


def comparison(row, sign, a, b):
    if sign in ("is", "is not"):
        told = is_same(a, b) != (sign == "is not")
    elif sign in ("in", "not in"):
        told = is_in(row, a, b)
        told = turned(told) if sign == "not in" else told
    elif row.is_instance(a) or row.is_instance(b):
        return f"help compare {sign}"
    elif sign in ORDERS:
        told = order(row, sign, a, b)
    else:
        told = equal(row, a, b)
        told = turned(told) if sign == "!=" else told
    return row.shown(told) if isinstance(told, bool) else told


def text_of(row, value, is_repr):
    """An object is written without its address, and a class by its name; what isn't written yet is left out."""
    if isinstance(value, slice):
        raise Other(FEATURE)
    if row.is_deep(value) and value[0] is not value:
        raise Other(TOO_DEEP)
    if isinstance(value, type):
        return f"<class '{name_of(value)}'>"
    if value is None or isinstance(value, (int, list, tuple, dict, set, type({}.keys()), range)) or value is ... or value is NotImplemented:
        return repr(value)
    if isinstance(value, str):
        return escaped(value) if is_repr else value
    if isinstance(value, BaseException):
        return repr(value) if is_repr else str(value)
    return f"<{row.class_name(value)} object>"


def escaped(text):
    """Characters above 255 stand as themselves."""
    return "".join(c if ord(c) > 255 else repr("\"'" + c)[4:-1] if c not in "'\"" else c for c in text).join(
        ['"', '"'] if "'" in text and '"' not in text else ["'", "'"]) if "'" not in text or '"' not in text else repr(text)


def printed(row, separator, end, *values):
    ends = []
    for value, usual in ((separator, " "), (end, "\n")):
        if value is not None and not isinstance(value, str):
            return f"TypeError: {BAD}"
        ends.append(usual if value is None else value)
    if any(row.needs_help(v) for v in values):
        return "help print"
    text = ends[0].join(text_of(row, v, False) for v in values) + ends[1]
    return "outside length" if len(text) > LIMIT else "print " + spelled(text)


def length(row, a):
    if row.is_instance(a):
        return "help len"
    try:
        return row.shown(len(a))
    except TypeError:
        return f"TypeError: object of type '{row.class_name(a)}' has no len()"


def iterator(row, a):
    if row.is_instance(a):
        return "help iter"
    if isinstance(a, Iterator):
        return row.shown(a)
    if isinstance(a, (str, list, tuple, range, dict, set, type({}.keys()))):
        return row.shown(Iterator(a, 0))
    return f"TypeError: '{row.class_name(a)}' object is not iterable"


def next_of(row, end, a, *default):
    """What comes at the end: `end`, or what a call gives there."""
    if row.is_instance(a):
        return "help next_or" if default else "help next"
    if not isinstance(a, Iterator):
        return f"TypeError: '{row.class_name(a)}' object is not an iterator"
    try:
        return row.shown(next(a)) if isinstance(a.over, str) else row.item(next(a))
    except StopIteration:
        a.over = None
        return row.item(default[0]) if default else end


def unpacked_from(row, count, it):
    """One item more than is wanted is taken; an iterator that has come to the end goes over nothing."""
    place = it.place
    found = list(itertools.islice(it, count + 1)) if it.over is not None else []
    if len(found) <= count:
        it.over, it.place = None, place
    if len(found) != count:
        return f"ValueError: {'too many' if len(found) > count else 'not enough'} values to unpack"
    return " ".join(["values", *map(row.item, found)])


def unpacked(row, count, a):
    if row.is_instance(a):
        return f"help take {count}"
    if isinstance(a, Iterator):
        return unpacked_from(row, count, a)
    if not isinstance(a, (str, list, tuple, range, dict, set, type({}.keys()))):
        return f"TypeError: '{row.class_name(a)}' object is not iterable"
    if len(a) != count:
        return f"ValueError: {'too many' if len(a) > count else 'not enough'} values to unpack"
    return " ".join(["values", *map(row.item, a)])


def item(row, a, i):
    """An index is an integer or a slice; the method of an instance isn't asked here."""
    if isinstance(a, dict):
        told = found(row, i, a) if not isinstance(i, type({}.keys())) else False
        return told or f"KeyError: {row.item(i)}"
    if not isinstance(a, (str, list, tuple, range)):
        return f"TypeError: '{row.class_name(a)}' object is not subscriptable"
    if isinstance(i, slice):
        # CPython hands out an operand that it would have to copy
        return (f"s{spelled(a[i])}" if isinstance(a, str) else row.made(a[i])) + " new"
    if not isinstance(i, int):
        return f"TypeError: {BAD}"
    try:
        return row.shown(a[i]) if isinstance(a, str) else row.item(a[i])
    except IndexError:
        return "IndexError: index out of range"


def numbers(function):
    """A call of integers alone."""
    def call(row, *values):
        if not all(isinstance(v, int) for v in values):
            return f"TypeError: {BAD}"
        return function(row, *values)
    return call


@numbers
def division(row, a, b):
    try:
        return row.shown(divmod(a, b))
    except ZeroDivisionError:
        return "ZeroDivisionError: division by zero"


@numbers
def char(row, number):
    if not 0 <= number < 0x110000:
        return f"ValueError: {BAD}"
    return "outside surrogate" if 0xd800 <= number < 0xe000 else row.shown(chr(number))


def code(row, a):
    if not isinstance(a, str):
        return f"TypeError: {BAD}"
    return row.shown(ord(a)) if len(a) == 1 else f"ValueError: {BAD}"


def integer(row, *values):
    """A text has decimal digits of ASCII alone, and the blanks of `strip` around them, of which CPython's `int` doesn't take 0x1c to 0x1f."""
    if not values:
        return "i0"
    if not isinstance(values[0], (int, str)):
        return f"TypeError: {BAD}"
    try:
        if isinstance(values[0], str) and any(c.isdecimal() and not c.isascii() for c in values[0]):
            raise ValueError
        return row.shown(int(values[0].strip() if isinstance(values[0], str) else values[0]))
    except ValueError:
        return f"ValueError: {BAD}"


def ranged(row, *values):
    if not all(isinstance(v, int) for v in values):
        return f"TypeError: {BAD}"
    try:
        return row.shown(range(*map(int, values)))
    except ValueError:
        return f"ValueError: {BAD}"


def truth(row, a):
    return "help truth" if row.is_instance(a) else bool(a)


def told_truth(row, *values):
    told = truth(row, *values) if values else False
    return told if isinstance(told, str) else row.shown(told)


def written(helper, is_repr):
    def call(row, *values):
        if not values:
            return "s new"
        if row.needs_help(values[0]):
            return f"help {helper}"
        if isinstance(values[0], str) and not is_repr:
            return row.shown(values[0])
        text = text_of(row, values[0], is_repr)
        return "outside length" if len(text) > LIMIT else f"s{spelled(text)} new"
    return call


def of_class(asked):
    """What is asked has to be a class, also of an empty tuple."""
    def call(row, a, b):
        if asked is issubclass and not isinstance(a, type):
            return f"TypeError: {BAD}"
        if isinstance(b, tuple) and tuples_around(b) > DEPTH:
            return TOO_DEEP
        try:
            return row.shown(asked(a, b))
        except TypeError:
            return f"TypeError: {BAD}"
    return call


def tuples_around(value):
    depth = 0
    while isinstance(value, tuple):
        depth += 1
        value = value[0] if value else None
    return depth


NAMED = ("__cause__", "__context__", "__name__", "args")


def attribute(row, a, name, *default):
    """A method of a builtin value is a new object that is bound to it. What the name of a function is isn't known."""
    if not isinstance(name, str):
        return f"TypeError: {BAD}"
    if not hasattr(a, name):
        return row.shown(default[0]) if default else f"AttributeError: '{row.class_name(a)}' object has no attribute '{name}'"
    if name == "__name__" and isinstance(a, types.FunctionType):
        return FEATURE
    value = getattr(a, name)
    return f"method({row.item(a)}) new" if isinstance(value, types.BuiltinMethodType) else row.shown(value)


def has_attribute(row, a, name):
    if not isinstance(name, str):
        return f"TypeError: {BAD}"
    return row.shown(hasattr(a, name))


CALLS = {"print": (2, 9, printed), "len": (1, 1, length), "repr": (1, 1, written("repr", True)), "str": (0, 1, written("str", False)),
         "int": (0, 1, integer), "bool": (0, 1, told_truth), "range": (1, 3, ranged), "iter": (1, 1, iterator),
         "next": (1, 2, lambda row, *vs: next_of(row, "StopIteration", *vs)), "abs": (1, 1, numbers(lambda row, a: row.shown(abs(a)))),
         "divmod": (2, 2, division), "ord": (1, 1, code), "chr": (1, 1, char), "type": (1, 1, lambda row, a: row.shown(type(a))),
         "isinstance": (2, 2, of_class(isinstance)), "issubclass": (2, 2, of_class(issubclass)),
         "hasattr": (2, 2, has_attribute), "getattr": (2, 3, attribute),
         "callable": (1, 1, lambda row, a: row.shown(callable(a)))}


def answered(row):
    kind, values = row.kind, row.values
    sign = kind[1:].replace("_", " ")
    if kind.startswith("call_"):
        least, most, call = CALLS.get(kind[5:], (9, 0, None))
        return call(row, *values) if least <= len(values) <= most else FEATURE
    if kind in ("tuple", "list"):
        return row.shown((tuple if kind == "tuple" else list)(values))
    if kind == "item":
        return item(row, *values)
    if kind == "iter":
        return iterator(row, *values)
    if kind == "next":
        return next_of(row, "end", *values)
    if kind.startswith("unpack"):
        return unpacked(row, int(kind[6:]), *values)
    if kind == "truth":
        return told_truth(row, *values)
    if kind == "not":
        told = turned(truth(row, *values))
        return told if isinstance(told, str) else row.shown(told)
    if kind[0] == "u":
        return unary(row, sign, *values)
    if kind[0] == "c":
        return comparison(row, sign, *values)
    return (in_place if kind[0] == "i" else binary)(row, sign, *values)


def answer(line):
    row = Row(line)
    try:
        told = answered(row)
    except Other as other:
        told = str(other)
    unpacks = row.kind.startswith("unpack")
    if unpacks or row.kind in ("next", "call_next") or row.kind[0] == "i" and row.kind not in ("item", "iter"):
        if row.values and isinstance(row.values[0], Iterator if unpacks else (list, Iterator)):
            told += f" | {row.made(row.values[0])}"
    return told


SIMPLE = ["n", "t", "f", "i0", "i5", "i-3", "e", "N", "s", "sab", "s\u20ac", "F", "G", "P", "O", "M"]
NUMBERS = [0, 1, -1, 2, -2, 3, 7, -7, 10, 63, 64, 126, 127, 128, -128, 255, 2 ** 63, -(2 ** 64), 10 ** 20, 2 ** 126, -(2 ** 126),
           GREATEST, GREATEST - 1, LEAST, LEAST + 1]
OTHERS = [*COMPOUND, *INSTANCES]
COMPARED = ["oD", "oDe", "oDk", "oDl", "oDv", "oDx", "oLa", "oLb", "oLc", "oG", "oGa", "oGb", "oGc", "oGd", "oGm"]
HOLDERS = [word for word in OBJECTS if word[0] == "o" and word[:2] != "oK" and word not in COMPARED]
TEXTS = ["s", "sa", "sab", "sb", "s\u20ac", "sa\u20acb", "sA", "sabc", "s'", "s\"", "s'\"", "s\\", "s\u00e9\u00a0\u00ad\x7f", "s\u0100\ud7ff\U0001f600", "sh\u00e9"]


# what `int` reads, and what it doesn't
INTEGER_TEXTS = [*(f"u{n}" for n in NUMBERS), "s_12_", "s__-7", "s_+_7", "s-_7", "s+7", "s+-7", "s--7", "s+", "s-", "s1_2", "u1_000", "u_1", "u1_", "u1__0", "u-1_0",
                 "u-_1", "u+0_0", "u007", "u0x1f", "u1.5", "u1e3", "u\t5\x1c", "u\u2003\x1f6\xa0", "u\u200b6", "u\u0663", "u\xb2", "u170141183460469231731687303715884105728",
                 "u-170141183460469231731687303715884105729", "u340282366920938463463374607431768211456", "u" + "9" * 60, "u" + "9" * 60 + "x",
                 "u-" + "9" * 60, "u" + "0" * 90 + "8", "u" + "1_" * 30 + "1"]


def operations():
    yield from (f"b{sign}" for sign in BINARY)
    yield from (f"c{sign.replace(' ', '_')}" for sign in COMPARISONS)


def of_one():
    """Operations of one operand."""
    yield from ("truth", "not", "iter", "next", "unpack0", "unpack1", "unpack2", "unpack3")
    yield from (f"u{sign}" for sign in UNARY)
    yield from (f"call_{name}" for name in [*CALLS, "object"] if name != "print")


def all_rows():
    """Each operator at each pair of kinds, and integers at the ends of their range."""
    for kind in operations():
        for a in SIMPLE:
            for b in SIMPLE:
                yield f"{kind} {a} {b}"
        for a in NUMBERS:
            for b in NUMBERS:
                yield f"{kind} i{a} i{b}"
        for a in [*OTHERS, *HOLDERS]:
            for b in ["n", "i1", "sa", "F", "t", *OTHERS, *HOLDERS]:
                yield f"{kind} {a} {b}"
                yield f"{kind} {b} {a}"
        if kind[0] == "c":
            for a in TEXTS:
                for b in TEXTS:
                    yield f"{kind} {a} {b}"
    for sign in BINARY:
        for a in [*SIMPLE, *OTHERS, *HOLDERS]:
            for b in ["n", "t", "i3", "i0", "i-1", "sa", "L", "X", "oA", "oT", "oC", "R", "D", "oX"]:
                yield f"i{sign} {a} {b}"
    for word in [*SIMPLE, *OTHERS, *HOLDERS, *TEXTS, "C", "d3", *(f"i{n}" for n in NUMBERS)]:
        for kind in of_one():
            if word != "C" or kind[0] != "u":
                yield f"{kind} {word}"
        yield f"call_print n n {word}"
    for a in ["L", "T", "R", "D", "V", "X", "oA", "oT", "oR", "oN", "oK", "oW", "oC", "oX", "sh\u00e9", "s", "n", "F"]:
        for b in [*(f"i{n}" for n in (0, 1, 2, 3, 4, -1, -2, -3, -4, -5, GREATEST, LEAST)), "t", "n", "sa", "oL", "L", "X"]:
            yield f"item {a} {b}"
    for a in [*SIMPLE, "C", *OTHERS, *HOLDERS]:
        for b in ["C", "T", "oT", "oW", "oY", "oKa", "oKb", "oKc", "oKd", "oKe", "k3", "i1", "sa", "n", "X", "L", "P"]:
            yield f"call_isinstance {a} {b}"
            yield f"call_issubclass {a} {b}"
    yield from compared_rows()
    for a in [*SIMPLE, "C", *OTHERS, "oA", "oT", "oR", "oC", "oD"]:
        for name in ("sappend", "sget", "sadd", "sjoin", "snothing", "s", "i1", "n"):
            yield from (f"call_hasattr {a} {name}", f"call_getattr {a} {name}", f"call_getattr {a} {name} i7")
    for a in ("C", "E", "F", "Y", "i5"):
        for name in NAMED:
            yield from (f"call_hasattr {a} u{name}", f"call_getattr {a} u{name}", f"call_getattr {a} u{name} i7")
    for text in INTEGER_TEXTS:
        yield f"call_int {text}"
    for words in ("", " n", " i1 sab", " oA oA", " X t", " L T D S R"):
        yield f"tuple{words}"
        yield f"list{words}"
    source = random.Random(5)
    every = [*SIMPLE, "C", *OTHERS, *HOLDERS, *TEXTS]
    for _ in range(400):
        ends = source.choices(["n", "s", "s,", "s_|_", "i1", "oT"], [9, 3, 4, 3, 1, 1], k=2)
        yield " ".join(["call_print", *ends, *source.choices(every if source.random() < 0.3 else [*SIMPLE, "oA", "oW", "oR", "oS", "oO"], k=source.randrange(0, 5))])
    for _ in range(300):
        yield " ".join([source.choice(["tuple", "list"]), *source.choices(every, k=source.randrange(1, 6))])
    for name in ("range", "divmod", "next", "int", "str", "bool"):
        for _ in range(120):
            words = source.choices(["i0", "i1", "i-2", "i7", f"i{GREATEST}", f"i{LEAST}", "t", "n", "sa", "oC", "oZ", "oV", "oH", "X", "oA"], k=source.randrange(0, 5))
            yield " ".join([f"call_{name}", *words])
    for number in (-1, 0, 10, 127, 128, 0x7ff, 0x800, 0xd7ff, 0xd800, 0xdfff, 0xe000, 0xffff, 0x10000, 0x10ffff, 0x110000, 2 ** 64):
        yield f"call_chr i{number}"
    for text in ("\x00", "\x7f", "\u0080", "\u07ff", "\u0800", "\uffff", "\U00010000", "\U0010ffff"):
        yield f"call_ord s{text}"


def compared_rows():
    """Dictionaries, slices, lists and tuples beside one another and beside other containers."""
    for kind in ("c==", "c<", "c!=", "c<=", "c>", "c>=", "cin"):
        for a in COMPARED:
            for b in [*COMPARED, "oA", "oI", "oJ", "oQ", "oU", "oW", "L", "T", "D", "oX", "X", "n", "oL"]:
                yield f"{kind} {a} {b}"


def deep_rows():
    """Containers that stand as deep inside one another as may be, and deeper."""
    for a in (999, 1000, 1001):
        yield from (f"{kind} d{a} d{b}" for kind in ("c==", "c!=", "cin", "cis", "c<", "c>=") for b in (999, 1000, 1001))
        yield from (f"call_isinstance {value} k{a}" for value in ("i1", "n"))
        yield from (f"{kind} d{a}" for kind in ("truth", "call_repr", "call_str", "call_len", "call_print n n", "iter", "unpack2"))
        yield f"c== d{a} oS"


def long_rows():
    yield f"b+ s*{LIMIT - 1}*a s\u20ac"
    yield f"b+ s*{LIMIT}*a sb"
    yield f"b+ s*{LIMIT // 2}*\u20ac s*{LIMIT // 2}*a"
    yield f"b+ s*{LIMIT // 2}*\u20ac s*{LIMIT // 2 + 1}*a"
    yield f"c== s*{LIMIT}*a s*{LIMIT}*a"
    yield f"c!= s*{LIMIT}*a s*{LIMIT - 1}*a"
    yield f"b* s\u20aca i{LIMIT // 2}"
    yield f"b* i{LIMIT // 2 + 1} s\u20aca"
    yield f"call_print n n s*{LIMIT - 1}*a"
    yield f"call_print n n s*{LIMIT}*a"
    yield f"call_repr s*{LIMIT - 2}*a"
    yield f"call_repr s*{LIMIT - 1}*a"
    yield f"b* L i{ENTRIES + 1}"
    yield f"i* L i{ENTRIES + 1}"


def rows():
    """A part of them by chance, and those that are few."""
    source = random.Random(12)
    for row in all_rows():
        kind = row.split(" ")[0]
        few = kind not in FREQUENT and (kind[0] != "i" or kind in ("item", "iter", "i+", "i*"))
        if few or source.random() < 0.08:
            yield row
    yield from (row for row in compared_rows() if row.split(" ")[0] in ("c==", "c<") or source.random() < 0.08)
    yield from deep_rows()
    yield from long_rows()


FREQUENT = {*operations()}


def main():
    warnings.simplefilter("ignore")
    lines = list(dict.fromkeys(rows()))
    (CRATE / "data" / "rows.txt").write_text("".join(line + "\n" for line in lines), "utf-8", newline="\n")
    (CRATE / "stdout").write_text("".join(answer(line) + "\n" for line in lines), "utf-8", newline="\n")
    print(len(lines), "rows")


if __name__ == "__main__":
    main()
