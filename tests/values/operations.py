"""Runs the definitions of operations on values beside CPython, over each row that prims.py can write.

Run with CPython 3.12 in this folder.
"""

import builtins
import sys
import warnings
from pathlib import Path

import prims

HERE = Path(__file__).resolve().parent
sys.path.insert(0, str(HERE.parent / "run"))
import definitions
from definitions import integer, items, listed, number, value_of

OPERATORS = {"+": "Add", "-": "Sub", "*": "Mul", "/": "Div", "//": "FloorDiv", "%": "Mod", "**": "Pow", "&": "BitAnd", "|": "BitOr",
             "^": "BitXor", "<<": "LeftShift", ">>": "RightShift"}
UNARY = {"+": "Plus", "-": "Minus", "~": "Invert"}
COMPARISONS = {"<": "Less", "<=": "LessEqual", ">": "Greater", ">=": "GreaterEqual", "==": "Equal", "!=": "NotEqual", "in": "In",
               "not in": "NotIn", "is": "Is", "is not": "IsNot"}
HELPERS = {"TruthOf": "truth", "PrintOf": "print", "StrOf": "str", "ReprOf": "repr", "LenOf": "len", "IterOf": "iter", "NextOf": "next",
           "NextOrOf": "next_or", "InOf": "in", "SameOf": "same", "PairsOf": "pairs", "ExtendOf": "extend"}

CRATES = HERE.parent.parent / "crates"
# the classes that a run starts with, as far as they are asked for here
CLASSES = ("object type int bool str list tuple set dict range slice NoneType ellipsis NotImplementedType function method "
           "builtin_function_or_method generator frame code module super dict_keys dict_values dict_items iterator").split()
ERRORS = {31: "ZeroDivisionError", 33: "AttributeError", 37: "IndexError", 38: "KeyError", 43: "RecursionError", 44: "StopIteration", 45: "TypeError", 46: "ValueError"}
SCRIPTED = {"Scripted": 48, "ScriptedError": 49}


def base_of(name):
    """The base of a class, of `bool` alone: no row asks for another."""
    return ("Some", {"0": CLASSES.index("int")}) if name == "bool" else ("None",)


class Heap:
    """The objects of a row: those of the start, one for each word of OBJECTS, and what those hold."""

    def __init__(self, coded):
        self.coded, self.objects = coded, [("Module", ("Sys",))] * 50
        for place, name in [*enumerate(CLASSES), *ERRORS.items(), *((place, name) for name, place in SCRIPTED.items())]:
            self.objects[place] = ("Class", {"name": listed(name.encode()), "scripted": name in SCRIPTED, "base": base_of(name), "names": ()})
        self.places = {"C": 2}
        self.known = {id(getattr(builtins, name)): (place, name) for place, name in enumerate(CLASSES) if hasattr(builtins, name)}
        named = prims.objects()
        for word, thing in named.items():
            if word != "C":
                self.places[word] = self.put(thing)

    def add(self, thing):
        self.objects.append(thing)
        return len(self.objects) - 1

    def put(self, thing):
        """The place of a thing of CPython, once it has one."""
        if id(thing) in self.known:
            return self.known[id(thing)][0]
        place = self.add(None)
        self.known[id(thing)] = (place, thing)
        self.objects[place] = self.object_of(thing)
        return place

    def object_of(self, thing):
        if isinstance(thing, str):
            return ("Str", listed(thing.encode()))
        if isinstance(thing, (list, tuple)):
            return (type(thing).__name__.capitalize(), listed([self.value(x) for x in thing]))
        if isinstance(thing, range):
            return ("Range", {"start": integer(thing.start), "stop": integer(thing.stop), "step": integer(thing.step)})
        if isinstance(thing, slice):
            return ("Slice", {name: self.value(getattr(thing, name)) for name in ("start", "stop", "step")})
        if isinstance(thing, dict):
            return ("Dict", listed([{"key": self.coded(self, key), "first": self.value(key), "value": self.value(value)} for key, value in thing.items()]))
        if isinstance(thing, prims.Iterator):
            over = ("None",) if thing.over is None else ("Some", {"0": self.put(thing.over)})
            return ("Cursor", {"over": over, "place": thing.place, "count": 0})
        if isinstance(thing, (prims.Scripted, prims.ScriptedError)):
            return ("Instance" if isinstance(thing, prims.Scripted) else "Error", {"class": {"0": SCRIPTED[type(thing).__name__]}, "args": (), "cause": ("None",), "context": ("None",), "names": ()})
        return {set: ("Set", ()), type({}.keys()): ("View", {"part": ("Keys",), "dict": {"0": self.places.get("D", 0)}}),
                ValueError: ("Error", {"class": {"0": 46}, "args": (), "cause": ("None",), "context": ("None",), "names": ()}), type(prims.first): ("Function", {"hidden": False}), type(print): ("Builtin", {}),
                object: ("Instance", {"class": {"0": 0}, "names": ()}), type(sys): ("Module", ("Sys",))}[type(thing)]

    def value(self, thing):
        return value_of(thing, self.put)


class Rows:
    def __init__(self):
        self.all = definitions.load(str(CRATES))
        self.content = self.get("prim_answer")
        self.grown = self.get("prim_heap")

        keys = "Rattle.pt_dicts.specs.Keys"
        self.key_codes, self.key_value = self.all.get(keys, "coded"), self.all.get(keys, "key_value")

    def get(self, name):
        return self.all.get("Rattle.pt_prims.specs.Operations", name)

    def coded(self, heap, key):
        """A value of CPython as a key."""
        value = heap.value(key)
        codes = self.key_codes(self.key_value(listed(heap.objects), prims.DEPTH, value))
        assert codes[0] == "Ok", key
        return codes[1]

    @staticmethod
    def operand(word, heap):
        if word in heap.places:
            return ("Obj", {"0": heap.places[word]})
        if word[0] == "s":
            return ("Obj", {"0": heap.add(("Str", listed(word[1:].replace("_", " ").encode())))})
        if word[0] == "d":
            place = heap.add(("List", ()))
            for _ in range(int(word[1:]) - 1):
                place = heap.add(("List", listed([("Obj", {"0": place})])))
            return ("Obj", {"0": place})
        if word[0] == "u":
            return ("Obj", {"0": heap.add(("Str", listed(word[1:].encode())))})
        if word[0] == "k":
            place = CLASSES.index("int")
            for _ in range(int(word[1:])):
                place = heap.add(("Tuple", listed([("Obj", {"0": place})])))
            return ("Obj", {"0": place})
        if word[0] == "i":
            return ("Int", integer(int(word[1:])))
        return {"n": ("None",), "t": ("Bool", True), "f": ("Bool", False), "e": ("Ellipsis",), "N": ("NotImplemented",)}[word]

    @staticmethod
    def operation(kind):
        sign = kind[1:].replace("_", " ")
        if kind.startswith("call_"):
            return ("Call", (kind[5:].capitalize(),))
        if kind.startswith("unpack"):
            return ("Unpack", int(kind[6:]))
        if kind in ("truth", "not", "tuple", "list", "item", "iter", "next"):
            return (kind.capitalize(),)
        if kind[0] == "u":
            return ("Unary", (UNARY[sign],))
        if kind[0] == "c":
            return ("Compare", (COMPARISONS[sign],))
        return ("Binary" if kind[0] == "b" else "InPlace", (OPERATORS[sign],))

    def answer(self, row):
        kind, *words = row.split(" ")
        self.heap = heap = Heap(self.coded)
        operands = [self.operand(word, heap) for word in words]
        self.words = {value[1]["0"]: word for value, word in zip(operands, words) if value[0] == "Obj"}
        self.words = {**{place: word for word, place in heap.places.items()}, **self.words}
        self.before = list(heap.objects)
        before = listed(self.before)
        answer = self.content(self.operation(kind), listed(operands), before)
        self.after = items(self.grown(self.operation(kind), listed(operands), before))
        changed = [i for i, (x, y) in enumerate(zip(self.before, self.after)) if x != y]
        told = self.shown(answer)
        first = operands[0][1]["0"] if operands and operands[0][0] == "Obj" else None
        assert all(i == first for i in changed) and len(self.after) >= len(self.before)
        unpacks = kind.startswith("unpack")
        if unpacks or kind in ("next", "call_next") or kind[0] == "i" and kind not in ("item", "iter"):
            if first is not None and self.after[first][0] in (("Cursor",) if unpacks else ("List", "Cursor")):
                told += f" | {self.made(first)}"
        return told

    @staticmethod
    def text(codes):
        return bytes(items(codes)).decode()

    def item(self, value):
        if value[0] != "Obj":
            return {"None": "n", "Bool": "tf"[value[1:] == (False,)], "Ellipsis": "e", "NotImplemented": "N"}.get(value[0]) or f"i{number(value[1])}"
        place = value[1]["0"]
        if self.after[place][0] == "Str":
            return "s" + prims.spelled(self.text(self.after[place][1]))
        return self.words.get(place) or self.made(place)

    def made(self, place):
        kind, what = self.after[place]
        if kind in ("List", "Tuple"):
            return f"{kind.lower()}({','.join(map(self.item, items(what)))})"
        if kind == "Set":
            return f"set({','.join(self.item(e['first']) for e in items(what))})"
        if kind == "Range":
            return "range({},{},{})".format(*(number(what[x]) for x in ("start", "stop", "step")))
        if kind == "Builtin":
            return f"method({self.item(what['receiver'][1])})"
        assert kind == "Cursor"
        over = "nothing" if what["over"][0] == "None" else self.item(("Obj", what["over"][1]))
        return f"iterator({over},{what['place']})"

    def value(self, value):
        if value[0] == "Obj":
            place = value[1]["0"]
            if place >= len(self.before):
                return (self.item(value) if self.after[place][0] == "Str" else self.made(place)) + " new"
            if self.after[place][0] == "Class":
                return f"class {self.text(self.after[place][1]['name'])}"
        return self.item(value)

    def helper(self, helper):
        if helper[0] == "BinaryOf":
            signs = OPERATORS if helper[1][0] == "Binary" else COMPARISONS
            sign = next(s for s, name in signs.items() if name == helper[1][1][0])
            return f"{helper[1][0].lower()} {sign}"
        return f"take {helper[1]}" if helper[0] == "TakeOf" else HELPERS[helper[0]]

    def shown(self, answer):
        if answer[0] == "Value":
            return self.value(answer[1])
        if answer[0] == "Values":
            return " ".join(["values", *map(self.item, items(answer[1]))])
        if answer[0] == "Raise":
            error = self.text(self.after[answer[1]["0"]][1]["name"])
            if answer[2][0] == "None":
                return error
            if error == "KeyError":
                return f"{error}: {self.item(answer[2][1])}"
            assert answer[2] == ("Some", ("Obj", {"0": len(self.before)}))
            return f"{error}: {self.text(self.after[-1][1])}"
        if answer[0] == "End":
            return "end"
        assert len(self.after) == len(self.before)
        if answer[0] == "Help":
            return f"help {self.helper(answer[1])}" + " inverted" * answer[3]
        if answer[0] == "Print":
            return "print " + prims.spelled(self.text(answer[1]))
        return f"outside {answer[1][0].lower()}"


def is_small(row):
    """Whether the definitions can be run: powers, shifts and repetitions by greater numbers are too large to write."""
    kind, *words = row.split(" ")
    if kind[1:] == "*" and kind[0] in "bi" and any(w[0] == "i" and abs(int(w[1:])) > 300 for w in words) and any(w[0] != "i" for w in words):
        return False
    last = words[-1] if words else "n"
    return kind[1:] not in ("**", "<<", ">>") or last[0] != "i" or int(last[1:]) < 300


def main():
    warnings.simplefilter("ignore")
    sys.setrecursionlimit(20000)
    rows, count, wrong = Rows(), 0, 0
    for row in dict.fromkeys(prims.all_rows()):
        if is_small(row):
            count += 1
            got, wanted = rows.answer(row), prims.answer(row)
            if got != wanted:
                wrong += 1
                print(f"{row}: {got}, and not {wanted}")
    print(f"{count} rows, {wrong} differ")
    return 1 if wrong else 0


if __name__ == "__main__":
    sys.exit(main())
