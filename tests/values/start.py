"""The table of the objects that a run starts with (pt_builtin_objects) beside CPython: each class has the base that it has there, each
function and mark is where CPython has it, and no name of a sort stands twice. Run with CPython 3.12.
"""

import builtins
import re
import sys
import types
from pathlib import Path

TABLE = Path(__file__).resolve().parent.parent.parent / "crates" / "pt_builtin_objects" / "src" / "lib.rt"
ROW = re.compile(r'^    \("(\w+)", Kind::(\w+)(?:\((.*)\))?\),$', re.M)
# what has no name in `builtins`; all iterators of a run are of one class
CLASSES = {
    "NoneType": types.NoneType, "ellipsis": types.EllipsisType, "NotImplementedType": types.NotImplementedType,
    "function": types.FunctionType, "method": types.MethodType, "builtin_function_or_method": types.BuiltinFunctionType,
    "generator": types.GeneratorType, "frame": types.FrameType, "code": types.CodeType, "module": types.ModuleType,
    "dict_keys": type({}.keys()), "dict_values": type({}.values()), "dict_items": type({}.items()), "iterator": type(iter([])),
}
MODULES = {"sys": sys.modules, "monitoring": vars(sys), "events": vars(sys.monitoring)}


def class_named(name):
    return CLASSES.get(name) or getattr(builtins, name)


def home_of(name):
    """The first of the builtins, `sys` and `sys.monitoring` that has a name."""
    return next(it for it in (builtins, sys, sys.monitoring) if hasattr(it, name))


def events():
    """The names by which a trace function is told of the events of a call that raises."""
    told = []

    def trace(frame, event, arg):
        told.append(event)
        return trace

    def fail():
        raise ValueError

    sys.settrace(trace)
    try:
        fail()
    except ValueError:
        pass
    sys.settrace(None)
    return set(told)


def main():
    rows = ROW.findall(TABLE.read_text("utf-8"))
    names = {}
    for place, (name, kind, rest) in enumerate(rows):
        if kind == "Class":
            base = class_named(name).__base__
            number = re.search(r"ObjId\((\d+)\)", rest)
            assert (base and base.__name__) == (number and rows[int(number[1])][0]), name
            assert class_named(name).__name__ == name or name == "iterator", name
            assert number is None or int(number[1]) < place, name
        elif kind in ("Function", "Mark"):
            home = home_of(name)
            assert callable(getattr(home, name)) == (kind == "Function"), name
        elif kind == "Module":
            assert name in MODULES[name] and rest == f"Module::{name.capitalize()}", name
        names.setdefault(kind, []).append(name)
    assert all(len(set(it)) == len(it) for it in names.values())
    assert events() | {"__main__"} <= set(names["Text"]) and len(names["Text"]) == 5, names["Text"]
    numbers = [int(rest) for _, kind, rest in rows if kind == "Function"]
    assert numbers == list(range(len(numbers))), numbers
    print(len(rows), "objects")


main()
