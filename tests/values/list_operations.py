"""Runs the definitions of operations that change lists, and of attributes of builtin values, beside CPython, over each row of lists.py.

Run with CPython 3.12 in this folder.
"""

import sys
from pathlib import Path

import lists

HERE = Path(__file__).resolve().parent
sys.path.insert(0, str(HERE.parent / "run"))
import definitions
from definitions import items, listed, number
from operations import CRATES, CLASSES, ERRORS, SCRIPTED, Heap
import prims


HELPERS = {"ExtendOf": "extend", "SortOf": "sort"}


class RowHeap(Heap):
    """The objects of a row."""

    def __init__(self, row):
        self.objects = [("Module", ("Sys",))] * 50
        for place, name in [*enumerate(CLASSES), *ERRORS.items(), (33, "AttributeError"), *((place, name) for name, place in SCRIPTED.items())]:
            names = {"name": listed(name.encode()), "scripted": name in SCRIPTED, "names": (), "base": ("None",)}
            self.objects[place] = ("Class", names)
        self.known, self.places = {id(int): (2, int)}, {}
        self.values = [self.value(v) for v in row.values]

    def object_of(self, thing):
        if isinstance(thing, (prims.Scripted, prims.ScriptedError)):
            kind = "Instance" if isinstance(thing, prims.Scripted) else "Error"
            return (kind, {"class": {"0": SCRIPTED[type(thing).__name__]}, "names": ()})
        made = super().object_of(thing)
        return (made[0], {**made[1], "names": (), "args": ()}) if made[0] in ("Instance", "Error") else made

    def put(self, thing):
        if isinstance(thing, str):
            return self.add(("Str", listed(thing.encode())))
        return super().put(thing)


class Rows:
    def __init__(self):
        self.all = definitions.load(str(CRATES))
        get = lambda crate, module, name: self.all.get(f"Rattle.{crate}.specs.{module}", name)
        self.set_item = get("pt_list_changes", "Items", "set_item_content")
        self.delete_item = get("pt_list_changes", "Items", "delete_item_content")
        self.list_add = get("pt_list_changes", "Items", "list_add_content")
        self.method = get("pt_methods", "Methods", "method_content")
        self.attribute = get("pt_methods", "Attributes", "attribute_of")
        self.placed = get("pt_prims", "Operations", "placed")
        self.grown = get("pt_prims", "Operations", "grown")

    def content(self, kind, values, heap):
        if kind == "set_item":
            return self.set_item(heap, *values)
        if kind == "delete_item":
            return self.delete_item(heap, *values)
        if kind == "list_add":
            return self.list_add(heap, *values)
        return self.method((kind[2:].capitalize(),), listed(values), heap)

    def answer(self, line):
        self.row = row = lists.Row(line)
        self.heap = heap = RowHeap(row)
        before = listed(heap.objects)
        if row.kind[:2] == "a_":
            attribute = self.attribute(before, heap.values[0], listed(row.kind[2:].encode()))
            return {"Method": lambda: f"method {attribute[1][0].lower()}", "Missing": lambda: "missing", "Unbuilt": lambda: "outside feature"}[attribute[0]]()
        content = self.content(row.kind, heap.values, before)
        answer = self.placed(content, listed(heap.values), before)
        self.after = items(self.grown(content, before))
        self.count = len(heap.objects)
        told = self.told(answer)
        changing = heap.values[1 if row.kind == "set_item" else 0]
        place = changing[1]["0"] if changing[0] == "Obj" else None
        assert all(i == place for i in range(self.count) if self.after[i] != heap.objects[i])
        if place is not None and self.after[place][0] == "List":
            told += f" | {self.shown(changing)}"
        return told

    @staticmethod
    def text(codes):
        return bytes(items(codes)).decode()

    def shown(self, value, depth=4):
        if value[0] != "Obj":
            return {"None": "n", "Bool": "tf"[value[1:] == (False,)], "Ellipsis": "e"}.get(value[0]) or f"i{number(value[1])}"
        kind, what = self.after[value[1]["0"]]
        if kind == "Str":
            return "s" + prims.spelled(self.text(what))
        if kind in ("List", "Tuple"):
            if depth == 0:
                return ".."
            inner = " ".join(self.shown(v, depth - 1) for v in items(what))
            return f"{'[' if kind == 'List' else '('} {inner}{' ' if inner else ''}{']' if kind == 'List' else ')'}"
        thing = next(t for place, t in self.heap.known.values() if place == value[1]["0"])
        return next(word for word, other in self.row.others.items() if other is thing)

    def value(self, value):
        if value[0] == "Obj" and value[1]["0"] >= self.count:
            return self.shown(value) + " new"
        return self.shown(value)

    def told(self, answer):
        if answer[0] == "Value":
            return self.value(answer[1])
        if answer[0] == "Raise":
            assert answer[2] == ("Some", ("Obj", {"0": self.count}))
            return f"{self.text(self.after[answer[1]['0']][1]['name'])}: {self.text(self.after[-1][1])}"
        assert len(self.after) == self.count
        if answer[0] == "Help":
            assert not answer[3]
            return f"help {HELPERS[answer[1][0]]}"
        return f"outside {answer[1][0].lower()}"


def main():
    sys.setrecursionlimit(100_000)
    rows, count, wrong = Rows(), 0, 0
    for line in dict.fromkeys(lists.all_rows()):
        count += 1
        got, wanted = rows.answer(line), lists.answer(line)
        if got != wanted:
            wrong += 1
            if wrong < 60:
                print(f"{line}: {got}, and not {wanted}")
    print(f"{count} rows, {wrong} differ")
    return 1 if wrong else 0


if __name__ == "__main__":
    sys.exit(main())
