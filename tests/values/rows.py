"""Writes the tables of test_values, and what CPython answers to their rows.

Run with CPython 3.12 in this folder.
"""

import random
import types
from pathlib import Path

CRATE = Path(__file__).resolve().parent.parent.parent / "crates" / "test_values"
# the most entries of a dictionary, and the most that are shown
LIMIT = 4_194_304
SHOWN = 1_000
KEYS = ["0", "False", "1", "True", "2", "3", "-1", "7", "-170141183460469231731687303715884105728",
        "170141183460469231731687303715884105727"]


def spelled(value):
    return "-" if value is None else str(value)


def entry(table, number):
    items = list(table.items())
    return f"{items[number][0]}={items[number][1]}" if number < len(items) else "-"


def answer(table, word):
    if word == "t":
        return ""
    kind, rest = word.split(":", 1)
    if kind == "s":
        key, value = (eval(part) for part in rest.split(":"))
        if key not in table and len(table) == LIMIT:
            return "Length"
        old = table.get(key)
        table[key] = value
        return spelled(old)
    if kind == "g":
        return spelled(table.get(eval(rest)))
    if kind == "d":
        return spelled(table.pop(eval(rest), None))
    if kind == "f":
        table.update((number, number) for number in range(int(rest)))
        return ""
    return entry(table, int(rest))


def dict_answers(row):
    table, line = {}, ""
    for word in row.split():
        if word == "c":
            table = dict(table)
        else:
            line += answer(table, word)
        line += " "
    if len(table) > SHOWN:
        return f"{line}| {len(table)} entries"
    return line + "|" + "".join(f" {key}={value}" for key, value in table.items())


def random_word(source):
    kind = source.choice("sssssgdddaact")
    key = source.choice(KEYS)
    if kind == "s":
        return f"s:{key}:{source.choice(['True', 'False', str(source.randrange(-9, 99))])}"
    if kind in "gd":
        return f"{kind}:{key}"
    return kind if kind in "ct" else f"a:{source.randrange(8)}"


def dict_rows():
    queue = " ".join(f"s:{i}:{i}" for i in range(40)) + " " + " ".join(f"d:{i} a:0 a:1" for i in range(39))
    middle = " ".join(f"s:{i}:{i}" for i in range(40)) + " " + " ".join(f"d:{i} a:0 a:1 a:9" for i in range(1, 40, 2))
    again = "s:1:1 s:2:2 s:3:3 " + " ".join(f"d:{i % 3 + 1} s:{i % 3 + 1}:{i} a:0 a:2" for i in range(60))
    last = " ".join(f"s:{i}:{i}" for i in range(20)) + " " + " ".join(f"d:{i} a:0 a:{i}" for i in range(19, -1, -1))
    turned = "s:1:5 s:True:6 a:0 d:1 s:True:7 s:1:8 a:0 s:0:1 s:False:2 a:1"
    # as many entries as there may be, and one more; then with one taken out
    full = f"f:{LIMIT} s:0:5 s:{LIMIT}:1 g:{LIMIT} d:1 s:{LIMIT}:1 s:{LIMIT + 1}:2 s:1:1 a:0 a:1 a:{LIMIT - 1} g:{LIMIT - 1}"
    yield from ["", "g:1", "d:1", "a:0", "t", "c", queue, middle, again, last, turned, full]
    source = random.Random(20)
    for _ in range(130):
        yield " ".join(random_word(source) for _ in range(source.randrange(1, 60)))


def text_rows():
    texts = ["", "a", "abc", "\u00e9", "a\u00e9b", "\u20ac", "x\u20acy", "\U0001f600", "a\U0001f600b\U0001f600",
             "\u007f\u0080", "\u07ff\u0800", "\uffff\U00010000\U0010ffff", "plain words in a row", "e\u0301"]
    for text in texts:
        for place in {0, 1, 2, 3, len(text), len(text) + 1}:
            yield place, text


def spelled_item(word):
    if word.lstrip("-").isdigit():
        return int(word)
    return {"None": None, "True": True, "False": False}.get(word, word)


def set_answers(row):
    """The items in order, as the definition has them, where they are those of CPython's own operation."""
    operator, rest = row.split(" ", 1)
    first, second = (list(dict.fromkeys(spelled_item(word) for word in part.split())) for part in rest.split(","))
    common, alone = [x for x in first if x in second], [x for x in first if x not in second]
    others = [x for x in second if x not in first]
    items = {"|": first + others, "&": common, "-": alone, "^": alone + others}[operator]
    assert set(items) == eval(f"set(first) {operator} set(second)") and len(set(items)) == len(items)
    return "".join(f"{item} " for item in items)


def set_rows():
    words = ["0", "1", "2", "3", "-7", "True", "False", "None", "a", "b", "\u20ac", "170141183460469231731687303715884105727"]
    source = random.Random(9)
    for operator in "|&-^":
        for first, second in [("", ""), ("1 a", ""), ("", "1 a"), ("1 2 3", "3 2 1"), ("1 0", "True False"), ("True", "1 2")]:
            yield f"{operator} {first} , {second}"
        for _ in range(16):
            parts = [" ".join(source.choice(words) for _ in range(source.randrange(9))) for _ in "ab"]
            yield f"{operator} {parts[0]} , {parts[1]}"


class Scene:
    """The values of a row of attributes."""

    def __init__(self):
        self.named = {"object": object, "int": int, "Exception": Exception, "text": "", "list": [], "dict": {}, "set": set()}
        self.functions = {}

    def value(self, word):
        if word in self.named:
            return self.named[word]
        if word.lstrip("-").isdigit():
            return int(word)
        if word not in self.functions:
            self.functions[word] = eval("lambda self: None")
            self.functions[word].__name__ = word
        return self.functions[word]

    def shown(self, value, receiver):
        if isinstance(value, types.MethodType):
            assert value.__self__ is receiver
            return "m" + value.__func__.__name__[1:]
        return value.__name__ if isinstance(value, (types.FunctionType, type)) else str(value)

    def found(self, target, name, receiver):
        if name in UNBUILT.get(type(target), ()) or name == "__dict__":
            assert name == "__dict__" or hasattr(target, name)
            return "unbuilt"
        try:
            return self.shown(getattr(target, name), receiver)
        except AttributeError:
            return "-"

    def answer(self, word):
        kind, first, *rest = word.split(":")
        if kind == "n":
            last = self.named["A"]
            for _ in range(int(first)):
                last = type("Z", (last,), {})
            self.named["Z"] = last
            return ""
        if kind == "c":
            self.named[first] = type(first, (self.value(rest[0]),), {})
            return ""
        if kind in "ie":
            self.named[first] = self.value(rest[0])()
            return ""
        if kind == "p":
            instance = self.value(first)()
            return self.found(super(self.value(first), instance), rest[0], instance)
        target = self.value(first)
        if kind == "l":
            return self.found(target, rest[0], target)
        try:
            if kind == "s":
                setattr(target, rest[0], self.value(rest[1]))
            else:
                delattr(target, rest[0])
            return "ok"
        except (AttributeError, TypeError):
            return "-"


UNBUILT = {str: ["upper", "lower", "title", "zfill", "encode", "format", "rsplit", "__len__"], list: ["__len__"],
           dict: ["fromkeys", "popitem", "__len__"], set: ["union", "pop", "issubset", "__len__"]}


def attribute_answers(row):
    scene = Scene()
    return "".join(scene.answer(word) + " " for word in row.split())


def attribute_rows():
    chain = "c:A:object c:B:A c:C:B i:x:C"
    yield f"{chain} s:A:a:1 l:x:a s:B:a:2 l:x:a s:C:a:3 l:x:a s:x:a:4 l:x:a d:x:a l:x:a d:C:a l:x:a d:B:a l:x:a d:A:a l:x:a"
    yield f"{chain} s:A:f:f1 l:x:f l:C:f l:A:f p:C:f p:B:f p:A:f s:x:f:f2 l:x:f"
    yield f"{chain} s:x:f:f1 l:x:f l:C:f d:x:f d:x:f l:x:f"
    yield f"{chain} s:A:k:B l:x:k l:C:k l:B:k d:x:k d:C:k l:x:k d:A:k l:x:k"
    yield f"{chain} l:x:__dict__ l:A:__dict__ l:x:none l:A:none p:A:none p:C:none"
    yield "c:A:object n:999 i:x:Z s:A:f:f7 l:Z:f l:x:f p:Z:f s:Z:f:f8 l:x:f d:Z:f l:x:f d:A:f l:x:f"
    yield "c:A:Exception c:B:A e:x:B s:A:f:f1 s:x:a:5 l:x:f l:x:a d:x:a l:x:a p:B:f p:A:f l:B:f d:B:f d:A:f l:x:f"
    yield "c:A:int i:x:A s:A:f:f3 l:x:f s:x:a:1 l:x:a p:A:f"
    yield "s:int:a:1 d:int:a l:int:a s:object:a:1 d:object:a l:object:a s:5:a:1 d:5:a l:5:a"
    yield "s:Exception:a:1 d:Exception:a l:Exception:a"
    for word, kind in [("text", str), ("list", list), ("dict", dict), ("set", set)]:
        yield " ".join(f"l:{word}:{name}" for name in [*UNBUILT[kind], "nosuch", "a"]) + f" s:{word}:a:1 d:{word}:a"
    source = random.Random(31)
    for _ in range(40):
        classes, instances, words = ["A"], [], [f"c:A:{source.choice(['object', 'Exception'])}"]
        error = words[0].endswith("Exception")
        for _ in range(source.randrange(12, 40)):
            kind = source.choice("cissssdllllpp")
            name, target = source.choice("abfg"), source.choice(classes + instances * 2)
            if kind == "c" and len(classes) < 5:
                classes.append(chr(ord("A") + len(classes)))
                words.append(f"c:{classes[-1]}:{source.choice(classes[:-1])}")
            elif kind == "i" and len(instances) < 4:
                instances.append("xyzw"[len(instances)])
                words.append(f"{'e' if error else 'i'}:{instances[-1]}:{source.choice(classes)}")
            elif kind == "s":
                words.append(f"s:{target}:{name}:{source.choice(['f1', 'f2', 'f3', '4', '-5', source.choice(classes)])}")
            elif kind in "dl":
                words.append(f"{kind}:{target}:{name}")
            elif kind == "p":
                words.append(f"p:{source.choice(classes)}:{name}")
        yield " ".join(words)


def main():
    lines, answers = [], []
    for row in set_rows():
        lines.append(f"set {row}")
        answers.append(set_answers(row))
    for row in attribute_rows():
        lines.append(f"attr {row}")
        answers.append(attribute_answers(row))
    for row in dict_rows():
        lines.append(f"dict {row}")
        answers.append(dict_answers(row))
    for place, text in text_rows():
        lines.append(f"text {place} {text}")
        answers.append(f"{len(text)} {ord(text[place]) if place < len(text) else '-'}")
    (CRATE / "data" / "rows.txt").write_text("".join(line + "\n" for line in lines), "utf-8", newline="\n")
    (CRATE / "stdout").write_text("".join(line + "\n" for line in answers), "utf-8", newline="\n")


main()
