"""Writes the table of test_text_operations, and what CPython answers to its rows; with `--definitions [STEP]`, runs the definitions of
these operations beside CPython, over more rows, or over each STEP-th.

Run with CPython 3.12 in this folder. A row is an operation and its operands, as those of prims.py: `format format_s format_r` of a value
and a spec, `join` of the parts of an f-string, `slice` of three values, `item` of a container and an index, and `m_NAME` of a method of
texts, with its text first. An operand may be a slice, `[A:B:C]` of three operands, and a tuple or list, `(A;B)` or `<A;B>` of some. What
the project has otherwise than CPython is said where it is answered.
"""

import random
import re
import sys
import warnings
from pathlib import Path

import prims
from prims import BAD, ENTRIES, FEATURE, GREATEST, LEAST, LIMIT, Other, spelled

CRATE = Path(__file__).resolve().parent.parent.parent / "crates" / "test_text_operations"
SPEC = re.compile(r"(?:(.)?([<>=^]))?([+\- ])?(0)?([0-9]*)([dxXbos])?", re.DOTALL)
ARGUMENTS = {"join": (1,), "split": (0, 1), "strip": (0, 1), "lstrip": (0, 1), "rstrip": (0, 1), "replace": (2,), "find": (1,),
             "startswith": (1,), "endswith": (1,), "count": (1,)}


class Row(prims.Row):
    def value_of(self, word):
        if word[0] == "[":
            return slice(*map(self.value_of, word[1:-1].split(":")))
        if word[0] in "(<":
            items = map(self.value_of, filter(None, word[1:-1].split(";")))
            return tuple(items) if word[0] == "(" else list(items)
        return super().value_of(word)

    def fresh(self, value):
        """A value that is always a new object here, where CPython may hand out an operand."""
        if isinstance(value, str):
            if len(value) > LIMIT:
                raise Other("outside length")
            return f"s{spelled(value)} new"
        if isinstance(value, range):
            for number in (value.start, value.stop, value.step):
                self.item(number)
        return self.made(value) + " new"


def laid(row, value, spec):
    """A sign, `=` and the types of integers are listed for integers alone, and `s` for texts."""
    match = SPEC.fullmatch(spec)
    if match is None:
        return "outside format"
    fill, align, sign, zero, width, type_ = match.groups()
    if isinstance(value, str) and (sign or align == "=" or type_ not in (None, "s")) or isinstance(value, int) and type_ == "s":
        return "outside format"
    if width and int(width) > LIMIT:
        return "outside length"
    return row.fresh(format(value, spec))


def formatted(row, conversion, value, spec):
    """What is no integer and no text is laid out as its text."""
    if spec is not None and not isinstance(spec, str):
        return f"TypeError: {BAD}"
    if spec and conversion is None and isinstance(value, int):
        return laid(row, value, spec)
    if row.needs_help(value):
        return "help repr" if conversion == "r" else "help str"
    text = prims.text_of(row, value, conversion == "r")
    if spec:
        return laid(row, text, spec)
    return row.item(value) if text is value else row.fresh(text)


def joined(row, sep, parts):
    if not all(isinstance(part, str) for part in parts):
        return f"TypeError: {BAD}"
    return row.fresh(sep.join(parts))


def item(row, a, i):
    if not isinstance(i, slice):
        told = prims.item(row, a, i)
        return f"{told} new" if isinstance(a, str) and told[0] == "s" and not told.endswith(" new") else told
    if not isinstance(a, (str, list, tuple, range)):
        return FEATURE if isinstance(a, dict) else f"TypeError: '{row.class_name(a)}' object is not subscriptable"
    try:
        return row.fresh(a[i])
    except (TypeError, ValueError) as error:
        return f"{type(error).__name__}: {BAD}"


def method(row, name, text, *arguments):
    """A list or tuple is joined here; of another value the helper makes a list."""
    if len(arguments) not in ARGUMENTS.get(name, ()):
        return FEATURE
    if name == "join":
        return joined(row, text, arguments[0]) if isinstance(arguments[0], (list, tuple)) else "help join"
    try:
        value = getattr(text, name)(*arguments)
    except (TypeError, ValueError) as error:
        return f"{type(error).__name__}: {BAD}"
    return row.fresh(value) if isinstance(value, (str, list)) else row.item(value)


def answered(row):
    kind, values = row.kind, row.values
    if kind.startswith("format"):
        return formatted(row, kind[7:] or None, *values) if len(values) == 2 else FEATURE
    if kind == "join":
        return joined(row, "", values)
    if kind == "slice":
        return f"slice({','.join(map(row.item, values))}) new"
    return item(row, *values) if kind == "item" else method(row, kind[2:], *values)


def answer(line):
    try:
        return answered(Row(line))
    except Other as other:
        return str(other)
    except RecursionError:
        return prims.TOO_DEEP


TEXTS = ["", "a", "ab", "aaa", "abab", "a,b,,c", "_a__b_", "\t_x\x1c\x1dy\x1e\x1f", "\u00a0\u2003q\u3000", "\u00e9", "e\u0301", "\u20acx\u20ac",
         "\U0001f600a\U0001f600", "\U0010ffff\ue000\ud7ff", "it's", "a\\'b\"", "plain_words_in_a_row"]
PARTS = ["", "a", "b", "ab", "aa", ",", "_", "\u20ac", "\U0001f600", "\u0301", "abc", "zz", "'"]
NUMBERS = [0, 1, -1, 5, -5, 42, -42, 255, -255, 10 ** 20, -10 ** 30, GREATEST, LEAST]
SPECS = ["", "d", "x", "X", "b", "o", "s", "5", "<5", ">5", "^5", "=5", "#<8", "#>8", "#^8", "#=8", "+", "-", "_", "+d", "-x", "_b",
         "05", "+05", "<05", "^06d", "008", "x>4X", "=>6", "<<6", "==7", "\u20ac^9", "\U0001f600>7o", "0", "00", "0=4", "{<3", "+06x", "_=+9d",
         "=", "<", "130b", "=+140b", "c", "n", "e", ",", "d_", "#x", ".3", "5.2", "+-5", "dd", "5x5", "##5", "<>^5", "z5", "!r",
         "00000000000000000000000000012d"]
OTHERS = ["n", "t", "f", "e", "N", "F", "P", "O", "M", "C", "L", "T", "D", "S", "R", "V", "E", "X", "Y", "oA", "oT", "oI", "oX", "oY", "oW",
          "oR", "oM", "oL", "oC"]
BOUNDS = ["n", "i0", "i1", "i2", "i3", "i-1", "i-2", "i-3", "i7", "i-7", f"i{GREATEST}", f"i{LEAST}", "t", "f"]
STEPS = ["n", "i1", "i2", "i3", "i-1", "i-2", "i-3", "i7", "i-7", f"i{GREATEST}", f"i{LEAST}", "i0", "t", "f", "sa", "X"]
SEQUENCES = ["s", "sa", "sab\u20acd", "s\U0001f600e\u0301fgh", "L", "T", "oA", "oT", "oI", "oW", "oX", "oR", "oM", "oN", "oK", "R"]


def format_rows(source):
    for spec in SPECS:
        for kind in ("format", "format_s", "format_r"):
            for value in [*(f"i{n}" for n in NUMBERS), *(f"s{t}" for t in TEXTS), *source.sample(OTHERS, 9)]:
                yield f"{kind} {value} s{spec}"
    for kind in ("format", "format_s", "format_r"):
        for value in ["i7", "i-3", "sab", "s", "sit's", *OTHERS]:
            for spec in ["n", "s", "s>9", "sd", "i1", "t", "L", "X"]:
                yield f"{kind} {value} {spec}"
        for value in ["oS", "d1000", "d1001"]:
            yield f"{kind} {value} n"
            yield f"{kind} {value} s>9"


def join_rows(source):
    yield "join"
    for text in TEXTS:
        yield f"join s{text}"
    for _ in range(150):
        yield " ".join(["join", *(f"s{source.choice(TEXTS)}" for _ in range(source.randrange(2, 6)))])
    for word in ["i1", "n", "L", "X"]:
        yield f"join sa {word} sb"
        yield f"join {word}"


def slice_rows(source):
    for words in ("n n n", "i1 i2 i3", "sa L X", "t n oA"):
        yield f"slice {words}"
    for a in SEQUENCES:
        for start in BOUNDS:
            for stop in BOUNDS:
                for step in source.sample(STEPS, 3):
                    yield f"item {a} [{start}:{stop}:{step}]"
        for step in STEPS:
            for start, stop in (("n", "n"), ("i1", "n"), ("n", "i-1"), ("sa", "n"), ("n", "X"), ("L", "i0"), ("e", "n")):
                yield f"item {a} [{start}:{stop}:{step}]"
        for index in ("oL", "i0", "n", "sa"):
            yield f"item {a} {index}"
    for a in ["n", "i1", "t", "F", "D", "S", "V", "E", "X", "Y", "oC", "O"]:
        for parts in ("n:n:n", "i1:i2:i0", "sa:n:n"):
            yield f"item {a} [{parts}]"


def method_rows(source):
    others = ["n", "i1", "t", "L", "T", "D", "X", "R", "oA", "oT", "oC"]
    for name in (*ARGUMENTS, "append", "index"):
        for count in range(4):
            for _ in range(4):
                yield " ".join([f"m_{name}", "sabab", *(f"s{source.choice(PARTS)}" for _ in range(count))])
        for word in others:
            yield f"m_{name} sa,b {word}"
            yield f"m_{name} sa,b {word} sa"
            yield f"m_{name} sa,b sa {word}"
        for text in TEXTS:
            yield f"m_{name} s{text}"
            for part in PARTS:
                yield f"m_{name} s{text} s{part}" + (f" s{source.choice(['', '-', '\u20ac\U0001f600', 'aa'])}" if name == "replace" else "")
    for name in ("startswith", "endswith", "join"):
        for text in TEXTS:
            for _ in range(6):
                words = [*(f"s{part}" for part in source.choices(PARTS, k=source.randrange(0, 4))), *source.choices(["", "i1", "n", "T"], [9, 1, 1, 1])]
                left, right = source.choice(["()", "<>"] if name == "join" else ["()"])
                yield f"m_{name} s{text} {left}{';'.join(filter(None, words))}{right}"


def all_rows():
    source = random.Random(3)
    for rows in (format_rows, join_rows, slice_rows, method_rows):
        yield from rows(source)


def long_rows():
    """Texts and lists at their greatest length and beyond."""
    yield f"format i5 s{LIMIT}"
    yield f"format i5 s{LIMIT + 1}"
    yield "format i5 s9223372036854775808"
    yield f"format s*{LIMIT}*a s"
    yield f"format_s s*{LIMIT}*a s<1"
    yield f"format_r s*{LIMIT - 1}*a n"
    yield f"format_r s*{LIMIT - 1}*a s9"
    yield f"join s*{LIMIT}*a s"
    yield f"join s*{LIMIT}*a sb"
    yield f"item s*{LIMIT}*a [n:n:i-1]"
    yield f"m_replace s*{LIMIT}*a sa sb"
    yield f"m_replace s*{LIMIT // 2 + 1}*a sa sbb"
    yield f"m_count s*{LIMIT}*a saa"
    yield f"m_count s*{LIMIT}*a s"
    yield f"m_split s*{ENTRIES}*, s,"
    yield f"m_startswith s*{LIMIT}*a s*{LIMIT}*a"
    yield f"m_endswith sb s*{LIMIT}*a"


# how the program of the table writes objects, by words of prims.py
PLAIN = {"L": "<i1>", "T": "()", "oA": "<i1;sab;n>", "oT": "(i1;sab;n)", "oI": "<t;i2>", "R": "r0,3,1", "oR": "r0,10,3", "oM": "r0,12,3",
         "oN": "r5,5,1", "oK": "r7,0,-2", "oL": "[n:n:n]"}


def plain(row):
    """A row as the program reads it, None where it lacks a word."""
    kind, *words = row.split(" ")
    lacks = any(word[0] not in "is([<" and word not in (*PLAIN, *"ntfeNDXM") or word[0] in "([<" and re.search(r"[(\[<:;][LT]", word) for word in words)
    if lacks or kind == "slice" and any(word in PLAIN for word in words):
        return None
    return " ".join([kind, *(PLAIN.get(word, word) for word in words)])


def rows():
    """A part of them by chance, and those that are few."""
    source = random.Random(4)
    for row in all_rows():
        if plain(row) and (source.random() < 0.3 or row.split(" ")[0] in ("join", "slice")):
            yield row
    yield from long_rows()


def write_table():
    lines = list(dict.fromkeys(rows()))
    (CRATE / "data" / "rows.txt").write_text("".join(plain(line) + "\n" for line in lines), "utf-8", newline="\n")
    (CRATE / "stdout").write_text("".join(answer(line) + "\n" for line in lines), "utf-8", newline="\n")
    print(len(lines), "rows")


def definitions_differ(step):
    """Runs the definitions at each so many-th row, and tells each to which they answer otherwise."""
    import operations
    from definitions import listed

    class Rows(operations.Rows):
        def __init__(self):
            super().__init__()
            placed, grown = self.get("placed"), self.get("grown")
            names = {"format": "pt_fields.specs.Fields.format_content", "join": "pt_fields.specs.Fields.join_content",
                     "slice": "pt_text_operations.specs.Slices.slice_content", "item": "pt_text_operations.specs.Slices.subscript_content",
                     "m": "pt_text_operations.specs.Methods.text_method_content"}
            self.rows = {kind: self.all.get("Rattle." + name.rpartition(".")[0], name.rpartition(".")[2]) for kind, name in names.items()}
            self.content = lambda kind, values, heap: placed(self.told(kind, values, heap), values, heap)
            self.grown = lambda kind, values, heap: grown(self.told(kind, values, heap), heap)

        def told(self, kind, values, heap):
            name, _, what = kind.partition("_")
            row, given = self.rows[name], definitions.items(values)
            wanted = {"format": 2, "slice": 3, "item": 2}.get(name, len(given))
            if len(given) != wanted:
                return ("Outside", ("Feature",))
            if name == "format":
                conversion = {"": ("None",), "s": ("Some", ("Str",)), "r": ("Some", ("Repr",))}[what]
                return row(conversion, heap, *given)
            if name == "m":
                text = definitions.items(heap)[given[0][1]["0"]][1]
                return row((what.capitalize(),), heap, text, listed(given[1:]))
            return row(heap, values) if name == "join" else row(*given) if name == "slice" else row(heap, *given)

        @staticmethod
        def operation(kind):
            return kind

        def operand(self, word, heap):
            if word[0] == "[":
                parts = dict(zip(("start", "stop", "step"), [self.operand(w, heap) for w in word[1:-1].split(":")]))
                return ("Obj", {"0": heap.add(("Slice", parts))})
            if word[0] in "(<":
                made = listed([self.operand(w, heap) for w in word[1:-1].split(";") if w])
                return ("Obj", {"0": heap.add(("Tuple" if word[0] == "(" else "List", made))})
            return operations.Rows.operand(word, heap)

        def made(self, place):
            kind, what = self.after[place]
            if kind == "Slice":
                return f"slice({','.join(self.item(what[part]) for part in ('start', 'stop', 'step'))})"
            return super().made(place)

        def helper(self, helper):
            return "join" if helper[0] == "JoinOf" else super().helper(helper)

    definitions = operations.definitions
    sys.setrecursionlimit(20000)
    asked, count, wrong = Rows(), 0, 0
    for row in list(dict.fromkeys(all_rows()))[::step]:
        count += 1
        got, wanted = asked.answer(row), answer(row)
        if got != wanted:
            wrong += 1
            print(f"{row}: {got}, and not {wanted}", flush=True)
    print(f"{count} rows, {wrong} differ")
    return wrong > 0


def main():
    warnings.simplefilter("ignore")
    if sys.argv[1:2] == ["--definitions"]:
        sys.exit(definitions_differ(int((sys.argv[2:] or ["1"])[0])))
    write_table()


if __name__ == "__main__":
    main()
