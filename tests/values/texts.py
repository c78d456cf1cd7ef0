"""Writes the table of test_texts, and what CPython answers to its rows.

Run with CPython 3.12 in this folder. A text is written as its code points in hexadecimal with dots between them, `-` where it is
empty, and `*N*C` for one code point N times. What is answered stands in the same way; of a text of more than 200 characters
only its length and its ends.
"""

import random
import re
from pathlib import Path

CRATE = Path(__file__).resolve().parent.parent.parent / "crates" / "test_texts"
LIMIT = 16_777_216
SPEC = re.compile(r"(?:(.)?([<>=^]))?([+\- ])?(0)?([0-9]*)([dxXbos])?", re.DOTALL)


def spelled(text):
    if len(text) > 200:
        return f"#{len(text)} {ord(text[0]):x} {ord(text[-1]):x}"
    return ".".join(f"{ord(c):x}" for c in text) or "-"


def times(count, c):
    return f"*{count}*{ord(c):x}"


def optional(value):
    return "none" if value is None else spelled(value) if isinstance(value, str) else str(value)


def joined(sep, parts):
    return " ".join(["join", spelled(sep), *map(spelled, parts)]), spelled(sep.join(parts))


def split(text, sep):
    row = f"split {spelled(text)} {optional(sep)}"
    if sep == "":
        return row, "Empty"
    parts = text.split(sep)
    return row, " ".join([str(len(parts)), *map(spelled, parts)])


def strip(text, chars, side):
    answer = {"l": text.lstrip, "r": text.rstrip, "b": text.strip}[side](chars)
    return f"strip {spelled(text)} {optional(chars)} {side}", spelled(answer)


def replaced(text, old, new):
    return f"replace {spelled(text)} {spelled(old)} {spelled(new)}", spelled(text.replace(old, new))


def found(text, part):
    place = text.find(part)
    return f"find {spelled(text)} {spelled(part)}", "none" if place < 0 else str(place)


def sliced(text, start, stop, step):
    row = f"slice {spelled(text)} {optional(start)} {optional(stop)} {optional(step)}"
    return row, spelled(text[start:stop:step])


def repeated(text, count):
    return f"repeat {spelled(text)} {count}", spelled(text * count)


def represented(text):
    """As CPython, but that a character above 255 stands as itself where it can't be printed."""
    quote = '"' if "'" in text and '"' not in text else "'"
    escapes = {"\\": "\\\\", "\n": "\\n", "\r": "\\r", "\t": "\\t", quote: "\\" + quote}
    body = "".join(escapes.get(c, f"\\x{ord(c):02x}" if ord(c) < 32 or 127 <= ord(c) <= 160 or ord(c) == 173 else c) for c in text)
    if all(ord(c) < 256 or c.isprintable() for c in text):
        assert quote + body + quote == repr(text), (text, body)
    return f"repr {spelled(text)}", spelled(quote + body + quote)


def shown(value, spec):
    kind = "int" if isinstance(value, int) else "str"
    row = f"{kind} {value if kind == 'int' else spelled(value)} {spelled(spec)}"
    match = SPEC.fullmatch(spec)
    if match is None:
        return row, "Format"
    fill, align, sign, zero, width, type_ = match.groups()
    if kind == "str" and (sign or align == "=" or type_ not in (None, "s")) or kind == "int" and type_ == "s":
        return row, "Format"
    if width and int(width) > LIMIT:
        return row, "Length"
    return row, spelled(format(value, spec))


TEXTS = ["", "a", "ab", "abc", "aaa", "abab", "a,b,,c", " a  b ", "\t\n x\x1c\x1dy\x1e\x1f", "\u00a0\u2003q\u3000", "\x85\u2028z",
         "\u00e9", "e\u0301", "\u20acx\u20ac", "\U0001f600a\U0001f600", "\U0010ffff\ue000\ud7ff", "x\u0000y", "'", '"', "'\"", "it's",
         'say "x"', "\\", "a\\'b\"", "\n\r\t\x08\x7f\x80\x9f\xa0\xa1\xac\xad\xae\xff", "\u200b\u0378", "plain words in a row"]
PARTS = ["", "a", "b", "ab", "aa", ",", " ", "\u20ac", "\U0001f600", "\u0301", "abc", "zz", "'"]
NUMBERS = [0, 1, -1, 5, -5, 10, 42, -42, 255, -255, 4096, 10 ** 20, -10 ** 30, 2 ** 127 - 1, -2 ** 127]
SPECS = ["", "d", "x", "X", "b", "o", "s", "5", "<5", ">5", "^5", "=5", "*<8", "*>8", "*^8", "*=8", "+", "-", " ", "+d", "-x", " b",
         "05", "+05", "<05", "^06d", "008", "x>4X", "=>6", "<<6", "==7", "\u20ac^9", "\U0001f600>7o", "0", "00", "0=4", "{<3", "+06x",
         " =+9d", "=", "<", "130b", "=+140b", "c", "n", "e", ",", "_d", "#x", ".3", "5.2", "+-5", "dd", "5x5", "**5", "<>^5", "z5",
         "00000000000000000000000000012d", "9223372036854775808", "0>9223372036854775808d", "99999999999999999999999999999s"]


def text_rows():
    source = random.Random(7)
    for text in TEXTS:
        yield split(text, None)
        yield represented(text)
        for side in "lrb":
            yield strip(text, None, side)
        for count in (-1, 0, 1, 3):
            yield repeated(text, count)
        for part in source.sample(PARTS, 4):
            yield found(text, part)
            yield replaced(text, part, source.choice(["", "-", "\u20ac\U0001f600", "aa"]))
            yield split(text, part)
            yield strip(text, part, source.choice("lrb"))
    for sep in ("", ",", "\U0001f600", "--"):
        for parts in ([], [""], ["a"], ["a", "b"], ["", ""], ["\u20ac", "", "x"], list("words")):
            yield joined(sep, parts)
    for start in (None, 0, 1, -1, 2, -3, 9, -9, 2 ** 127 - 1, -2 ** 127):
        for stop in (None, 0, 1, -1, 3, -4, 9, -9):
            yield sliced("a\u20acb\U0001f600c", start, stop, source.choice([None, 1, 2, -1, -2, 3, -7, 2 ** 127 - 1, -2 ** 127]))
    for step in (1, 2, 3, -1, -2, -5):
        yield sliced("", None, None, step)
        yield sliced("x", None, None, step)
    for spec in SPECS:
        for value in source.sample(NUMBERS, 5):
            yield shown(value, spec)
        for value in ("", "ab", "\u20ac\U0001f600"):
            yield shown(value, spec)


def long_rows():
    """Texts at the limit and one more, searches that go far, and results that would be too long."""
    full, more = times(LIMIT, "a"), times(LIMIT + 1, "a")
    yield f"repeat {times(1024, 'a')} {LIMIT // 1024}", f"#{LIMIT} 61 61"
    yield f"repeat {times(1024, 'a')} {LIMIT // 1024 + 1}", "Length"
    yield f"repeat 61 {LIMIT + 1}", "Length"
    yield f"repeat - {2 ** 127 - 1}", "-"
    yield f"repeat 61.62 {2 ** 127 - 1}", "Length"
    yield f"strip {full} none b", f"#{LIMIT} 61 61"
    yield f"strip {more} none b", "Length"
    yield f"slice {more} none none -1", "Length"
    yield f"slice {full} none none {-LIMIT}", "61"
    yield f"replace 61.62 62 {full}", "Length"
    yield f"replace 61.62 61 {times(LIMIT - 1, 'c')}", f"#{LIMIT} 63 62"
    yield f"replace {times(100_000, 'a')} 61 {times(200, 'b')}", "Length"
    yield f"replace {times(100_000, 'a')} - {times(200, 'b')}", "Length"
    yield f"replace {times(400_000, 'a')} {times(1_000, 'a')}.62 63", "#400000 61 61"
    yield f"find {times(1_000_000, 'a')} {times(1_000, 'a')}.62", "none"
    yield f"find {times(1_000_000, 'a')}.62 {times(1_000, 'a')}.62", "999000"
    yield f"join {full} 61 61", "Length"
    yield f"join - {full} 61", "Length"
    yield f"join - {full} -", f"#{LIMIT} 61 61"
    yield f"repr {times(LIMIT - 2, 'a')}", f"#{LIMIT} 27 27"
    yield f"repr {times(LIMIT - 1, 'a')}", "Length"
    yield f"int 5 {spelled(str(LIMIT))}", f"#{LIMIT} 20 35"
    yield f"int 5 {spelled(str(LIMIT + 1))}", "Length"
    yield f"str {full} -", f"#{LIMIT} 61 61"
    yield f"str {more} -", "Length"
    yield f"split {times(30_000, 'a')} 61", "30001 " + " ".join(["-"] * 30_001)
    yield f"split {full}.20.61 none", f"2 #{LIMIT} 61 61 61"
    yield f"split {full}.20.{more} none", "Length"
    yield f"split {more} 62", "Length"
    yield f"replace {full} 62 63", f"#{LIMIT} 61 61"
    yield f"replace {more} 62 63", "Length"
    yield f"replace {full} - -", f"#{LIMIT} 61 61"
    yield f"find {full}.1f600 1f600", f"{LIMIT}"
    yield f"repeat {full} 1", f"#{LIMIT} 61 61"
    yield f"repeat {more} 0", "-"
    yield f"slice {more} -1 none none", "61"


VALUES = ["n", "t", "f", "e", "N", "i0", "i1", "i2", "i-1", f"i{2 ** 127 - 1}", f"i{-2 ** 127}", "s-", "s31", "s61", "s61.62", "s20ac",
          "s0", "sff", "()", "(i1)", "(t)", "(i1,i2)", "(s61)", "((i1),n)", "((t),n)", "((),())", "(())", "(s61,s62)", "(s61.62)", "o1", "o2"]
REFUSED = ["[]", "{}", "<>", "([])", "(i1,{})", "(((<>)))", "([],{})", "x", "h", "q", "(x)", "(q,h)"]


def read(word, at):
    """The value that begins at a place of a word, and the place behind it; `o1` and `o2` are two objects."""
    if word[at] == "(":
        items, at = [], at + 1
        while word[at] != ")":
            item, at = read(word, at)
            items.append(item)
            at += word[at] == ","
        return tuple(items), at + 1
    if word[at] in "is":
        end = at + 1
        while end < len(word) and word[end] not in ",)":
            end += 1
        part = word[at + 1 : end]
        if word[at] == "i":
            return int(part), end
        return "" if part == "-" else "".join(chr(int(c, 16)) for c in part.split(".")), end
    if word[at] == "o":
        return {"1": object, "2": type}[word[at + 1]], at + 2
    return {"n": None, "t": True, "f": False, "e": ..., "N": NotImplemented}[word[at]], at + 1


def value_of(word):
    return read(word, 0)[0]


def tokens(word):
    return word.replace("(", "( ").replace(")", " )").replace(",", " ")


def key_rows():
    for a in VALUES:
        for b in VALUES:
            if a <= b:
                yield f"same {tokens(a)} = {tokens(b)}", "same" if value_of(a) in {value_of(b): 0} else "other"
    answers = ["Unhashable 5", "Unhashable 8", "Unhashable 7", "Unhashable 5", "Unhashable 8", "Unhashable 7", "Unhashable 5",
               "Unhashable x", "UserHash x", "UserHash x", "Unhashable x", "UserHash x"]
    for word, answer in zip(REFUSED, answers):
        yield f"same {tokens(word)} = n", answer
    for depth in (1, 999, 1000, 1001, 5000):
        yield f"deep {depth}", "key" if depth <= 1000 else "Deep"


def main():
    rows = [*text_rows(), *long_rows(), *key_rows()]
    (CRATE / "data" / "rows.txt").write_text("".join(row + "\n" for row, _ in rows), "utf-8", newline="\n")
    (CRATE / "stdout").write_text("".join(answer + "\n" for _, answer in rows), "utf-8", newline="\n")


main()
