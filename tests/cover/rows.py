"""Writes the table of test_cover, and what it is to print of it, by the plain model of model.py.

Run with Python 3.12 in this folder.
"""
import random
from pathlib import Path

import cases
import model

CRATE = Path(__file__).resolve().parent.parent.parent / "crates" / "test_cover"
# a script that counts to 2, and a generator's: their events, with lines and names as they are given
LOOP = [f"{kind} {line} <module>\n".encode() for kind, line in
        [("call", 1), *(("line", n) for n in (1, 2, 3, 2, 3, 2, 4)), ("return", 4)]] + [b"acts 26\ninstructions 30\ndepth 2\n"]
YIELDS = [b"call 1 <module>\n", b"line 1 <module>\n", b"line 4 <module>\n", b"call 1 g\n", b"line 2 g\n", b"return 2 g\n", b"line 5 <module>\n",
          b"line 4 <module>\n", b"call 2 g\n", b"line 3 g\n", b"return 3 g\n", b"line 5 <module>\n", b"line 4 <module>\n", b"call 3 g\n", b"return 3 g\n",
          b"return 4 <module>\n", b"acts 40\n"]
# a name that is open twice and is left once more than it was called; calls within one another; and returns before, between and behind calls
AGAIN = [b"call 1 f\n", b"line 1 f\n", b"call 1 f\n", b"line 2 f\n", b"return 2 f\n", b"return 1 f\n", b"return 1 f\n", b"acts 9\n"]
RECURSIVE = [b"call 1 f\n", b"line 1 f\n", b"call 1 f\n", b"line 1 f\n", b"call 1 g\n", b"line 2 g\n", b"call 1 f\n", b"line 1 f\n", b"return 1 f\n",
             b"line 2 g\n", b"return 2 g\n", b"line 1 f\n"] + [b"return 1 f\n"] * 5 + [b"line 3 f\n", b"acts 9\n"]
RETURNS = [b"return 1 f\n", b"line 1 f\n", b"return 1 f\n", b"call 1 f\n", b"line 2 f\n", b"return 2 <module>\n", b"return 2 f\n", b"line 3 f\n",
           b"call 1 <module>\n", b"line 1 f\n", b"return 1 <module>\n", b"return 1 <module>\n", b"line 2 <module>\n", b"acts 7\n"]


def escaped(data):
    special = {10: "\\n", 13: "\\r", 9: "\\t", 12: "\\f", 92: "\\\\"}
    return "".join(special.get(b) or (chr(b) if 32 <= b < 127 and chr(b) not in ",*" else f"\\x{b:02x}") for b in data) or "\\_"


def printed(data):
    special = {9: "\\t", 10: "\\n", 13: "\\r", 34: '\\"', 39: "\\'", 92: "\\\\"}
    return "".join(special.get(b) or (chr(b) if 32 <= b < 127 else f"\\x{b:02x}") for b in data)


def runs(pieces):
    """Each piece with how often it stands in a row."""
    out = []
    for p in pieces:
        if out and out[-1][0] == p:
            out[-1][1] += 1
        else:
            out.append([p, 1])
    return out


def row(kind, given, asked, fails, wants, pieces):
    lines = "".join(f"{n}," for n in given) if kind == "lines" else ""
    names = "".join(f"{escaped(n)}," for n in given) if kind == "names" else ""
    told = [escaped(p) if n == 1 else f"{n}*{escaped(p)}" for p, n in runs(pieces)]
    calls = ["".join(f"{n}," for n in sorted(numbers)) for numbers in (fails, wants)]
    return "\t".join([kind, "".join("ny"[a] for a in asked), *calls, lines, names, *told])


def answer(kind, given, asked, fails, wants, pieces):
    log = model.Failing(kind, given, *asked, fails, wants)
    out = "".join(f"{error} " for error in map(log.write, pieces) if error)
    return out + (log.failed or "ok") + "".join(f" | {printed(p)}" for p in log.taken)


def cases_of():
    none, both, neither = set(), (True, True), (False, False)
    combinations = both, (True, False), (False, True), neither
    yield "lines", [1, 2, 3, 4], neither, none, none, LOOP
    yield "names", [b"<module>", b"g"], neither, none, none, YIELDS
    for asked in combinations:
        yield "lines", [4, 1, 1, 9], asked, none, none, LOOP + [b"pt: quit\n", b"acts 1\n"]
        yield "names", [b"g", b"<module>", b"g", b"h"], asked, none, none, YIELDS + YIELDS
    # each call of the log, and the one behind the last, failing in turn or in want of memory
    for kind, given, pieces in (("lines", [1, 2, 3, 4], LOOP), ("names", [b"f", b"<module>"], AGAIN)):
        for asked in combinations:
            told = pieces + [b"pt: spent after 26 acts\n"]
            for n in range(1, len(model.logged(kind, given, *asked, told)) + 2):
                yield kind, given, asked, {n}, none, told
                yield kind, given, asked, none, {n}, told
    for n in range(1, 4):
        for fails, wants in (({n, n + 1}, none), (none, {n, n + 1}), ({n}, {n + 1}), ({n + 1}, {n}), ({n}, {n})):
            yield "names", [b"<module>", b"g"], (False, True), fails, wants, YIELDS + [b"pt: quit\n"]
    yield "lines", [], both, none, none, []
    yield "names", [], neither, none, none, [b"acts "]
    yield "names", [], neither, none, {1}, [b"acts ", b"acts "]
    for asked in combinations:
        yield "names", [b"f", b"g"], asked, none, none, RECURSIVE
        yield "names", [b"f", b"<module>"], asked, none, none, RETURNS
        yield "lines", [1, 2, 3], asked, none, none, RETURNS
    for count in (999, 1000, 1001, 1002, 1005):
        yield "names", [b"f", b"g", b"h"], neither, none, none, cases.deep(count) + [b"acts 5\n"]
    deep = cases.deep(1001) + [b"acts 5\n"]
    yield "names", [b"f", b"g", b"h"], (False, True), none, none, deep
    for n in (1, 2):
        yield "names", [b"f", b"g", b"h"], both, {n}, none, deep
        yield "names", [b"f", b"g", b"h"], both, none, {n}, deep
        yield "names", [b"f", b"g", b"h"], (False, True), none, {n}, deep
    for _ in range(150):
        kind = random.choice(["lines", "names"])
        fails, wants = ({random.randrange(1, 20) for _ in range(random.choice([0, 0, 1, 2]))} for _ in range(2))
        yield kind, cases.given(kind), random.choice(combinations), fails, wants, cases.pieces()


def main():
    random.seed(3)
    rows = list(cases_of())
    (CRATE / "data").mkdir(exist_ok=True)
    (CRATE / "data" / "pieces.txt").write_text("".join(f"{row(*r)}\n" for r in rows), encoding="utf-8")
    (CRATE / "args").write_text("pieces\npieces.txt\n", encoding="utf-8")
    (CRATE / "stdout").write_text("".join(f"{answer(*r)}\n" for r in rows), encoding="utf-8")


if __name__ == "__main__":
    main()
