"""Runs the definitions of pt_cover beside the plain model of model.py, over random pieces of a log.

usage: check.py [--many N]
"""
import random
import sys
from pathlib import Path

import cases
import model

HERE = Path(__file__).resolve().parent
sys.path.insert(0, str(HERE.parent / "run"))
import definitions
from definitions import items, listed

CRATES = HERE.parent.parent / "crates"


def place(f, xs):
    return next((i for i, x in enumerate(items(xs)) if f(x)), len(items(xs)))


def folded(f, a, xs):
    for x in items(xs):
        a = f(a)(x)
    return a


def insert_key(cmp, keys, k):
    return listed(sorted({*items(keys), k}))


WORDS = {
    **definitions.STD,
    "starts_with": lambda eq, xs, ys: items(xs)[:len(items(ys))] == items(ys),
    "before_first": lambda f, xs: listed(items(xs)[:place(f, xs)]),
    "after_first": lambda f, xs: listed(items(xs)[place(f, xs) + 1:]),
    "position_or_len": place,
    "fold": folded,
    "count_by": lambda f, xs: sum(map(f, items(xs))),
    "sum_by": lambda f, xs: sum(map(f, items(xs))),
    "list_all": lambda f, xs: all(map(f, items(xs))),
    "digit_value": lambda c: c - 48 if 48 <= c < 58 else 36,
    "digits_value": lambda base, xs: int(bytes(items(xs)) or b"0", base),
    "insert_key": insert_key,
    "nat_cmp": lambda a, b: (a > b) - (a < b),
}


class Definitions:
    def __init__(self):
        self.all = definitions.load(str(CRATES), WORDS)

    def get(self, module, name):
        return self.all.get(f"Rattle.pt_cover.specs.{module}", name)


def numbers(text):
    return listed(text)


def texts(pieces):
    return listed(map(numbers, pieces))


def counts_of(get, kind, given):
    """What is kept at first of these lines or names."""
    if kind == "lines":
        lines = get("Given", "rising")(listed({"0": n} for n in given))
        return ("Lines", listed({"line": {"0": n}, "count": 0} for n in items(lines)))
    names = get("Given", "first_given")(texts(given))
    rows = [{"name": n, "calls": 0, "own": 0, "all": 0, "spans": 0} for n in items(names)]
    return ("Names", {"rows": listed(rows), "calls": {"spans": (), "deeper": 0}, "total": 0})


def check_one(get, kind, given, pieces):
    """The rows that differ."""
    counted, then, report = get("Kept", "counted"), get("Kept", "counts_then"), get("Kept", "report_of")
    logged, room = get("Reports", "logged"), get("Kept", "room_for")
    start, bad = counts_of(get, kind, given), []
    for asked in ((True, True), (True, False), (False, True), (False, False)):
        got = [bytes(items(p)) for p in items(logged(*asked, lambda es: report(counted(start, es)), texts(pieces)))]
        want = model.logged(kind, given, *asked, pieces)
        if got != want:
            bad.append((asked, got, want))
    kept, events = start, model.split(pieces)[0]
    for i, event in enumerate(events):
        kept = then(kept, numbers(event))
        if (len(events) < 60 or i + 1 == len(events)) and kept != counted(start, texts(events[:i + 1])):
            bad.append((event, kept, counted(start, texts(events[:i + 1]))))
    if len(items(report(kept))) > room(kept):
        bad.append(("room", len(items(report(kept))), room(kept)))
    return bad


def main(words):
    many = int(words[words.index("--many") + 1]) if "--many" in words else 300
    random.seed(5)
    sys.setrecursionlimit(100000)
    get, count, differ = Definitions().get, 0, 0
    rows = [("lines", cases.given("lines"), cases.pieces()) for _ in range(many)] + [("names", cases.given("names"), cases.pieces()) for _ in range(many)]
    rows.append(("names", [b"f", b"h"], cases.deep(1001) + cases.TOTALS[:1]))
    for row in rows:
        bad = check_one(get, *row)
        count += 1
        differ += bool(bad)
        for b in bad[:1]:
            print(row[:2], *b, sep="\n  ")
    print(f"{count} lists of pieces, {differ} differ")
    return differ > 0


if __name__ == "__main__":
    sys.exit(main(sys.argv[1:]))
