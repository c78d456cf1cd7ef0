"""Runs the program on scripts whose values are meant to cost much: deep containers, those that hold themselves, shared ones, keys of nested tuples, what
is changed while it is iterated, texts and lists at their limits. Each answers within seconds, by its row. PT is the command.

usage: check.py [--show NAME]
"""
import os
import shlex
import subprocess
import sys
import tempfile
import time
from dataclasses import dataclass

TOP = os.path.join(os.path.dirname(os.path.abspath(__file__)), "..", "..")
# the seconds that a row may take
SECONDS = 10
DONE, RAISED, OUTSIDE = 0, 1, 4
CHARACTERS, ENTRIES, DEEP = 16_777_216, 4_194_304, 1_000
TOO_DEEP = "RecursionError: too many activations"
CHANGED = "RuntimeError: container changed during iteration"


@dataclass
class Row:
    """A script, what it prints, how it ends, and the last line of its log (None: the log is empty)."""

    name: str
    script: str
    out: str = ""
    status: int = DONE
    last: str | None = None


def length_at(line):
    return f"pt: outside the profile: length at line {line}"


def nested(times, start="[]", inner="[a]"):
    """A script that puts `a` so many times into another container."""
    return f"a = {start}\nfor i in range({times}):\n    a = {inner}\n"


ROWS = [
    Row("lists as deep as they are written", nested(DEEP - 1) + "print(a)\n", "[" * DEEP + "]" * DEEP + "\n"),
    Row("lists that are too deep", nested(DEEP) + "print(a)\n", "", RAISED, TOO_DEEP),
    Row("tuples that are too deep", nested(DEEP, "()", "(a,)") + "print(a)\n", "", RAISED, TOO_DEEP),
    Row("dictionaries that are too deep", nested(DEEP, "{}", "{1: a}") + "print(a)\n", "", RAISED, TOO_DEEP),
    Row("equality of lists that are too deep", nested(DEEP) + "b = a\n" + nested(DEEP) + "print(a == b)\n", "", RAISED, TOO_DEEP),
    Row("lists that are never written", nested(100_000) + "print(len(a))\n", "1\n"),
    Row("a list in itself", "a = [1]\na.append(a)\nprint(a)\n", "[1, [...]]\n"),
    Row("a dictionary in itself", "d = {}\nd[1] = d\nprint(d)\n", "{1: {...}}\n"),
    Row("a tuple in its list", "a = []\nt = (a,)\na.append(t)\nprint(t, a)\n", "([(...)],) [([...],)]\n"),
    Row("lists that hold each other", "a = []\nb = [a]\na.append(b)\nprint(a, b)\n", "[[[...]]] [[[...]]]\n"),
    Row("a million shared references", "a = [1] * 1000\nb = [a] * 1000\nprint(len(str(b)))\n", f"{1000 * (3000 + 2)}\n"),
    Row("shared references without end", "a = [1]\nfor i in range(60):\n    a = [a, a]\nprint(len(str(a)))\n", "", OUTSIDE, length_at(4)),
    Row("a billion shared references", "a = [1] * 1000\nb = [a] * 1000\nc = [b] * 1000\nx = f\"{c}\"\n", "", OUTSIDE, length_at(4)),
    Row("keys as deep as they are", nested(DEEP - 1, "()", "(a,)") + "d = {a: 1}\nprint(d[a], a in d)\n", "1 True\n"),
    Row("a key that is too deep", nested(DEEP, "()", "(a,)") + "d = {a: 1}\n", "", RAISED, TOO_DEEP),
    Row("a key that holds a list", "d = {((1, [2]), 3): 1}\n", "", RAISED, "TypeError: unhashable type: 'list'"),
    Row("a dictionary that grows", "d = {1: 1}\nfor k in d:\n    d[k + 1] = 1\n", "", RAISED, CHANGED),
    Row("a set that shrinks", "s = {1, 2, 3}\nfor k in s:\n    s.remove(k)\n", "", RAISED, CHANGED),
    Row("a view of a dictionary that grows", "d = {1: 1}\nfor k, v in d.items():\n    d[v + 1] = 1\n", "", RAISED, CHANGED),
    Row("a list that grows", "a = [1]\nfor x in a:\n    if len(a) < 100000:\n        a.append(x + 1)\nprint(len(a), a[-1])\n", "100000 100000\n"),
    Row("a list that shrinks", "a = [1, 2, 3, 4]\nfor x in a:\n    a.remove(x)\nprint(a)\n", "[2, 4]\n"),
    Row("a text at its limit", f"print(len(\"ab\" * {CHARACTERS // 2}))\n", f"{CHARACTERS}\n"),
    Row("a text beyond it", f"x = \"ab\" * {CHARACTERS // 2 + 1}\n", "", OUTSIDE, length_at(1)),
    Row("a sum of texts beyond it", f"x = \"a\" * {CHARACTERS}\ny = x + \"b\"\n", "", OUTSIDE, length_at(2)),
    Row("a text joined beyond it", f"x = \"a\" * {CHARACTERS // 2}\ny = x.join([\"\", \"\", \"b\", \"\"])\n", "", OUTSIDE, length_at(2)),
    Row("a text replaced beyond it", "x = \"a\" * 5000\ny = x.replace(\"a\", x)\n", "", OUTSIDE, length_at(2)),
    Row("a width beyond it", f"x = f\"{{1:>{CHARACTERS + 1}}}\"\n", "", OUTSIDE, length_at(1)),
    Row("a width at it", f"print(len(f\"{{1:>{CHARACTERS}}}\"))\n", f"{CHARACTERS}\n"),
    Row("a text that doubles", "x = \"ab\"\nwhile True:\n    x += x\n", "", OUTSIDE, length_at(3)),
    Row("a list at its limit", f"print(len([0] * {ENTRIES}))\n", f"{ENTRIES}\n"),
    Row("a list beyond it", f"x = [0] * {ENTRIES + 1}\n", "", OUTSIDE, length_at(1)),
    Row("an item more than that", f"x = [0] * {ENTRIES}\nx.append(1)\n", "", OUTSIDE, length_at(2)),
    Row("a tuple that doubles", "x = (1,)\nwhile True:\n    x += x\n", "", OUTSIDE, length_at(3)),
    Row("a repetition that is negative", f"print([1] * -{2 ** 100}, \"a\" * -1)\n", "[] \n"),
    Row("a repetition that is huge", f"x = [] * {2 ** 126}\nprint(x)\ny = [1] * {2 ** 126}\n", "[]\n", OUTSIDE, length_at(3)),
    Row("a range as long as can be", f"r = range({2 ** 126})\nprint(len(r), r[-1], {2 ** 100} in r)\n", f"{2 ** 126} {2 ** 126 - 1} True\n"),
    Row("a slice with far ends", f"print([1, 2, 3][-{2 ** 100}:{2 ** 100}], \"abc\"[{2 ** 100}:], (1, 2, 3)[::{2 ** 100}])\n", "[1, 2, 3]  (1,)\n"),
    Row("a split into many", "print(len((\"a \" * 200000).split()))\n", "200000\n"),
    Row("many keys of one dictionary", "d = {}\nfor i in range(200000):\n    d[i * 4294967296] = i\nprint(len(d), d[4294967296])\n", "200000 1\n"),
    Row("a long list in order", "x = sorted(range(100000, 0, -1))\nprint(len(x), x[0], x[-1])\n", "100000 1 100000\n"),
    Row("a list that is in order already", "x = list(range(100000))\nx.sort()\nx.sort(reverse=True)\nprint(x[0], x[-1])\n", "99999 0\n"),
    Row("many equal keys", "x = sorted(range(100000), key=lambda n: 0)\nprint(x[0], x[-1])\n", "0 99999\n"),
    Row("keys that differ at their ends", "x = sorted([\"a\" * 20000 + str(n) for n in range(1000)])\nprint(x[1][20000:])\n", "1\n"),
    Row("keys that are long tuples", "t = (1,) * 1000\nx = sorted([t + (-n,) for n in range(1000)])\nprint(x[0][1000])\n", "-999\n"),
    Row("the greatest of many", "print(max(range(100000)), min(range(100000), key=lambda n: -n), sum(range(100000)))\n", "99999 99999 4999950000\n"),
    Row("a list extended beyond its limit", f"x = [0] * {ENTRIES}\nx.extend(range(1))\n", "", OUTSIDE, length_at(2)),
    Row("key functions that sort", "def f(n):\n    return sorted([n], key=f)\nf(1)\n", "", RAISED, TOO_DEEP),
    Row("a sum beyond an integer", f"print(sum([{2 ** 126}] * 2))\n", "", OUTSIDE, "pt: outside the profile: integer at line 1"),
    Row("a search for what is everywhere", "print((\"a\" * 100000 + \"b\").find(\"a\" * 50000 + \"b\"))\n", "50000\n"),
]


def answer(command, script):
    with tempfile.TemporaryDirectory() as folder:
        with open(os.path.join(folder, "script.py"), "w", encoding="utf-8") as file:
            file.write(script)
        start = time.monotonic()
        words = [*command, "run", "script.py"]
        try:
            done = subprocess.run(words, cwd=folder, capture_output=True, text=True, stdin=subprocess.DEVNULL, timeout=6 * SECONDS)
        except subprocess.TimeoutExpired:
            return None, "", [], time.monotonic() - start
        return done.returncode, done.stdout, done.stderr.splitlines()[-1:], time.monotonic() - start


def main():
    program, *options = shlex.split(os.environ.get("PT") or f"{os.path.join(TOP, 'pt')} --only-proved")
    command = [os.path.abspath(program) if "/" in program else program, *options]
    shown = sys.argv[2] if sys.argv[1:2] == ["--show"] else None
    bad, slowest = 0, ("", 0.0)
    for row in ROWS:
        if shown and row.name != shown:
            continue
        status, out, last, seconds = answer(command, row.script)
        wanted = row.status, row.out, [row.last] if row.last else []
        slowest = max(slowest, (row.name, seconds), key=lambda it: it[1])
        if (status, out, last) != wanted or seconds > SECONDS:
            bad += 1
            print(f"{row.name}: {status}, {out[-80:]!r}, {last} after {seconds:.1f} s; wanted {wanted[0]}, {row.out[-80:]!r}, {wanted[2]}")
        elif shown:
            print(f"{row.name}: {status}, {out[-200:]!r}, {last} after {seconds:.1f} s")
    print(f"{len(ROWS)} rows, {bad} differ; the slowest took {slowest[1]:.1f} s ({slowest[0]})")
    return bad > 0


if __name__ == "__main__":
    sys.exit(main())
