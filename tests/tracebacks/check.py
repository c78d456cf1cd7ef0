"""Runs the definitions of tracebacks beside CPython, over each case of raising.py.

Run with CPython 3.12 in this folder.
"""

import sys
from pathlib import Path

import raising

HERE = Path(__file__).resolve().parent
sys.path.insert(0, str(HERE.parent / "run"))
import definitions
from definitions import items, listed


def optional(place, classes):
    return ("None",) if place is None else ("Some", {"0": place + classes})


def heap_of(exceptions, blocks):
    """A class and an argument for each exception, and behind them the exceptions."""
    heap, classes = [], 2 * len(exceptions)
    for name, text, *_ in exceptions:
        heap += [("Class", {"name": listed(name.encode())}), ("Str", listed((text or "").encode()))]
    for i, (name, text, cause, context, hides, frames) in enumerate(exceptions):
        trace = [{"frame": {"0": 0}, "block": {"0": blocks.index(block)}, "line": {"0": line}} for line, block in frames]
        heap.append(("Error", {
            "class": {"0": 2 * i}, "args": listed([] if text is None else [("Obj", {"0": 2 * i + 1})]), "cause": optional(cause, classes),
            "context": optional(context, classes), "hides_context": hides, "trace": listed(trace), "names": ()}))
    return listed(heap), classes


def main():
    sys.setrecursionlimit(100_000)
    everything = definitions.load(str(HERE.parent.parent / "crates"))
    summaries = everything.get("Rattle.pt_tracebacks.specs.Summaries", "summaries")
    source_lines = everything.get("Rattle.pt_tracebacks.specs.Lines", "source_lines")
    traceback_text = everything.get("Rattle.pt_tracebacks.specs.Texts", "traceback_text")
    count = differ = 0
    for name, text, exceptions, expected in raising.cases():
        blocks = sorted({block for x in exceptions for _, block in x[5]})
        heap, first = heap_of(exceptions, blocks)
        told = summaries(lambda n: listed(blocks[n].encode()), heap, ("Obj", {"0": first}))
        lines = source_lines(("Some", listed(text.encode())))
        got = bytes(items(traceback_text(listed(name.encode()), lines, told))).decode()
        count += 1
        if got != expected:
            differ += 1
            print(f"{text!r}\n{got}\n{expected}")
    print(f"{count} tracebacks, {differ} differ")
    return differ != 0


if __name__ == "__main__":
    sys.exit(main())
