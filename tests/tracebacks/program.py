"""Puts the traceback of each row of test_prog that ends Raised into what the row is to write: what the definitions of a run have as the last
write, where CPython prints the same but for the texts of exceptions, which the language has of its own.

Run with CPython 3.12.1 in this folder.
"""

import os
import re
import sys
from pathlib import Path

HERE = Path(__file__).resolve().parent
CRATE = HERE.parent.parent / "crates" / "test_prog"
sys.path[:0] = [str(HERE.parent / "run"), str(HERE.parent)]
import deep
from check_objects import by_class, traceback_by_python
from escapes import escape_ascii
from objects import ObjectRunner

ESCAPE = re.compile(r"\\(?:x([0-9a-f]{2})|<(\d+):|(.))")


def text_of(notation):
    """The text that a notation stands for, in which `\\<N:..\\>` is what stands between, N times."""
    out, at, start, times = b"", 0, 0, 1
    for m in ESCAPE.finditer(notation):
        out += notation[at:m.start()].encode()
        at = m.end()
        if m[1]:
            out += bytes([int(m[1], 16)])
        elif m[2]:
            start, times = len(out), int(m[2])
        elif m[3] == ">":
            out = out[:start] + out[start:] * times
        else:
            out += {"n": b"\n", "r": b"\r", "t": b"\t", "\\": b"\\"}[m[3]]
    return (out + notation[at:].encode()).decode()


def traceback_of(runner, text):
    """The last write of the run of a script that an exception leaves."""
    _, _, _, step = runner.run(text)
    told = runner.traceback(step[1][1], step[1][2]["world"])
    if "RecursionError" not in told and by_class(told) != by_class(traceback_by_python(text)):
        raise ValueError(f"{told}\n{traceback_by_python(text)}")
    return told


def main():
    rows = [row for name in (CRATE / "args").read_text().split() for row in (CRATE / "data" / name).read_text().splitlines()]
    answers = (CRATE / "stdout").read_text().splitlines()
    if len(rows) != len(answers):
        raise ValueError("each row has an answer, by hand but for its traceback")
    runner, count = ObjectRunner(str(HERE.parent.parent / "crates")), 0
    for n, (row, answer) in enumerate(zip(rows, answers)):
        head, _, notation = row.partition(": ")
        if answer.startswith("1 raised") and head.split()[0] in ("run", "trace"):
            told = traceback_of(runner, text_of(notation)).replace("script.py", "a.py")
            answers[n] = f"{answer.split(' | log Traceback')[0]} | log {escape_ascii(told)}"
            count += 1
    (CRATE / "stdout").write_text("\n".join(answers) + "\n")
    print(f"{count} tracebacks")


if __name__ == "__main__":
    os.chdir(HERE)
    sys.exit(deep.call(main))
