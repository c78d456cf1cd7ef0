"""Writes the rows of test_prog on `cover` and `profile`, and what it is to print of them: by a trace function and the plain model of model.py.

Run with Python 3.12 in this folder. Rows of other tables stay as they are.
"""
import contextlib
import io
import sys
import traceback
from pathlib import Path

import compare
import model

CRATE = Path(__file__).resolve().parent.parent.parent / "crates" / "test_prog"
LOOP = "n = 0\nwhile n < 2:\n    n = n + 1\nprint(n)\n"
TOTALS = b"acts 26\ninstructions 28\ndepth 2\n"
DOWN = "def down(n):\n    if n:\n        down(n - 1)\n\ndef never():\n    return 1\n\nfor i in range(3):\n    down(i)\nprint('end')\n"
NESTED = "def f(n):\n    return g(n) + 1\ndef g(n):\n    if n == 0:\n        return 0\n    return f(n - 1)\nprint(f(2), (lambda x: x)(3))\n"
RAISES = "def f(n):\n    if n:\n        raise ValueError('no')\nfor n in (0, 1):\n    try:\n        f(n)\n    except ValueError:\n        print('caught')\nf(1)\n"
RECURSIVE = "def f(n):\n    if n == 0:\n        return 0\n    return f(n - 1) + 1\nprint(f(4))\n"


def run(text):
    """The events and what is printed, and the traceback, if an exception leaves the script."""
    code, events, out, last = compile(text, "a.py", "exec"), [], io.StringIO(), b""

    def told(frame, kind, value):
        if frame.f_code.co_filename != "a.py":
            return None
        if kind in ("call", "line", "return"):
            events.append(f"{kind} {max(frame.f_lineno, 1)} {frame.f_code.co_name}\n".encode())
        elif kind == "exception":
            events.append(f"exception {frame.f_lineno} {frame.f_code.co_name} {value[0].__name__}\n".encode())
        return told

    with contextlib.redirect_stdout(out):
        sys.settrace(told)
        try:
            exec(code, {"__name__": "__main__"})
        except Exception as error:
            sys.settrace(None)
            lines = text.splitlines()
            rows = [f for f in traceback.extract_tb(error.__traceback__) if f.filename == "a.py"]
            last = "Traceback (most recent call last):\n" + "".join(f'  File "a.py", line {f.lineno}, in {f.name}\n    {lines[f.lineno - 1].strip()}\n' for f in rows)
            last = (last + f"{type(error).__name__}: {error}\n").encode()
        finally:
            sys.settrace(None)
    return events, out.getvalue().splitlines(keepends=True), last


def lines_of(code):
    found = {line for _, _, line in code.co_lines() if line}
    return found.union(*(lines_of(c) for c in code.co_consts if hasattr(c, "co_lines")))


def report(word, text, events):
    if word == "cover":
        return model.report("lines", lines_of(compile(text, "a.py", "exec")), events)
    return model.report("names", compare.names_of(text), events)


def printed(piece):
    return piece.replace("\\", "\\\\").replace("\n", "\\n").replace('"', '\\"').replace("'", "\\'")


def row(word, text, options="", log_fails=0, write_fails=0):
    events, out, last = run(text)
    log = [report(word, text, events)]
    if "--events" in options:
        log = events + log
    if "--stats" in options:
        log.append(TOTALS)
    log += [last] if last else []
    end = "1 raised" if last else "0 done"
    fails = "".join([f", write {write_fails}" if write_fails else "", f", log {log_fails}" if log_fails else ""])
    if log_fails:
        assert "--events" not in options
        log, end = log[:log_fails - 1], "10 write fault Log"
    if write_fails:
        out, log, end = out[:write_fails - 1], [], "10 write fault Out"
    pieces = [printed(p) for p in out] + [f"log {printed(p.decode())}" for p in log]
    words = " ".join([word, "a.py", *options.split()])
    return f"{words}{fails}: {text.rstrip(chr(10)).replace(chr(10), chr(92) + 'n')}", end + "".join(f" | {p}" for p in pieces)


def rows():
    for text in (LOOP, DOWN, NESTED, RAISES, RECURSIVE):
        for word in ("cover", "profile"):
            yield row(word, text)
    for word in ("cover", "profile"):
        for options in ("--events", "--stats", "--events --stats"):
            yield row(word, LOOP, options)
        yield row(word, RAISES, "--events")
        for at in (1, 2):
            yield row(word, LOOP, "--stats", log_fails=at)
            yield row(word, RAISES, log_fails=at)
        yield row(word, LOOP, write_fails=1)
        yield row(word, "pass")
    for words, end in (("cover", "2 usage | log pt: usage\\n"), ("profile a.py b.py", "2 usage | log pt: usage\\n"), ("Cover a.py", "2 usage | log pt: usage\\n"),
                       ("coverage a.py", "2 usage | log pt: usage\\n"), ("cover b.py", "9 read fault | log pt: cannot read\\n")):
        yield f"{words}: pass", end


def main():
    head, told, names = "# reports on lines and names", list(rows()), (CRATE / "args").read_text().split()
    answers = iter((CRATE / "stdout").read_text(encoding="utf-8").splitlines())
    kept = {name: [next(answers) for _ in (CRATE / "data" / name).read_text().splitlines()] for name in names}
    kept["reports.txt"] = [head, *(end for _, end in told)]
    (CRATE / "data" / "reports.txt").write_text("".join(f"{line}\n" for line in [head, *(row for row, _ in told)]), encoding="utf-8")
    (CRATE / "args").write_text("".join(f"{name}\n" for name in kept))
    (CRATE / "stdout").write_text("".join(f"{line}\n" for lines in kept.values() for line in lines), encoding="utf-8")


if __name__ == "__main__":
    main()
