"""Writes the rows of test_prog on `gen`, and what it is to print of them: by a trace function of CPython and a plain count of acts.

Run with Python 3.12 in this folder. Rows of other tables stay as they are.
"""
import contextlib
import io
import sys
from pathlib import Path

CRATE = Path(__file__).resolve().parent.parent.parent / "crates" / "test_prog"
FUNCTION = """\
def fI(x):
    try:
        if x % 2 == 0:
            return x + I
        for j in range(3):
            x += j
    finally:
        k = x
    return x * 2
total += fI(I)
"""
# of an empty script, the instructions that no act begins
INSTRUCTIONS_BESIDE_ACTS = 2
USAGE = "2 usage | log pt: usage\\n"


def script_of(count):
    return "total = 0\n" + "".join(FUNCTION.replace("I", str(i)) for i in range(count)) + "print(total)\n"


def acts_of(count):
    """Two acts of the first line and four of the last; of each function two of its `def`, six of its sum, and those of its call."""
    test, last = 1 + 6, 2
    even, odd = test + 4 + last, test + (3 + 1 + 4 + 3 + 12) + last + 4
    return 2 + sum(2 + 6 + (odd if i % 2 else even) for i in range(count)) + 4


def run(count):
    """The events, and what is printed."""
    code, events, out = compile(script_of(count), str(count), "exec"), [], io.StringIO()

    def told(frame, kind, value):
        if frame.f_code.co_filename != str(count):
            return None
        events.append(f"{kind} {max(frame.f_lineno, 1)} {frame.f_code.co_name}\n")
        return told

    with contextlib.redirect_stdout(out):
        sys.settrace(told)
        try:
            exec(code, {"__name__": "__main__"})
        finally:
            sys.settrace(None)
    return events, out.getvalue()


def printed(piece):
    return piece.replace("\n", "\\n")


def answer(end, out, log):
    return end + "".join(f" | {printed(p)}" for p in out) + "".join(f" | log {printed(p)}" for p in log)


def whole(count, options=""):
    """The pieces of out and of the log where nothing fails."""
    events, text = run(count)
    lines, acts = sum(e.startswith("line ") for e in events), acts_of(count)
    log = events if "--events" in options else []
    if "--stats" in options:
        log = log + [f"acts {acts}\ninstructions {acts + INSTRUCTIONS_BESIDE_ACTS}\ndepth 2\n"]
    return [text, f"acts {acts}\nlines {lines}\nending done\n"], log


def rows():
    for count in (0, 1, 2, 3, 10, 2000):
        yield f"gen {count}", answer("0 done", *whole(count))
    for word, count in (("002", 2), ("0" * 40 + "2", 2), ("00", 0)):
        yield f"gen {word}", answer("0 done", *whole(count))
    for options in ("--events", "--stats", "--events --stats"):
        yield f"gen 0 {options}", answer("0 done", *whole(0, options))
    for count in (1, 2):
        yield f"--events gen {count}", answer("0 done", *whole(count, "--events"))
    (text, summary), log = whole(2, "--events")
    for words in ("2001", "02001", "18446744073709551616", "x", "2x", "a.py", "''", "-1", "+1", "0x1", "1.0", "1_0", "1 2", "1 a.py", "--steps 5"):
        yield f"gen {words}", USAGE
    yield "gen", USAGE
    yield "Gen 1", USAGE
    # the bound, spent before and behind what is printed
    yield "gen 2 --steps 0", answer("3 spent 0", [], ["pt: spent after 0 acts\n"])
    yield "gen 2 --steps 69", answer("3 spent 69", [], ["pt: spent after 69 acts\n"])
    yield "gen 2 --steps 70", answer("3 spent 70", [text], ["pt: spent after 70 acts\n"])
    yield "gen 2 --steps 71", answer("0 done", [text, summary], [])
    yield "gen 2 --steps 69 --events", answer("3 spent 69", [], log[:-1] + ["pt: spent after 69 acts\n"])
    # no file is read
    yield "gen 2, read 1", answer("0 done", [text, summary], [])
    # writes that fail: of what is printed, of the summary, of an event, of the totals, and of the text of the end
    yield "gen 2, write 1", answer("10 write fault Out", [], [])
    yield "gen 2, write 2", answer("10 write fault Out", [text], [])
    yield "gen 2, write 3", answer("0 done", [text, summary], [])
    yield "gen 2 --events, log 3", answer("10 write fault Log", [], log[:2])
    yield f"gen 2 --events, log {len(log)}", answer("10 write fault Log", [text], log[:-1])
    yield "gen 0 --stats, log 1", answer("10 write fault Log", whole(0)[0][:1], [])
    yield "gen 0 --events --stats, write 2", answer("10 write fault Out", whole(0)[0][:1], whole(0, "--events --stats")[1])
    yield "gen 2 --steps 5, log 1", answer("10 write fault Log", [], [])
    yield "gen 2, log 1", answer("0 done", [text, summary], [])


def main():
    told, names = [(f"{words}:", end) for words, end in rows()], (CRATE / "args").read_text().split()
    head = "# scripts that are made of a number"
    answers = iter((CRATE / "stdout").read_text(encoding="utf-8").splitlines())
    kept = {name: [next(answers) for _ in (CRATE / "data" / name).read_text().splitlines()] for name in names}
    kept["gen.txt"] = [head, *(end for _, end in told)]
    (CRATE / "data" / "gen.txt").write_text("".join(f"{line}\n" for line in [head, *(row for row, _ in told)]), encoding="utf-8")
    (CRATE / "args").write_text("".join(f"{name}\n" for name in kept))
    (CRATE / "stdout").write_text("".join(f"{line}\n" for lines in kept.values() for line in lines), encoding="utf-8")


if __name__ == "__main__":
    main()
