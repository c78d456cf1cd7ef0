"""Writes the table of test_tracebacks, and what CPython prints of its rows.

Run with CPython 3.12 in this folder. A row has the name of a file, `run` with a script's text or `exec`, the names of blocks, and the
exceptions, the one that left the script first: the class, the argument or `-`, the numbers of cause and context, whether this is hidden,
and the lines and blocks of the frames, the newest call first.
"""

from pathlib import Path

import raising
from escapes import escape_ascii

CRATE = Path(__file__).resolve().parent.parent.parent / "crates" / "test_tracebacks"
ESCAPES = {"\\": "\\\\", "\n": "\\n", "\r": "\\r", "\t": "\\t", "\f": "\\f"}


def escaped(text, blanks=False):
    """A text on one line, in the signs of test_notation."""
    return "".join(ESCAPES.get(c) or ("\\x20" if c == " " and blanks else c) for c in text) if text else "\\_"


def without_source(text):
    """A traceback as that of a file of code, which has no source lines."""
    return "".join(line for line in text.splitlines(keepends=True) if not line.startswith("    "))


def main():
    rows, answers = [], []
    for n, (name, text, exceptions, expected) in enumerate(raising.cases()):
        blocks = sorted({block for x in exceptions for _, block in x[5]})
        fields = []
        for class_name, argument, cause, context, hides, frames in exceptions:
            trace = ",".join(f"{line}:{blocks.index(block)}" for line, block in frames)
            fields.append(" ".join([
                class_name, "-" if argument is None else escaped(argument, blanks=True), "-" if cause is None else str(cause),
                "-" if context is None else str(context), "hides" if hides else "shows", trace or "-"]))
        rest = [",".join(blocks), *fields]
        rows.append("\t".join([name, f"run {escaped(text)}", *rest]))
        answers.append(escape_ascii(expected))
        if n % 5 == 0:
            rows.append("\t".join([name, "exec", *rest]))
            answers.append(escape_ascii(without_source(expected)))
    (CRATE / "data").mkdir(exist_ok=True)
    (CRATE / "data" / "rows.txt").write_text("\n".join(rows) + "\n")
    (CRATE / "stdout").write_text("\n".join(answers) + "\n")
    print(f"{len(rows)} rows")


if __name__ == "__main__":
    main()
