"""Writes what the program test_depth reads, and what it must print: the pieces of each of the deepest scripts on a line, and
the answer that CPython's nesting and the limits tell."""
from pathlib import Path

import shapes

CRATE = Path("../../crates/test_depth")


def escaped(text):
    return text.replace("\\", "\\\\").replace("\n", "\\n")


def main():
    rows = list(shapes.rows())
    (CRATE / "data").mkdir(parents=True, exist_ok=True)
    lines = ("\t".join(f"{kind} {count} {escaped(text)}" for count, kind, text in pieces) for _, pieces, _ in rows)
    (CRATE / "data" / "depths.txt").write_text("".join(line + "\n" for line in lines))
    (CRATE / "args").write_text("answers\ndepths.txt\n")
    (CRATE / "stdout").write_text("".join(f" {answer}\n" for _, _, answer in rows))


if __name__ == "__main__":
    main()
