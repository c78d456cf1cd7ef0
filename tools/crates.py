"""The crates of the repository by layers, each with what it is for: the table at the end of docs/ARCHITECTURE.md.

usage: crates.py [--check]: prints the table, made of crates.txt and of the first sentence of each crate's documentation;
with --check it prints nothing, and the exit status is 1 where the page has another one.
"""
import re
import sys
from pathlib import Path

TOP = Path(__file__).resolve().parent.parent
PAGE = TOP / "docs/ARCHITECTURE.md"
HEAD = "## The crates"
# a longer sentence is cut at its first stop, so that a crate has one line
MOST = 130


def purpose(name):
    """The first sentence of what a crate says of itself, without the places in the references."""
    folder = TOP / "crates" / name / "src"
    text = next(it for it in (folder / "lib.rt", folder / "main.rt") if it.exists()).read_text()
    said = " ".join(line[3:].strip() for line in text.splitlines() if line.startswith("//!"))
    said = re.sub(r" \([^()]*Reference[^()]*\)", "", said)
    sentence = re.split(r"(?<=[^.])\.(?: |$)", said)[0]
    return sentence if len(sentence) <= MOST else re.split(r"[:;,] ", sentence)[0]


def table():
    lines = []
    for line in (TOP / "crates.txt").read_text().splitlines():
        if line.startswith("#"):
            lines += ["", f"**{line[2:3].upper()}{line[3:]}**", "", "| Crate | For |", "|---|---|"]
        elif named := re.match(r"(\w+):", line):
            lines.append(f"| {named[1]} | {purpose(named[1])} |")
    return "\n".join(lines).strip() + "\n"


def main(words):
    if words == ["--check"]:
        return int(PAGE.read_text().partition(HEAD)[2].strip() != table().strip())
    if words:
        sys.exit("usage: tools/crates.py [--check]")
    print(table(), end="")
    return 0


if __name__ == "__main__":
    sys.exit(main(sys.argv[1:]))
