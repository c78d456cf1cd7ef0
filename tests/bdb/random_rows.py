"""Random sessions, lines of commands and files of them by the program of test_debugger, beside the rules of rules.py.

usage: random_rows.py [--many N] [--from SEED]. The program is proved and built first, where what is built of it is older than its
sources; PROGRAM names another. Run with Python 3.12 in this folder.
"""
import argparse
import random
import subprocess
import sys
import tempfile
from pathlib import Path

import cases
import rows
import rules

HERE = Path(__file__).resolve().parent
sys.path.insert(0, str(HERE.parent.parent / "bench"))
import timing


def session():
    return rows.session_row("b.py", range(1, 5), cases.session())


def command():
    line = cases.line()
    return rows.escaped(line), rows.debug(rules.command(line))


def file():
    data = bytes(random.choices(b"\n\n\r\rsnp \xff\xc3\xa9", k=random.randrange(24)))
    return rows.byte_row(data), rows.printed("".join(map(rows.line_told, rules.command_lines(data))))


def compare(name, row_of, seeds):
    """How many rows the program answers otherwise than the rules."""
    tables, expected = [], []
    for seed in seeds:
        random.seed(seed)
        row, told = row_of()
        tables.append(row)
        expected.append(told)
    with tempfile.TemporaryDirectory() as folder:
        path = Path(folder, f"{name}.txt")
        path.write_text("".join(row + "\n" for row in tables))
        words = [timing.program("test_debugger"), name, path]
        out = subprocess.run(words, capture_output=True, text=True, check=True).stdout.splitlines()
    differ = [i for i, (a, b) in enumerate(zip(out, expected, strict=True)) if a != b]
    for i in differ[:5]:
        print(f"seed {seeds[i]}: {tables[i]}\n  program: {out[i]}\n  rules: {expected[i]}")
    stops, answers = (sum(told.count(word) for told in expected) for word in ("stop\\n", "(Pdb) "))
    print(f"{len(out)} {name} with {stops} stops and {answers} prompts, {len(differ)} differ")
    return len(differ)


def main():
    parser = argparse.ArgumentParser()
    parser.add_argument("--many", type=int, default=10_000)
    parser.add_argument("--from", type=int, default=1, dest="seed")
    given = parser.parse_args()
    seeds = range(given.seed, given.seed + given.many)
    kinds = {"sessions": session, "commands": command, "files": file}
    return any([compare(name, row_of, seeds) for name, row_of in kinds.items()])


if __name__ == "__main__":
    sys.exit(main())
