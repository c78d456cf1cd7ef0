"""Random calls of tools and of trace functions by the program of test_tracing, beside the plain checkers of rows.py.

usage: random_rows.py [--many N] [--from SEED]. The program is proved and built first, where what is built of it is older than its
sources; PROGRAM names another. Run in this folder.
"""
import argparse
import random
import subprocess
import sys
import tempfile
from pathlib import Path

import rows

HERE = Path(__file__).resolve().parent
sys.path.insert(0, str(HERE.parent.parent / "bench"))
import timing

KINDS = {"tools": (rows.Tools, rows.random_tools), "hooks": (rows.Hooks, rows.random_hooks)}


def compare(name, kind, row_of, seeds):
    """How many rows the program answers otherwise than the checker."""
    table = [row_of(random.Random(seed)) for seed in seeds]
    expected = [rows.answer(kind, row) for row in table]
    with tempfile.TemporaryDirectory() as folder:
        path = Path(folder, "rows.txt")
        path.write_text("".join(f"{name}: {row}\n" for row in table))
        out = subprocess.run([timing.program("test_tracing"), path], capture_output=True, text=True, check=True).stdout.splitlines()
    differ = [i for i, (a, b) in enumerate(zip(out, expected, strict=True)) if a != b]
    for i in differ[:5]:
        print(f"seed {seeds[i]}: {table[i]}\n  program: {out[i]}\n  checker: {expected[i]}")
    print(f"{len(out)} rows of {name} with {sum(row.count('; ') + 1 for row in table)} calls, {len(differ)} differ")
    return len(differ)


def main():
    parser = argparse.ArgumentParser()
    parser.add_argument("--many", type=int, default=5_000)
    parser.add_argument("--from", type=int, default=1, dest="seed")
    given = parser.parse_args()
    seeds = range(given.seed, given.seed + given.many)
    return any([compare(name, *how, seeds) for name, how in KINDS.items()])


if __name__ == "__main__":
    sys.exit(main())
