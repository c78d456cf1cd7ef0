"""Times the front end on files of 1 MiB of several shapes, and of twice the size.

Each is run seven times. What is printed: the least time beyond that of an empty file, the greatest
memory, and the ratio of the times. Of repeats the least is told, here and in what uses this: higher
times come of what else the machine does (LIB `timeit`, `Timer.repeat`).
"""

import os
import subprocess
import sys
import tempfile
import time
from pathlib import Path

TOP = Path(__file__).resolve().parent.parent
CRATES = TOP / "crates"
# the programs that read a text as a kind
PROGRAMS = {"tokens": "test_tokens", "trees": "test_front", "scopes": "test_front"}
MEBIBYTE = 1 << 20
# how often each is run
RUNS = 7

ORDINARY = '''
def area(width, height=1, *, scale=1):
    """The area of a rectangle."""
    total = width * height  # unscaled
    for step in range(0, 10):
        if step % 2 == 0 and total != 0x1F:
            total += step ** 2 - (width // 3)
        else:
            print(f"{step:>{width}} of {total!r}", "done\\n", sep=" ")
    return [total, {"width": width, 'height': height}]

'''


def repeated(text, size):
    return text * (size // len(text))


def blocks(size):
    lines = ["if x:\n" if depth == 0 else " " * depth + "if x:\n" for depth in range(100)]
    return repeated("".join(lines) + " " * 100 + "x\n", size)


def run_once(words, output=None, log=None):
    """Seconds and peak KiB of one run, with what it writes into these files, where they are given."""
    with open(output or os.devnull, "wb") as out, open(log or os.devnull, "wb") as err:
        start = time.perf_counter()
        child = subprocess.Popen(words, stdout=out if output else None, stderr=err if log else None)
        _, status, usage = os.wait4(child.pid, 0)
        seconds = time.perf_counter() - start
    child.returncode = os.waitstatus_to_exitcode(status)
    if child.returncode != 0:
        sys.exit(f"{words} ended with status {child.returncode}")
    return seconds, usage.ru_maxrss


def run(words, output=None):
    """Seconds and peak KiB: the least and the greatest of the runs, with what they write into this file, where it is given."""
    rows = [run_once(words, output) for _ in range(RUNS)]
    return min(r[0] for r in rows), max(r[1] for r in rows)


def needs():
    """The crates of crates.txt, each with those of the repository that it stands on."""
    lines = [it.split("#")[0] for it in (TOP / "crates.txt").read_text().splitlines()]
    rows = [it.partition(":") for it in lines if ":" in it]
    named = {head.split()[0]: below.split() for head, _, below in rows}
    return {crate: [it for it in below if it in named] for crate, below in named.items()}


def sources(crate):
    """The files that a crate's program is made of: its own, and those of the crates below it."""
    below, found = needs(), [crate]
    for it in found:
        found += [one for one in below[it] if one not in found]
    return (file for it in found for part in ("src", "specs", "proofs") for file in (CRATES / it / part).rglob("*"))


def program(crate, *words):
    """The program of a crate: what the variable PROGRAM names, or what is built of it, where none of its sources has changed since.
    Else it is proved and built first, with the crates below it that aren't, by a run with these words."""
    if "PROGRAM" in os.environ:
        return Path(os.environ["PROGRAM"])
    path = CRATES / crate / "out" / crate
    if not path.exists() or any(it.stat().st_mtime > path.stat().st_mtime for it in sources(crate)):
        print(f"{crate} is proved and built first", file=sys.stderr, flush=True)
        built = subprocess.run(["rt", "run", *(["--", *words] if words else [])], cwd=CRATES / crate, capture_output=True, text=True)
        if built.returncode != 0:
            sys.exit(built.stdout + built.stderr)
    return path


def command(kind):
    """The words that read a text as this kind, of a proved program."""
    return [program(PROGRAMS[kind]), "time", kind]


def main(kind, shapes):
    """Times what is read of texts of these shapes: their tokens or trees."""
    words = command(kind)
    with tempfile.TemporaryDirectory() as files:
        path = Path(files, "script")
        path.write_text("")
        start, _ = run([*words, path])
        for name, shape in shapes.items():
            times = []
            for size, twice in [(MEBIBYTE, ""), (2 * MEBIBYTE, " twice")]:
                path.write_text(shape(size))
                seconds, memory = run([*words, path])
                times.append(seconds - start)
                print(f"{name + twice:26} {seconds - start:7.3f} s  {memory:8} KiB")
            print(f"{name + ' ratio':26} {times[1] / times[0]:7.2f}")
