"""Times the program beside CPython 3.12 on scripts, each at one size and at twice the size.

Each runs a script seven times, by turns, with what it writes into files. What is printed: the least times, the greatest memory, how the times
grow, and the program's time in CPython's. CPython is the `python3` of the path, or what the variable PYTHON names; PT is the program, where it
isn't the proved one of this folder.
"""

import os
import shlex
import sys
import tempfile
from dataclasses import dataclass
from pathlib import Path

from timing import RUNS, run_once

TOP = Path(__file__).resolve().parent.parent
STEPS = 1_000_000_000
# CPython with a trace function that does nothing, and with one that writes each event in one piece, as the program does
TRACED = """\
import os, sys
def quiet(frame, event, argument):
    return quiet
def telling(frame, event, argument):
    os.write(2, f"{{event}} {{frame.f_lineno}} {{frame.f_code.co_name}}\\n".encode())
    return telling
code = compile(open(sys.argv[1]).read(), sys.argv[1], "exec")
sys.settrace({tracer})
exec(code, {{"__name__": "__main__"}})
"""


@dataclass
class Case:
    """A script with its size as `{size}`, the program's command, and a trace function for CPython."""

    name: str
    script: str
    size: int
    command: str = "run"
    tracer: str | None = None


def measured(commands, folder):
    """The least seconds and the greatest KiB of each of these commands, and that they write the same output."""
    rows = [[run_once(words, Path(folder, f"out{at}"), Path(folder, "log")) for at, words in enumerate(commands)] for _ in range(RUNS)]
    if len({Path(folder, f"out{at}").read_bytes() for at in range(len(commands))}) > 1:
        sys.exit("the outputs differ")
    return [(min(r[at][0] for r in rows), max(r[at][1] for r in rows)) for at in range(len(commands))]


def time_cases(cases):
    """Prints a row for each case."""
    python = os.environ.get("PYTHON", "python3")
    pt = shlex.split(os.environ.get("PT", f"{TOP / 'pt'} --only-proved"))
    print(f"{'':30} {'size':>9} {'pt':>8} {'KiB':>8} {'CPython':>8} {'KiB':>8} {'in CPython':>11} {'twice: pt':>10} {'CPython':>8}")
    with tempfile.TemporaryDirectory() as folder:
        script, harness = Path(folder, "script.py"), Path(folder, "traced.py")
        for case in cases:
            figures = []
            for size in (case.size, 2 * case.size):
                script.write_text(case.script.format(size=size))
                harness.write_text(TRACED.format(tracer=case.tracer))
                theirs = [python, script] if case.tracer is None else [python, harness, script]
                figures.append(measured([[*pt, case.command, script, "--steps", str(STEPS)], theirs], folder))
            ((own, own_memory), (other, other_memory)), ((own_twice, _), (other_twice, _)) = figures
            print(f"{case.name:30} {case.size:9} {own:8.3f} {own_memory:8} {other:8.3f} {other_memory:8} {own / other:11.2f} {own_twice / own:10.2f} "
                  f"{other_twice / other:8.2f}", flush=True)
