"""Compares the reports of `cover` and `profile` with two independent counts: by the plain model of model.py over the events that `trace`
tells of the same script, and by a trace function in CPython 3.12.1, but for what docs/DECISIONS.md lists under "What CPython tells
otherwise". Output and ending are those of `run`, and events and totals stand in the log where they are asked for.

  compare.py [--from N] [--many N] [--jobs N]     with PT the command of the program
"""
import argparse
import ast
import collections
import glob
import multiprocessing
import os
import subprocess
import sys
import tempfile
import warnings

HERE = os.path.dirname(os.path.abspath(__file__))
sys.path[:0] = [os.path.join(HERE, "..", "compare"), HERE]
import model  # noqa: E402
from answers import DONE, KINDS, RAISED, SPENT, ByProgram, by_cpython, events_of  # noqa: E402
import deep  # noqa: E402
from layout import broken, compared  # noqa: E402
from programs import program  # noqa: E402

COMBINATIONS = [[], ["--events"], ["--stats"], ["--events", "--stats"]]


def answer(command, word, path, options=()):
    done = subprocess.run([*command, word, path, *options], capture_output=True, stdin=subprocess.DEVNULL, timeout=120)
    return done.returncode, done.stdout, done.stderr


def pieces_of(log):
    """The events, and what stands behind the totals."""
    lines = log.splitlines(keepends=True)
    events = next((i for i, line in enumerate(lines) if line.split(b" ")[0].decode() not in KINDS), len(lines))
    return lines[:events], b"".join(lines[events:])


def names_of(text):
    """The names of the blocks in the order in which their nodes start, an outer block before an inner one."""
    found = []

    def visit(node):
        match node:
            case ast.FunctionDef() | ast.ClassDef():
                first = min([node.lineno, *(d.lineno for d in node.decorator_list)])
                found.append(((first, -1 if node.decorator_list else node.col_offset, len(found)), node.name))
            case ast.Lambda():
                found.append(((node.lineno, node.col_offset, len(found)), "<lambda>"))
            case ast.GeneratorExp():
                found.append(((node.lineno, node.col_offset, len(found)), "<genexpr>"))
        for child in ast.iter_child_nodes(node):
            visit(child)

    visit(ast.parse(text))
    return [b"<module>", *(name.encode() for _, name in sorted(found))]


def differences(command, text):
    with tempfile.TemporaryDirectory() as folder:
        path = os.path.join(folder, "script.py")
        with open(path, "wb") as script:
            script.write(text.encode())
        run, trace = answer(command, "run", path, ["--stats"]), answer(command, "trace", path)
        if run[0] not in (DONE, RAISED, SPENT):
            return None
        events, last = pieces_of(trace[2])
        stats = run[2][:len(run[2]) - len(last)]
        found = []
        for word, kind in (("cover", "lines"), ("profile", "names")):
            told = None
            for options in COMBINATIONS:
                status, out, log = answer(command, word, path, options)
                if (status, out) != run[:2]:
                    found.append(f"{word} {options} ends {status} with {out[-80:]!r}, run {run[0]} with {run[1][-80:]!r}")
                front = b"".join(events) if "--events" in options else b""
                behind = (stats if "--stats" in options else b"") + last
                if not log.startswith(front) or not log.endswith(behind):
                    found.append(f"{word} {options} has the log {log[:200]!r}")
                    continue
                report = log[len(front):len(log) - len(behind)]
                if told is not None and report != told:
                    found.append(f"{word} {options} reports otherwise")
                told = report
            given = [int(row.split()[0]) for row in told.splitlines()[:-1]] if kind == "lines" else names_of(text)
            wanted = model.report(kind, given, events)
            if told != wanted:
                found.append(f"{word} reports {told!r}, the model {wanted!r}")
            if kind == "lines" and run[0] in (DONE, RAISED):
                found += beside_cpython(text, trace[2].decode(), given)
    return found


def beside_cpython(text, log, given):
    own, _ = events_of(text, log.splitlines())
    _, _, wanted = by_cpython(text)
    own, wanted = compared(own, text), compared(wanted, text)
    counts, others = (collections.Counter(e[2] for e in events if e[0] == "line") for events in (own, wanted))
    if counts != others:
        return [f"lines are begun {dict(counts)}, in CPython {dict(others)}"]
    return [f"line {line} is begun and isn't reported" for line in counts if line not in given]


def random_script(seed):
    text = program(seed, containers=seed % 4 > 0, exceptions=seed % 5 == 0, forms=seed % 4 > 1)
    return broken(text, seed) if seed % 2 else text


def one(task):
    warnings.simplefilter("ignore")
    command, name, text = task
    try:
        return name, deep.call(lambda: differences(command, text))
    except subprocess.TimeoutExpired:
        return name, ["takes too long"]


def main():
    parser = argparse.ArgumentParser()
    parser.add_argument("--from", type=int, default=0, dest="first")
    parser.add_argument("--many", type=int, default=100)
    parser.add_argument("--jobs", type=int, default=2)
    words = parser.parse_args()
    command = ByProgram().command
    scripts = [(path, open(path, encoding="utf-8").read()) for path in sorted(glob.glob(os.path.join(HERE, "..", "compare", "scripts", "*.py")))]
    scripts += [(f"seed {seed}", random_script(seed)) for seed in range(words.first, words.first + words.many)]
    compared, differ = 0, 0
    with multiprocessing.Pool(words.jobs) as pool:
        for name, found in pool.imap_unordered(one, [(command, *script) for script in scripts], chunksize=4):
            compared += found is not None
            differ += bool(found)
            for line in found or []:
                print(f"{name}: {line}")
    print(f"{compared} scripts, {differ} differ")
    return differ > 0


if __name__ == "__main__":
    sys.exit(main())
