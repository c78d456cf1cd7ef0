"""Operations and methods as scripts through the program, beside what CPython 3.12.1 prints for the same scripts. PT is the command.

usage: through.py [--many N] [--show NUMBER] [--jobs N]

A script prints what some operations answer, each in a `try` of its own: its value, or the class of its error. Where an operation leaves
the profile, that is counted by its cause, and the script runs again without it. What the project has otherwise by its rules isn't counted.
"""
import argparse
import collections
import contextlib
import io
import itertools
import multiprocessing
import os
import random
import re
import shlex
import subprocess
import sys
import tempfile
import warnings

TOP = os.path.join(os.path.dirname(os.path.abspath(__file__)), "..", "..")
OUTSIDE = re.compile(r"pt: outside the profile: (\w+) at line (\d+)$")
IN_SCRIPT = 40
ERRORS = ("ZeroDivisionError", "IndexError", "KeyError", "RecursionError", "StopIteration", "AttributeError", "TypeError", "ValueError", "Exception")
OPERANDS = ["None", "True", "0", "1", "-3", "7", "''", "'a'", "'h\\u00e9l'", "'ab ba'", "()", "(1, 'a')", "[]", "[3, 1, 2]", "[[1], 'b']", "range(4)",
            "range(9, 0, -3)", "{}", "{'a': 1, 2: [3]}", "{1, 2, 3}", "{2}", "len", "int", "slice_of[0]"]
BINARY = ["+", "-", "*", "//", "%", "**", "&", "|", "^", "<<", ">>", "<", "<=", ">", ">=", "==", "!=", "in", "not in", "is", "is not"]
UNARY = ["-", "+", "~", "not "]
INDICES = ["0", "-1", "5", "'a'", "None", "1:", ":-1", "::-1", "2:0:-1", "-9:9:2", "::0", "[1]", "1, 2"]
CALLS = ["len", "str", "repr", "bool", "int", "abs", "ord", "chr", "iter", "print", "sum", "any", "all", "min", "max", "sorted", "list", "tuple", "dict"]
METHODS = {
    "'aXb ab'": ["upper()", "lower()", "strip()", "strip('ab')", "split()", "split('a')", "split('')", "split(None)", "split('a', 1)", "replace('a', 'cc')",
                 "replace('', '-')", "find('b')", "find('z')", "index('b')", "index('z')", "count('a')", "startswith('a')", "endswith(('b', 'c'))",
                 "isdigit()", "isalpha()", "join(['1', '2'])", "join(('x',))", "join([1])", "join('ab')", "join({'x': 1})", "join(5)", "lstrip()", "rstrip()", "title()", "find(1)", "nothing()"],
    "[3, 1, 2]": ["append(4)", "pop()", "pop(0)", "pop(9)", "insert(1, 'x')", "insert(-9, 0)", "remove(1)", "remove(9)", "index(2)", "index(9)", "count(3)",
                  "reverse()", "clear()", "copy()", "extend([5])", "extend((6, 7))", "extend('ab')", "extend(range(2))", "extend(5)", "sort()", "sort(reverse=True)",
                  "sort(key=str)", "sort(key=lambda n: n % 2)", "sort(key=5)", "pop('a')", "nothing()"],
    "(1, 2, 1)": ["index(2)", "index(9)", "count(1)", "nothing()"],
    "{'a': 1, 'b': 2}": ["get('a')", "get('z')", "get('z', 0)", "get([])", "pop('a')", "pop('z')", "pop('z', None)", "setdefault('a', 5)", "setdefault('c', 5)",
                         "keys()", "values()", "items()", "clear()", "copy()", "update({'a': 3})", "update([('c', 4), 'de'])", "update([5])", "update(5)", "popitem()", "nothing()"],
    "{1, 2}": ["add(3)", "add([])", "discard(1)", "discard(9)", "remove(1)", "remove(9)", "copy()", "clear()", "nothing()"],
}
FORMATS = ["5", "<6", ">6", "^7", "*^7", "05", "+", ",", "x", "#x", "b", "o", "c", ".2", "s", "d", "q", "<", "10d", "_"]


def operations():
    """Each as the statements that come before it, an expression, and the names whose values are told behind it."""
    for a, operator, b in itertools.product(OPERANDS, BINARY, OPERANDS):
        yield f"a = {a}; b = {b}", f"a {operator} b", ""
    for operator, a in itertools.product(UNARY, OPERANDS):
        yield f"a = {a}", f"{operator}a", ""
    for a, index in itertools.product(OPERANDS, INDICES):
        yield f"a = {a}", f"a[{index}]", ""
    for call, a in itertools.product(CALLS, OPERANDS):
        yield f"a = {a}", f"{call}(a)", ""
    for a, methods in METHODS.items():
        for method in methods:
            yield f"a = {a}", f"a.{method}", "a"
    for a, spec in itertools.product(OPERANDS, FORMATS):
        yield f"a = {a}", f"f'{{a:{spec}}}'", ""


def in_lines(operation):
    before, expression, told = operation
    tail = f", {told}" if told else ""
    return [f"{before}", "try:", f"    print({expression}{tail})", *[it for e in ERRORS for it in (f"except {e}:", f"    print('{e}')")]]


def script_of(chosen):
    """The script of some operations, and for each of its lines the number of its operation."""
    lines, of = ["slice_of = [0]"], [None]
    for number, operation in enumerate(chosen):
        told = in_lines(operation)
        lines += told
        of += [number] * len(told)
    return "\n".join(lines) + "\n", of


def by_cpython(script):
    out = io.StringIO()
    with contextlib.redirect_stdout(out), warnings.catch_warnings():
        warnings.simplefilter("ignore")
        exec(compile(script, "script.py", "exec"), {"__name__": "__main__"})
    return out.getvalue()


def by_program(script):
    command = shlex.split(os.environ.get("PT") or f"{os.path.join(TOP, 'pt')} --only-proved")
    with tempfile.TemporaryDirectory() as folder:
        with open(os.path.join(folder, "script.py"), "w", encoding="utf-8") as file:
            file.write(script)
        done = subprocess.run([*command, "run", "script.py"], cwd=folder, capture_output=True, stdin=subprocess.DEVNULL, timeout=120)
    return done.returncode, done.stdout.decode(), done.stderr.decode()


def is_ours(expression, a, b, mine, wanted):
    """Whether the project has an answer of its own by its rules: a format spec for the text of any value, sets that are ordered by what was put in
    first and not by inclusion, texts without addresses and names of builtins, `is` by value, ValueError of `ord`, and `|` for integers and sets alone."""
    if expression.startswith("f'"):
        return not isinstance(a, (int, str))
    if isinstance(a, set) and isinstance(b, set) and re.search(r" [<>]=? ", expression):
        return mine == "TypeError\n"
    if " is " in expression or "<iterator object>" in mine or "<builtin_function_or_method object>" in mine:
        return True
    if " | " in expression and mine == "TypeError\n":
        return not isinstance(a, (int, set))
    if expression.startswith("ord("):
        return (mine, wanted) == ("ValueError\n", "TypeError\n")
    return isinstance(a, set) and mine.startswith("{") and eval(mine) == eval(wanted)


def operands(before):
    names = {"slice_of": [0]}
    exec(before, names)
    return names.get("a"), names.get("b")


def compare(chosen):
    """How many operations ran, what left the profile, and what differs."""
    left, chosen = collections.Counter(), list(chosen)
    while chosen:
        script, of = script_of(chosen)
        status, out, log = by_program(script)
        found = OUTSIDE.match(log.strip())
        if status != 4 or not found:
            break
        number = of[int(found[2]) - 1]
        left[found[1]] += 1
        del chosen[number]
    else:
        return 0, left, []
    if status != 0:
        return len(chosen), left, [f"status {status}: {log[-300:]}"]
    if out == by_cpython(script):
        return len(chosen), left, []
    differ = []
    for operation in chosen:
        alone, _ = script_of([operation])
        mine, wanted = by_program(alone), by_cpython(alone)
        if mine[1] != wanted and not is_ours(operation[1], *operands(operation[0]), mine[1], wanted):
            differ.append(f"{operation[0]}: {operation[1]}: {mine[1]!r}, CPython {wanted!r}")
    return len(chosen), left, differ


def main():
    parser = argparse.ArgumentParser()
    parser.add_argument("--many", type=int, default=4000, help="so many operations, by chance")
    parser.add_argument("--show", type=int, help="the script of this number")
    parser.add_argument("--jobs", type=int, default=os.cpu_count())
    a = parser.parse_args()
    every = list(operations())
    random.Random(1).shuffle(every)
    chosen = every[:a.many]
    scripts = [chosen[i:i + IN_SCRIPT] for i in range(0, len(chosen), IN_SCRIPT)]
    if a.show is not None:
        print(script_of(scripts[a.show])[0], end="")
        return 0
    ran, left, differ = 0, collections.Counter(), []
    with multiprocessing.Pool(a.jobs) as pool:
        for count, by_cause, found in pool.imap(compare, scripts):
            ran += count
            left += by_cause
            differ += found
    for it in differ:
        print(it)
    print(f"{ran} operations in {len(scripts)} scripts, {sum(left.values())} left the profile ({dict(left)}), {len(differ)} differ")
    return int(bool(differ))


if __name__ == "__main__":
    sys.exit(main())
