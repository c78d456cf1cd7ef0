"""Reads the code file of each script back, and checks it against the listing of the same code and against CPython's ast.

  check.py [SCRIPT ..]

The files and listings are those of the program, by the command PT. A file has to be one by the format (`reader`); its blocks, instructions
and acts have to give the listing, byte by byte; and what a listing doesn't show has to be that of the script: the kind, the first line and
the parameters of each block, lines on which statements start, constants, and tables whose places are those of instructions.
"""
import ast
import glob
import os
import shlex
import subprocess
import sys

HERE = os.path.dirname(os.path.abspath(__file__))
sys.path[:0] = [os.path.join(HERE, "..", "front")]
import acts  # noqa: E402
import reader  # noqa: E402

SCRIPTS = os.path.join(HERE, "..", "dis", "scripts", "*.py")
KINDS = {ast.Module: reader.MODULE, ast.ClassDef: reader.CLASS, ast.GeneratorExp: reader.GENERATOR_EXPRESSION}


class Differs(Exception):
    pass


def by_program(command, script):
    program = os.environ.get("PT", os.path.join(HERE, "..", "..", "pt") + " --only-proved")
    run = subprocess.run([*shlex.split(program), command, script], capture_output=True)
    if run.returncode != 0 or run.stderr:
        raise Differs(f"{command} ends with status {run.returncode}")
    return run.stdout


def inner(node):
    """The nodes below one that are not in a block of their own below it, without annotations."""
    waiting, found = list(ast.iter_child_nodes(node)), []
    while waiting:
        each = waiting.pop()
        found.append(each)
        if not isinstance(each, (ast.FunctionDef, ast.ClassDef, ast.Lambda, ast.GeneratorExp)):
            waiting += ast.iter_child_nodes(each)
    return found


def own(node):
    """What a block runs: for a function or lambda its body alone."""
    body = node.body if isinstance(node.body, list) else [node.body]
    return body + [each for part in body if not isinstance(part, (ast.FunctionDef, ast.ClassDef)) for each in inner(part)]


def kind_of(node):
    if type(node) in KINDS:
        return KINDS[type(node)]
    gives_on = any(isinstance(each, (ast.Yield, ast.YieldFrom)) for each in own(node))
    return reader.GENERATOR if gives_on else reader.FUNCTION


def check_heading(node, block):
    if block.kind != kind_of(node):
        raise Differs(f"{block.name} has the kind {block.kind}")
    first = 1 if isinstance(node, ast.Module) else first_line(node)
    if block.first_line != first:
        raise Differs(f"{block.name} starts on line {block.first_line}, not {first}")
    if not isinstance(node, (ast.FunctionDef, ast.Lambda)):
        return
    given = node.args
    wanted = ([each.arg for each in given.args], [each.arg for each in given.kwonlyargs], given.vararg, given.kwarg)
    counts = (len(wanted[0]), len(wanted[1]), given.vararg is not None, given.kwarg is not None)
    if (block.plain, block.keyword_only, block.takes_rest, block.takes_named_rest) != counts:
        raise Differs(f"{block.name} has other parameters")
    names = wanted[0] + wanted[1] + [each.arg for each in wanted[2:] if each]
    if block.locals[:len(names)] != names:
        raise Differs(f"{block.name} has the locals {block.locals}, not first the parameters {names}")


def check_places(block):
    places = {place for place, _, _ in block.instructions}
    _, last, operands = block.instructions[-1]
    end = block.instructions[-1][0] + 1 + 4 * len(operands)
    for table in (block.marks, block.starts):
        rows = [row[0] for row in table]
        if not set(rows) <= places or rows != sorted(set(rows)):
            raise Differs(f"{block.name} has marks or starts at {rows}")
    for start, to, target, _, _ in block.handlers:
        if not {start, target} <= places or to not in places | {end}:
            raise Differs(f"{block.name} has a handler from {start} to {to} at {target}")


def is_elif(node, source):
    return isinstance(node, ast.If) and source[node.lineno - 1].encode()[node.col_offset:].startswith(b"elif")


def first_line(node):
    return min([node.lineno, *(each.lineno for each in getattr(node, "decorator_list", []))])


def check_starts(node, block, source):
    """A statement of the block starts on each line of its starts, and the other way around."""
    if not isinstance(getattr(node, "body", None), list):
        return
    lines = {first_line(each) for each in own(node) if isinstance(each, ast.stmt) and not is_elif(each, source)}
    if {line for _, line in block.starts} != lines:
        raise Differs(f"{block.name} has starts on {sorted({line for _, line in block.starts})}, not {sorted(lines)}")


def check_constants(tree, file):
    """Each constant of the file that no node of the script has is one that code needs beside them."""
    written = {(type(each.value), each.value) for each in ast.walk(tree) if isinstance(each, ast.Constant)}
    added = [each for each in file.constants if (type(each), each) not in written]
    if not all(each in (None, True, False, "") for each in added):
        raise Differs(f"the constants {added} are none of the script's")
    if len({(type(each), each) for each in file.constants}) != len(file.constants) or len(set(file.texts)) != len(file.texts):
        raise Differs("a constant or a text is there twice")


def check(script):
    data = by_program("build", script)
    try:
        file = reader.read(data)
    except reader.BadFile as e:
        raise Differs("no code file: {} at {}".format(*e.args)) from None
    if reader.listing(file).encode() != by_program("dis", script):
        raise Differs("the file has other code than the listing")
    with open(script, encoding="utf-8") as f:
        source = f.read()
    tree = ast.parse(source)
    nodes = [tree] + acts.nodes(tree)
    if len(file.blocks) != len(nodes):
        raise Differs(f"{len(file.blocks)} blocks, not {len(nodes)}")
    for node, block in zip(nodes, file.blocks):
        check_heading(node, block)
        check_places(block)
        check_starts(node, block, source.splitlines())
    check_constants(tree, file)
    return len(data), len(nodes)


def main():
    scripts = sys.argv[1:] or sorted(glob.glob(SCRIPTS))
    wrong, size, blocks = 0, 0, 0
    for script in scripts:
        try:
            n, b = check(script)
            size, blocks = size + n, blocks + b
        except Differs as e:
            wrong += 1
            print(f"{os.path.basename(script)}: {e}")
    print(f"{len(scripts)} files of {size} bytes with {blocks} blocks, {wrong} wrong")
    return 1 if wrong else 0


if __name__ == "__main__":
    sys.exit(main())
