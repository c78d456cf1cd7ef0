"""The names of the blocks and comprehensions of scripts as CPython before 3.12 has them, where a comprehension has a code object of its own.
A list of scripts in JSON comes in, and a list of answers goes out. For each script they are in the order in which they start."""
import ast
import dis
import inspect
import json
import sys
import warnings

NODES = (ast.FunctionDef, ast.Lambda, ast.ClassDef, ast.GeneratorExp, ast.ListComp, ast.SetComp, ast.DictComp)
COMPREHENSIONS = ("<listcomp>", "<setcomp>", "<dictcomp>")


def at_line(node, line):
    node.lineno = node.end_lineno = line
    node.col_offset, node.end_col_offset = 0, 1


class AsksForClass(ast.NodeTransformer):
    """Each function asks for its class."""

    def visit_FunctionDef(self, node):
        self.generic_visit(node)
        node.body.append(ast.fix_missing_locations(ast.copy_location(ast.Expr(ast.Name("__class__", ast.Load())), node)))
        return node

    def visit_Lambda(self, node):
        self.generic_visit(node)
        asked = ast.Tuple([node.body, ast.Name("__class__", ast.Load())], ast.Load())
        node.body = ast.fix_missing_locations(ast.copy_location(asked, node))
        return node


def codes(module):
    """The code objects and those around them, by the order in which their nodes start. Each gets a line of its own, by which it is known."""
    nodes = [n for n in ast.walk(module) if isinstance(n, NODES)]
    nodes.sort(key=lambda n: (n.lineno, n.col_offset))
    annotations = [n.annotation for n in ast.walk(module) if isinstance(n, ast.AnnAssign)]
    assert not any(isinstance(m, NODES) for a in annotations for m in ast.walk(a))
    for i, node in enumerate(nodes):
        at_line(node, i + 2)
        for decorator in getattr(node, "decorator_list", []):
            at_line(decorator, i + 2)
    found, parents = {}, {}

    def walk(code, number):
        found[number] = code
        for c in code.co_consts:
            if hasattr(c, "co_code"):
                parents[c.co_firstlineno - 1] = number
                walk(c, c.co_firstlineno - 1)
    walk(compile(module, "script", "exec"), 0)
    return found, parents



def found_by(code, *operations):
    """The names that instructions find so."""
    return sorted({i.argval for i in dis.get_instructions(code) if i.opname in operations})


def is_class(code, parent):
    return not code.co_flags & inspect.CO_OPTIMIZED and parent is not None


def parameters(code):
    count = code.co_argcount + code.co_kwonlyargcount + sum(bool(code.co_flags & f) for f in (inspect.CO_VARARGS, inspect.CO_VARKEYWORDS))
    return [x for x in code.co_varnames[:count] if x != ".0"]


def answer(text):
    plain, parents = codes(ast.parse(text))
    asking, _ = codes(AsksForClass().visit(ast.parse(text)))
    assert sorted(plain) == sorted(asking) == list(range(len(plain)))
    return [{
        "name": c.co_name, "parent": p, "comprehension": c.co_name in COMPREHENSIONS, "class": is_class(c, p),
        "parameters": parameters(c),
        "locals": [x for x in c.co_varnames if x != ".0"], "cells": [x for x in c.co_cellvars if x != "__class__"],
        "frees": [x for x in c.co_freevars if x != "__class__"], "bound": found_by(c, "STORE_NAME", "DELETE_NAME"),
        "globals": found_by(c, "LOAD_GLOBAL", "STORE_GLOBAL", "DELETE_GLOBAL"),
        "has_class": "__class__" in (k.co_cellvars if is_class(c, p) else k.co_freevars),
    } for c, k, p in ((plain[i], asking[i], parents.get(i)) for i in range(len(plain)))]


if __name__ == "__main__":
    warnings.simplefilter("ignore")
    sys.setrecursionlimit(100000)
    json.dump([answer(text) for text in json.load(sys.stdin)], sys.stdout)
