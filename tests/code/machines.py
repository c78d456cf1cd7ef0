"""Code of statements in pieces, laid out by the definitions of `sem_compile.stm_pieces`, `sem_compile.emitter` and `pt_assembler`, and run by those of
`sem_code.slots` beside those of `sem_control.control` over the tree."""
import ast
import os
import re
import sys

HERE = os.path.dirname(os.path.abspath(__file__))
CRATES = os.path.join(HERE, "..", "..", "crates")
sys.path[:0] = [os.path.join(HERE, ".."), os.path.join(HERE, "..", "run"), os.path.join(HERE, "..", "fits")]

import scripts  # noqa: E402, F401
from checker import Block as PlainBlock  # noqa: E402
from checker import jump  # noqa: E402, F401
from definitions import STD, Definitions, integer, items, joined, listed, number  # noqa: E402
from scopes import Scopes  # noqa: E402
from trees import Trees  # noqa: E402

NONE, TT = ("None",), ("tt",)
KINDS = ["Module", "Function", "Generator", "Class", "GeneratorExpression"]
# the values None, True and False, which are the same for tree and code
NULL, TRUTH = 1, {True: 2, False: 3}


def item(xs, n, other):
    while xs != () and n:
        xs, n = xs[1], n - 1
    return xs[0] if xs != () else other


def slice_set(xs, n, value):
    return listed(value if i == n else x for i, x in enumerate(items(xs)))


def find(f, xs):
    while xs != ():
        if f(xs[0]):
            return ("Some", xs[0])
        xs = xs[1]
    return NONE


# words of std beside those that the definitions of a run use; a name is a text
WORDS = {
    **STD,
    "bytes_eq": lambda a, b: a == b,
    "nat_eq": lambda a, b: a == b,
    "int_eq": lambda a, b: a == b,
    "codes": lambda t: t,
    "get_or": item,
    "slice_index_or": item,
    "slice_set": slice_set,
    "flat_map": lambda f, xs: listed(y for x in items(xs) for y in items(f(x))),
    "filter": lambda f, xs: listed(x for x in items(xs) if f(x)),
    "find": find,
    "min": lambda a, b: min(a, b),
    "replicate": lambda n, x: listed([x] * n),
    "to_le_bytes": lambda width, n: listed(n.to_bytes(4, "little")),
    "w32": "32",
}


class Pieces(Definitions):
    """Instructions may stand as functions of their operands."""

    def __init__(self, crates):
        super().__init__(crates, WORDS)
        self.space.update(joined=joined, integer=integer, number=number)
        with open(os.path.join(crates, "pt_instr", "src", "lib.rt"), encoding="utf-8") as f:
            body = re.search(r"pub enum Instr \{(.*?)\n\}", f.read(), re.S).group(1)
        self.instructions = {m[1]: m[2].count(",") + 1 if m[2] else 0 for m in re.finditer(r"^    (\w+)(?:\(([^)]*)\))?,$", body, re.M)}

    def meaning(self, path, name):
        if path.endswith(".declared.Instr.TheVariants"):
            return ("constructor", name, self.instructions[name])
        return super().meaning(path, name)

    def get(self, crate, module, name):
        return super().get(f"Rattle.{crate}.specs.{module}", name)

    def remember(self, crate, module, name):
        """A definition of one argument is evaluated once for each value that is handed round."""
        d = self.module(f"Rattle.{crate}.specs.{module}").definitions[name]
        code, plain, known = self.function(d), self.compiled(d), {}

        def remembered(x):
            if id(x) not in known:
                known[id(x)] = x, plain(x)
            return known[id(x)][1]
        self.space[code] = remembered


class BlockScopes(Scopes):
    """The targets of comprehensions are names of their blocks alone, also where these are modules and classes."""

    def __init__(self, module):
        self.comprehended = {}
        super().__init__(module)

    def walk(self, n, block):
        if isinstance(n, (ast.ListComp, ast.SetComp, ast.DictComp)):
            names = {x.id for c in n.generators for x in ast.walk(c.target) if isinstance(x, ast.Name) and isinstance(x.ctx, ast.Store)}
            self.comprehended.setdefault(block, set()).update(names)
        super().walk(n, block)

    def capture(self, block, name):
        outer, between = block.around, [block]
        while outer is not None and name not in block.bound:
            if not outer.is_function() and name in self.comprehended.get(outer, ()):
                outer.cells.add(name)
                for b in between:
                    b.free.add(name)
                return
            between.append(outer)
            outer = outer.around
        super().capture(block, name)

    def scope(self, block, name):
        if not block.is_function() and name in self.comprehended.get(block, ()):
            return "cell" if name in block.cells else "local"
        return block.scope(name)


class Laid:
    """A block with its tree, its control, and its code; what is checked of it once, and its code object."""

    checked = object = None


class Script:
    """The blocks of a script, laid out one after another over the same tables."""

    def __init__(self, specs, text):
        self.specs = specs
        trees = Trees(text)
        scopes = BlockScopes(trees.module)
        records = items(specs.blocks_script(trees.tree))
        assert len(records) == len(trees.nodes)
        self.around_of = [self.around(scopes, trees.nodes, n) for n in trees.nodes]
        tables, self.blocks = ((), (), ()), []
        for node, record, around in zip(trees.nodes, records, self.around_of):
            b = Laid()
            b.node, b.tree, b.around = node, record["code"], around
            b.kind = self.kind_of(node, record["code"])
            b.piece = specs.code_piece(around, b.tree)
            b.parameters = self.parameters(node)
            texts, parameters = self.numbers(tables[0], b.parameters)
            texts, free = self.numbers(texts, sorted(scopes.blocks[node].free))
            b.written = specs.layout(b.piece, (), specs.begun(texts, *tables[1:], parameters, (), free, int(b.kind == 4)))
            tables = b.written["texts"], b.written["constants"], b.written["lists"]
            self.blocks.append(b)
        heading = {"name": {"0": 0}, "first_line": {"0": 1}, "parameters": 0, "rest": {"positional": False, "named": False}, "keyword_only": 0}
        for b in self.blocks:
            b.block = specs.block_of({**heading, "kind": (KINDS[b.kind],)}, b.written)
        self.code = {"texts": tables[0], "constants": tables[1], "lists": tables[2], "blocks": listed(b.block for b in self.blocks)}
        self.plain = {"texts": [x if x else "" for x in items(tables[0])], "lists": [items(xs) for xs in items(tables[2])],
                      "blocks": [self.plain_block(b) for b in self.blocks]}

    @staticmethod
    def numbers(texts, names):
        """The texts with these names, and their numbers."""
        xs = items(texts)
        xs += [x for x in names if x not in xs]
        return listed(xs), listed({"0": xs.index(x)} for x in names)

    @staticmethod
    def parameters(node):
        if not isinstance(node, (ast.FunctionDef, ast.Lambda)):
            return []
        a = node.args
        return [p.arg for p in [*a.args, *a.kwonlyargs, a.vararg, a.kwarg] if p]

    def kind_of(self, node, code):
        match node:
            case ast.Module():
                return 0
            case ast.ClassDef():
                return 3
            case ast.GeneratorExp():
                return 4
        return 2 if self.specs.yields(code) else 1

    def around(self, scopes, nodes, node):
        block = scopes.blocks[node]

        def variable(name):
            name = block.spell(name)
            return {"scope": (scopes.scope(block, name),), "name": name}

        def captured(number):
            free = sorted(scopes.blocks[nodes[number]].free)
            return listed({"scope": ("cell" if x in block.cells else "free",), "name": x} for x in free)
        return {"null": NULL, "variable": lambda within: variable, "spelled": block.spell, "captured": captured}

    def plain_block(self, b):
        """The block as the plain checker of code sees it."""
        names = [t["0"] for t in items(b.block["locals"])]
        return {"name": 0, "kind": b.kind, "line": 1, "parameters": len(b.parameters), "flags": 0, "keyword_only": 0, "locals": names,
                "cells": [t["0"] for t in items(b.block["cells"])], "free": [t["0"] for t in items(b.block["free"])],
                "code": bytes(items(b.block["instructions"])),
                "marks": [(m["pc"]["0"], m["act"]["0"], m["line"]["0"], int(m["again"])) for m in items(b.block["marks"])],
                "handlers": [(h["from"]["0"], h["to"]["0"], h["target"]["0"], h["depth"], int(h["always"])) for h in items(b.block["handlers"])],
                "starts": [(s["pc"]["0"], s["line"]["0"]) for s in items(b.block["starts"])]}

    def object(self, b, depth_at):
        """The code object of a block."""
        view, pc, marks = {}, 0, {m["pc"]["0"]: m for m in items(b.block["marks"])}
        for i in items(self.specs.instrs_of(b.written)):
            ins = self.specs.ins_at({**b.block, "marks": (marks[pc], ()) if pc in marks else ()}, pc, i)
            view[pc] = ("Some", ins)
            pc = ins["next"]
        return {"at": lambda pc: view.get(pc, NONE), "depth_at": depth_at, "pool": self.specs.pool_of(self.code, b.block),
                "extras": {"tuple_join": ("tuple",), "dict_merge": ("dict",), "super": ("item",)}, "null": NULL, "truth": TRUTH.get,
                "is_truth": lambda v: {2: ("Some", True), 3: ("Some", False)}.get(v, NONE)}


class Specs:
    """The definitions that are run."""

    def __init__(self, crates):
        self.pieces = d = Pieces(crates)
        d.remember("pt_assembler", "Layout", "width")
        self.blocks_script = d.get("pt_tree", "Blocks", "blocks_script")
        self.yields = d.get("pt_tree", "Blocks", "yields")
        self.acts_of = d.get("pt_tree", "Blocks", "acts_of_code")
        self.code_piece = d.get("sem_compile", "stm_pieces.StmPiece", "code_piece")
        self.layout = d.get("pt_assembler", "Layout", "layout")
        self.begun = d.get("pt_assembler", "Layout", "begun")
        self.block_of = d.get("pt_assembler", "Layout", "block_of")
        self.instrs_of = d.get("pt_assembler", "Layout", "instrs_of")
        self.ins_at = d.get("pt_code", "View", "ins_at")
        self.pool_of = d.get("sem_code", "slots.BlockObject", "pool_of")
        self.by_code = d.get("sem_code", "slots.Machine", "turn")
        self.code_start = d.get("sem_code", "slots.Machine", "start")
        self.code_start_generator = d.get("sem_code", "slots.Machine", "start_generator")
        self.active = d.get("sem_code", "slots.Slots", "active")
        self.cut = d.get("sem_code", "slots.Landing", "cut")
        self.by_tree = d.get("sem_control", "control.Control", "turn")
        self.go = d.get("sem_control", "control.Control", "go")
        self.tree_start = d.get("sem_control", "control.Control", "start")
        self.tree_start_lambda = d.get("sem_control", "control.Control", "start_lambda")
        self.tree_start_generator = d.get("sem_control", "control.Control", "start_generator")
        self.nest_at = d.get("sem_control", "control.Control", "nest_at")
        self.context_at = d.get("sem_control", "control.Control", "context_at")
        self.jump = d.get("sem_control", "control.Jump", "jump")
        self.way_base = d.get("sem_control", "control.Bases", "way_base")
        self.statements_of = d.get("sem_control", "control.Jump", "statements_of")
        self.starts_of = d.get("sem_control", "control.Jump", "starts_of")
