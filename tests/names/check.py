"""Compares how the definitions of sem_names name the variables of random scripts with what CPython 3.11 and 3.12.1 tell.

  check.py [--crates FOLDER] [--older PYTHON] [--from N] [--many N] [--show N]
"""
import argparse
import ast
import collections
import json
import os
import subprocess
import sys
import warnings

HERE = os.path.dirname(os.path.abspath(__file__))
sys.path[:0] = [os.path.join(HERE, ".."), os.path.join(HERE, "..", "run")]
import deep  # noqa: E402
from definitions import items, listed, load  # noqa: E402
from older import NODES, codes, parameters  # noqa: E402
from random_scripts import BY_HAND, script  # noqa: E402
from trees import Trees  # noqa: E402

COMPREHENSIONS = (ast.ListComp, ast.SetComp, ast.DictComp)
CLASS = ".class"


def coded(name):
    return listed(name.encode())


def text_of(name):
    return bytes(items(name)).decode()


class CodedTrees(Trees):
    word = staticmethod(coded)


def variable_of(v):
    return v["scope"][0], text_of(v["name"])


class Expected:
    """What the code objects of CPython 3.11 say, in which each comprehension has one of its own."""

    def __init__(self, regions):
        self.regions = regions
        self.inner = collections.defaultdict(list)
        for i, r in enumerate(regions):
            if r["parent"] is not None:
                self.inner[r["parent"]].append(i)

    def home(self, i):
        return self.home(self.regions[i]["parent"]) if self.regions[i]["comprehension"] else i

    def depth(self, i):
        return 1 + self.depth(self.regions[i]["parent"]) if self.regions[i]["comprehension"] else 0

    def captured(self, i, x):
        """A block reads it, and not only comprehensions of the same block."""
        return any(x in self.regions[k]["frees"] and (not self.regions[k]["comprehension"] or self.captured(k, x)) for k in self.inner[i])

    def names(self, i):
        """The names that a function or comprehension has of its own."""
        return set(self.regions[i]["locals"]) | set(self.regions[i]["cells"])

    def owned(self, i, x):
        return "cell" if self.captured(i, x) else "local", "." * self.depth(i) + x

    def seen(self, i, x):
        """What a name is from there outwards."""
        r = self.regions[i]
        if x in self.names(i):
            return self.owned(i, x)
        if x not in r["frees"]:
            return "global", x
        return self.seen(r["parent"], x) if r["comprehension"] else ("free", x)

    def variable(self, i, x):
        """What a name is there; a class has names of its own, and may hand on another one that is spelled alike."""
        r = self.regions[i]
        if r["class"] and (x in r["bound"] or x in r["globals"]):
            return "of_class" if x in r["bound"] else "global", x
        return self.seen(i, x)

    def mistaken(self):
        """Names that a comprehension has and that its block, or another comprehension of it, has from outside: CPython 3.12 takes these for
        one local name, even where they aren't, so that `def f(a): return lambda: ([0 for a in b], [a for c in b])` doesn't find `a`."""
        comprehensions = [i for i in range(len(self.regions)) if self.regions[i]["comprehension"]]
        had = {(self.home(i), x) for i in comprehensions for x in self.names(i)}
        return {x for i in range(len(self.regions)) for x in self.regions[i]["frees"] if (self.home(i), x) in had}

    def block(self, b):
        own = [self.owned(i, x) for i in range(len(self.regions)) if self.home(i) == b for x in sorted(self.names(i))]
        cells = {x for scope, x in own if scope == "cell"}
        makes_class = any(self.regions[k]["class"] and self.regions[k]["has_class"] for k in self.inner[b])
        return {
            "parameters": self.regions[b]["parameters"],
            "locals": {x for scope, x in own if scope == "local"} | set(self.regions[b]["parameters"]),
            "cells": cells | ({CLASS} if makes_class else set()),
            "frees": set(self.regions[b]["frees"]) | ({CLASS} if self.regions[b]["has_class"] else set()),
        }

    def taken(self, b, x):
        """The variable of its maker whose cell a block has for a free name."""
        r = self.regions[b]
        return ("cell" if r["class"] else "free", x) if x == CLASS else self.seen(r["parent"], x)


class Differs(Exception):
    pass


def same(what, ours, theirs):
    if ours != theirs:
        raise Differs(what, ours, theirs)


def names_with_regions(module, regions):
    """The names of a script, each with the region in which it is read or bound."""
    out = []

    def all_of(parts, r):
        for part in parts:
            if part is not None:
                walk(part, r)

    def clauses(generators, inside, outside):
        for i, c in enumerate(generators):
            walk(c.iter, inside if i else outside)
            all_of([c.target] + c.ifs, inside)

    def walk(n, r):
        match n:
            case ast.Name(x):
                out.append((x, r))
            case ast.FunctionDef(x, arguments, body, decorators):
                out.append((x, r))
                all_of(decorators + arguments.defaults + arguments.kw_defaults, r)
                all_of(body, regions[n])
            case ast.Lambda(arguments, body):
                all_of(arguments.defaults + arguments.kw_defaults, r)
                walk(body, regions[n])
            case ast.ClassDef(x, bases, _, body, decorators):
                out.append((x, r))
                all_of(decorators + bases, r)
                all_of(body, regions[n])
            case ast.DictComp(key, value, generators):
                all_of([key, value], regions[n])
                clauses(generators, regions[n], r)
            case ast.ListComp(item, generators) | ast.SetComp(item, generators) | ast.GeneratorExp(item, generators):
                walk(item, regions[n])
                clauses(generators, regions[n], r)
            case ast.AnnAssign(target, _, value):
                all_of([target, value], r)
            case ast.alias(x, alias):
                out.append((alias or x, r))
            case ast.ExceptHandler(type_, x, body):
                out.extend([(x, r)] if x else [])
                all_of([type_] + body, r)
            case _:
                all_of(ast.iter_child_nodes(n), r)
    walk(module, 0)
    return out


def bare_annotations(module):
    """Names that are bound by an annotation alone, of which CPython's code knows nothing."""
    return {n.target.id for n in ast.walk(module) if isinstance(n, ast.AnnAssign) and isinstance(n.target, ast.Name) and n.value is None}


class Check:
    def __init__(self, crates):
        self.definitions = load(crates)
        self.known = self.definitions.remember("Rattle.pt_scopes.specs.Scope", "facts")
        self.asked = 0

    def get(self, crate, module, name):
        return self.definitions.get(f"Rattle.{crate}.specs.{module}", name)

    def of(self, *arguments):
        return self.get("sem_names", *arguments)

    def one(self, text, older):
        trees = CodedTrees(text)
        self.known.clear()
        self.expected = Expected(older)
        self.naming = self.of("Script", "naming_script")(trees.tree)
        self.places = self.naming["places"]
        self.blocks = items(self.get("pt_tree", "Blocks", "blocks_script")(trees.tree))
        self.homes = items(self.places["blocks"])
        self.nexts = items(self.naming["nexts"])
        self.functions = self.of("Script", "functions_of")(self.naming)
        self.bare, self.mistaken = bare_annotations(trees.module), self.expected.mistaken()
        nodes = [n for n in ast.walk(trees.module) if isinstance(n, NODES)]
        self.nodes = [trees.module] + sorted(nodes, key=lambda n: (n.lineno, n.col_offset))
        self.regions(older)
        found, _ = codes(ast.parse(text))
        of = [self.names_of(b) for b in range(len(self.homes))]
        for b, h in enumerate(self.homes):
            self.names(b, h, of[b])
            self.taken(b, h, of)
            self.numbers(b, h)
            self.merged(found[h], older[h]["class"], of[b])
        self.mentions()
        self.asked += self.control(self.nodes)

    def names_of(self, b):
        names = self.of("Around", "names_at")(self.naming, b, ("Some", self.blocks[b]), ("Some", self.homes[b]))
        return {kind: [text_of(x) for x in items(xs)] for kind, xs in names.items()}

    def is_bare(self, name):
        return any(name.lstrip(".") == x or name.endswith(x) and x.startswith("__") for x in self.bare)

    def regions(self, older):
        ours = [(r["around"], r["kind"][0] == "Comprehension", r["kind"][0] == "Class") for r in items(self.places["regions"])]
        same("regions", ours, [(r["parent"] or 0, r["comprehension"], r["class"]) for r in older])
        same("nexts", len(self.nexts), len(ours))
        same("homes", [r["home"] for r in items(self.places["regions"])], [self.expected.home(i) for i in range(len(older))])

    def names(self, b, h, names):
        """Each list has each name once, and parameters come first."""
        theirs = self.expected.block(h)
        for kind in names:
            same((kind, b, "once"), len(set(names[kind])), len(names[kind]))
            same((kind, b), {x for x in names[kind] if x in theirs[kind] or not self.is_bare(x)}, theirs[kind])
        same(("parameters", b), names["locals"][:len(theirs["parameters"])], theirs["parameters"])

    def taken(self, b, h, of):
        """The cells that a block takes along are those of its free names in their order, by the variables of its maker, which has them."""
        taken = [variable_of(v) for v in items(self.of("BlockNames", "captured_at")(self.places, self.functions, ("Some", h)))]
        same(("taken", b), taken, [self.expected.taken(h, x) for x in of[b]["frees"]])
        if b:
            maker = self.homes.index(self.expected.home(self.expected.regions[h]["parent"]))
            around = self.of("Around", "around_by")(None, self.naming, maker)
            same(("around", b), [variable_of(v) for v in items(around["captured"](b))], taken)
            for scope, x in taken:
                same(("has", b, x), x in of[maker][scope + "s"], True)

    def comprehensions(self, h):
        return [i for i, r in enumerate(items(self.places["regions"])) if r["kind"][0] == "Comprehension" and r["home"] == h]

    def numbers(self, b, h):
        """The acts by whose numbers comprehensions are known are their first Nexts."""
        acts = items(self.get("pt_tree", "Blocks", "acts_of")(self.blocks[b]))
        evaluated = 0
        for region in self.comprehensions(h):
            if self.nexts[region] == ("None",):
                continue
            evaluated += 1
            n = self.nexts[region][1]
            same(("acts", b, n), [a["kind"][0] for a in acts[n - 2:n + 1]], ["Iter", "Build", "Next"])
            same(("line", b, n), acts[n]["line"]["0"], self.nodes[region].generators[0].target.lineno)
            same(("region", b, n), self.of("Regions", "numbered")(self.places["regions"], self.naming["nexts"], h, n), ("Some", region))
        kinds = [a["kind"][0] for a in acts]
        same(("first Nexts", b), evaluated, sum(kinds[i:i + 3] == ["Iter", "Build", "Next"] for i in range(len(kinds))))

    def mentions(self):
        """Each name is the variable that CPython's instructions find."""
        named_at = self.of("BlockNames", "named_at")
        for m in items(self.places["mentions"]):
            x, r = text_of(m["name"]), m["region"]
            if self.is_bare(x):
                continue
            h = self.expected.home(r)
            ours = variable_of(named_at(self.places, self.homes.index(h), h, m))
            theirs = ("global", x) if m["role"] == ("Global",) else self.expected.variable(r, x)
            same(("mention", r, x, m["line"]), ours, theirs)

    def control(self, nodes):
        """What control asks: a name as it is written, within comprehensions by their numbers."""
        regions = {n: i for i, n in enumerate(nodes)}
        next_of = {r: n[1] for r, n in enumerate(self.nexts) if n != ("None",)}
        arounds = [self.of("Around", "around_by")(None, self.naming, b) for b in range(len(self.homes))]
        asked = 0
        for x, region in names_with_regions(nodes[0], regions):
            within = []
            r = region
            while self.expected.regions[r]["comprehension"]:
                within.append(next_of.get(r))
                r = self.expected.regions[r]["parent"]
            if None in within:
                continue
            around = arounds[self.homes.index(r)]
            y = text_of(around["spelled"](coded(x)))
            if not self.is_bare(y):
                asked += 1
                same(("control", x, region, within), variable_of(around["variable"](listed(within))(coded(x))), self.expected.variable(region, y))
        return asked

    def merged(self, code, is_class, names):
        """CPython 3.12 has the names of comprehensions among those of the block, by one name for all that are spelled alike. It has a local
        place beside a cell for them too, and in the body of a class one for what they only read."""
        bare = lambda xs: {x.lstrip(".") for x in xs if x != CLASS and not self.is_bare(x)} - self.mistaken
        theirs = lambda xs: {x for x in xs if x not in (".0", "__class__", "__classdict__") and not self.is_bare(x)} - self.mistaken
        same("frees of 3.12", bare(names["frees"]), theirs(code.co_freevars))
        same("cells of 3.12", bare(names["cells"]), theirs(code.co_cellvars))
        ours, beside = bare(names["locals"]), bare(x for x in names["cells"] if x.startswith("."))
        has = theirs(code.co_varnames)
        same("locals of 3.12", ours, has & ours if is_class else has - (beside - ours))
        same("parameters of 3.12", names["locals"][:len(parameters(code))], parameters(code))


def numbered(text):
    return "\n".join(f"{i:3} {line}" for i, line in enumerate(text.split("\n"), 1))


def main():
    options = argparse.ArgumentParser()
    options.add_argument("--crates", default=os.path.join(HERE, "..", "..", "crates"))
    options.add_argument("--older", default="python3.11")
    options.add_argument("--from", dest="first", type=int, default=0)
    options.add_argument("--many", type=int, default=1000)
    options.add_argument("--show", type=int)
    o = options.parse_args()
    written = BY_HAND if o.show is None else []
    drawn = range(o.first, o.first + o.many) if o.show is None else [o.show]
    seeds = [f"script {n} by hand" for n in range(len(written))] + [f"script {n}" for n in drawn]
    texts = written + [script(n) for n in drawn]
    told = subprocess.run([o.older, os.path.join(HERE, "older.py")], input=json.dumps(texts), capture_output=True, text=True, check=True).stdout
    check, failed = Check(o.crates), 0
    blocks = comprehensions = names = 0
    for n, (text, older) in enumerate(zip(texts, json.loads(told))):
        try:
            check.one(text, older)
        except Differs as d:
            failed += 1
            if failed <= 5:
                print(f"{seeds[n]}:", *d.args, numbered(text), sep="\n  ", flush=True)
        blocks += len(check.homes)
        comprehensions += len(older) - len(check.homes)
        names += len(items(check.places["mentions"]))
    print(f"{len(texts)} scripts with {blocks} blocks, {comprehensions} comprehensions and {names} names, "
          f"{check.asked} of which control asks: {failed} scripts differ")
    return failed


if __name__ == "__main__":
    warnings.simplefilter("ignore")
    sys.exit(1 if deep.call(main) else 0)
