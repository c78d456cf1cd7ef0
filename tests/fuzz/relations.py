"""What refuses the blocks of small code files, by the definitions of crates/sem_fits: what they compute is evaluated as it stands in specs/, and their
relations are closed clause by clause. Beside it `pt_code/specs/Refusals` says what isn't a code file.

  relations.py [--from N] [--many N]     compares it with the plain reader and checker on random files
"""
import argparse
import collections
import os
import random
import sys

HERE = os.path.dirname(os.path.abspath(__file__))
sys.path[:0] = [os.path.join(HERE, "..", name) for name in ("", "run", "code", "fits")]
from definitions import items, listed  # noqa: E402
from machines import WORDS, Pieces  # noqa: E402
import checker  # noqa: E402
import files  # noqa: E402
from fuzz import Files  # noqa: E402
from mutations import COUNTED  # noqa: E402
from shapes import parsed  # noqa: E402

CRATES = os.path.join(HERE, "..", "..", "crates")
KINDS = [("Module",), ("Function",), ("Generator",), ("Class",), ("GeneratorExpression",)]
NONE = ("None",)


def item(xs, n, other):
    found = items(xs)
    return found[n] if n < len(found) else other


def get(xs, n):
    found = items(xs)
    return ("Some", found[n]) if n < len(found) else NONE


MORE = {
    **WORDS,
    "slice_index_or": item,
    "slice_get": get,
    "list_all": lambda f, xs: all(map(f, items(xs))),
    "from_le_bytes": lambda width, bytes_: sum(b << 8 * n for n, b in enumerate(items(bytes_))),
    "w128": "128",
}


class Fitting(Pieces):
    def __init__(self, crates):
        super().__init__(crates)
        self.primitives = MORE

    def of(self, module, *names):
        return [self.get("sem_fits", f"fits.{module}", name) for name in names]


DEFINED = Fitting(CRATES)
steps, has_enough, finds, is_within, cut, are_kinds, is_prefix = DEFINED.of(
    "Steps", "steps", "has_enough", "finds", "is_within", "cut", "are_kinds", "is_prefix")
(taker,) = DEFINED.of("Leaves", "taker")
(may_stand,) = DEFINED.of("Standing", "may_stand")
(rows_hold,) = DEFINED.of("Tables", "rows_hold")
block_of, links_of, effect, kinds_at_start = DEFINED.of("Block", "block_of", "links_of", "effect", "kinds_at_start")
(most,) = DEFINED.of("Fits", "MOST")
instr_of = DEFINED.get("pt_instr", "Decoding", "instr_of")
laid_from = DEFINED.get("pt_code", "View", "laid_from")


def numbered(n):
    return {"0": n}


def code_block(b):
    """A block that was read, as the definitions see it."""
    return {
        "name": numbered(b["name"]), "kind": KINDS[b["kind"]], "first_line": numbered(b["line"]), "parameters": b["parameters"],
        "keyword_only": b["keyword_only"], **{name: listed(map(numbered, b[name])) for name in ("locals", "cells", "free")},
        "instructions": listed(b["code"]),
        "marks": listed({"pc": numbered(pc), "act": numbered(act), "line": numbered(line), "again": again == 1} for pc, act, line, again in b["marks"]),
        "handlers": listed({"from": numbered(f), "to": numbered(t), "target": numbered(target), "depth": depth, "always": always == 1}
                           for f, t, target, depth, always in b["handlers"]),
        "starts": listed({"pc": numbered(pc), "line": numbered(line)} for pc, line in b["starts"]),
    }


def instrs(code):
    """The instructions that the bytes of a block are."""
    for op, args, _ in checker.instructions(code).values():
        yield instr_of(op, *args, *[0] * (3 - len(args)))[1]


def length(ks):
    return len(items(ks))


class Relations:
    """The relations of a block."""

    def __init__(self, code, b):
        block = code_block(b)
        listed_instrs = listed(instrs(b["code"]))
        self.at = {}
        for pc in checker.instructions(b["code"]):
            self.at[pc] = laid_from(block, 0, listed_instrs, pc)[1]
        self.b = block_of(code, block, lambda pc: ("Some", self.at[pc]) if pc in self.at else NONE)
        self.rows = list(items(block["handlers"]))
        self.count = len(items(block["marks"]))
        self.size = len(b["code"])

    def effect(self, pc):
        return effect(self.b["links"], self.at[pc]["instr"])

    def gets(self, p):
        """Gets, or None where a place gets two lengths."""
        found = {(0, kinds_at_start(self.b["kind"]))} if 0 in self.at else set()
        while True:
            more = {(s["to"], s["kinds"]) for q, ks in found if q <= p for s in items(steps(self.b, q, ks)) if s["to"] in self.at}
            lengths = collections.defaultdict(set)
            for q, ks in found | more:
                lengths[q].add(length(ks))
            if any(len(each) > 1 for each in lengths.values()):
                return None
            if more <= found:
                return found
            found |= more

    def reached(self, p, gets):
        return [(q, self.at[q], ks) for q, ks in gets if q <= p]

    def leaves(self, p, gets):
        """Departs, Goes, Common and Holds."""
        reached = self.reached(p, gets)
        goes = {(q, s["to"], s["kept"]) for q, _, ks in reached for s in items(steps(self.b, q, ks)) if s["to"] in self.at}
        departs, common, holds = set(), set(), set()
        rows_at = {q: i["rows"] for q, i, _ in reached}
        while True:
            before = len(departs), len(goes), len(common), len(holds)
            for q, i, ks in reached:
                if i["instr"][0] == "Leave":
                    departs.add((i["instr"][1]["0"], q, ks))
                if i["instr"][0] == "EndFinally":
                    departs |= {(t, q, listed(items(ks)[:max(length(ks) - 1, 0)])) for t, r, d in holds if r == q and d == max(length(ks) - 1, 0)}
                if i["instr"][0] == "Exit":
                    holds |= {(t, i["next"], max(length(ks) - 2, 0)) for t, r, d in holds if r == q and d == max(length(ks) - 1, 0)}
            for t, q, ks in departs:
                goes |= {(q, t, min(length(ls), length(ks))) for r, ls in gets if r == t}
                row = taker(rows_at[q], t)
                if row != NONE:
                    holds.add((t, row[1]["target"]["0"], row[1]["depth"]))
            common |= {(d, q, r) for q, r, k in goes for d in range(k)}
            common |= {(d, r, q) for d, q, r in common}
            common |= {(d, q, s) for d, q, r in common for e, r2, s in common if d == e and r == r2}
            holds |= {(t, r, d) for t, q, d in holds for e, q2, r in common if d == e and q == q2}
            if before == (len(departs), len(goes), len(common), len(holds)):
                return departs, goes, rows_at

    def leaving(self, departs, rows_at):
        found = {(t, ks) for t, _, ks in departs}
        for t, q, ks in departs:
            row = taker(rows_at[q], t)
            if row != NONE:
                found.add((t, cut(row[1], ks)))
        return found

    def handler_fails(self, row, reached):
        under = [(q, ks) for q, i, ks in reached if any(one is row for one in items(i["rows"]))]
        return (any(not is_within(self.effect(q), ks, row) for q, ks in under)
                or any(not are_kinds(cut(row, ks), cut(row, ls)) for _, ks in under for _, ls in under))

    def refused_at(self, p):
        gets = self.gets(p)
        if gets is None:
            return 23, p
        reached = self.reached(p, gets)
        failing = [self.count + n for n, row in enumerate(self.rows) if self.handler_fails(row, reached)]
        if failing:
            return 26, min(failing)
        departs, _, rows_at = self.leaves(p, gets)
        asked = [(ks, ls) for t, ks in self.leaving(departs, rows_at) for r, ls in gets if r == t]
        if any(not has_enough(self.effect(q), ks) for q, _, ks in reached) or any(length(ls) > length(ks) for ks, ls in asked):
            return 23, p
        if (any(not are_kinds(ks, ls) for q, ks in gets for r, ls in gets if q == r)
                or any(not finds(self.effect(q), ks) for q, _, ks in reached)
                or any(not may_stand(self.b["kind"], self.b["links"], i["instr"]) for _, i, _ in reached)
                or any(not is_prefix(ls, ks) for ks, ls in asked)):
            return 24, p
        if (any(s["to"] not in self.at for q, _, ks in reached for s in items(steps(self.b, q, ks)))
                or any(i["instr"][0] == "Leave" and i["instr"][1]["0"] not in self.at for _, i, _ in reached)):
            return 25, p
        return None

    def refused(self):
        hold = items(rows_hold(self.b))
        if not all(hold):
            return 26, hold.index(False)
        for p in range(self.size + 1):
            refusal = self.refused_at(p)
            if refusal:
                return refusal
        gets = self.gets(self.size)
        lost = [q for q, i, _ in self.reached(self.size, gets)
                if i["instr"][0] == "Leave" and not any(r == i["instr"][1]["0"] for r, _ in gets)]
        if lost:
            return 25, min(lost)
        if any(length(ks) > most() for _, ks in gets):
            return 28, None
        silent = {(q, r) for q, r, _ in self.leaves(self.size, gets)[1] if self.at[q]["mark"] == NONE}
        while True:
            more = {(q, s) for q, r in silent for r2, s in silent if r == r2}
            if more <= silent:
                break
            silent |= more
        loops = [q for q, r in silent if q == r]
        return (27, min(loops)) if loops else None


def answer(data):
    """The number, the block and the place of the refusal of a code file, or None."""
    code = checker.read(data)
    links = {"texts": listed(code["texts"]), "lists": listed(listed(each) for each in code["lists"]), "blocks": listed(map(code_block, code["blocks"]))}
    for n, b in enumerate(code["blocks"]):
        refusal = Relations(links, b).refused()
        if refusal:
            return refusal[0], n, refusal[1]
    return None


# more instructions, rows or slots than the evaluator is to be asked about
MOST_INSTRUCTIONS, MOST_ROWS, MOST_SLOTS = 16, 4, 8


def is_small(data):
    """Whether each block has few instructions and rows, and no large count."""
    return all(len(block.code) <= MOST_INSTRUCTIONS and len(block.handlers) <= MOST_ROWS
               and all(arg <= MOST_SLOTS for it in block.code if it.op in COUNTED for arg in it.args) for block in parsed(data).blocks)


def main():
    options = argparse.ArgumentParser()
    options.add_argument("--from", dest="first", type=int, default=0)
    options.add_argument("--many", type=int, default=2000)
    given = options.parse_args()
    source, counts, differing = Files([]), collections.Counter(), 0
    for seed in range(given.first, given.first + given.many):
        _, data = source.file(seed)
        wanted = files.answer(data)
        if wanted and wanted[1] is None or not is_small(data):
            continue
        got = answer(data)
        counts["fits" if got is None else str(got[0])] += 1
        if not got == wanted == checker.verify(checker.read(data)):
            differing += 1
            print(f"seed {seed}: {files.told(got)}, the plain checker {files.told(wanted)}\n  {data.hex()}", flush=True)
    print(" ".join(f"{name}:{n}" for name, n in sorted(counts.items())) + f", {differing} of them otherwise")
    return differing > 0


if __name__ == "__main__":
    sys.exit(main())
