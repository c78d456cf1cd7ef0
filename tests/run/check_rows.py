"""Runs scripts by their code, instruction by instruction as the rows of `sem_code_machine.rows` have it, beside the runs of `sem_run.run` over the tree: the
same acts with their marks, the same text, the same ending. The names of each activation are those that one of `pt_frames` has, whose locals and
cells are changed by the numbers in operands.

  check_rows.py [--crates FOLDER] [--from N] [--many N] [--most ACTS]
"""
import argparse
import collections
import os
import sys
import warnings

HERE = os.path.dirname(os.path.abspath(__file__))
sys.path[:0] = [HERE, os.path.join(HERE, ".."), os.path.join(HERE, "..", "code")]

import deep  # noqa: E402
from check_objects import CONTAINERS, IMPORTS, WRITTEN, Check  # noqa: E402
from definitions import STD, integer, items, listed  # noqa: E402
from follow import Checked  # noqa: E402
from machines import NONE, WORDS, Pieces, Script, Specs  # noqa: E402
from objects import facts_of, prelude_text, text_of, word  # noqa: E402
from programs import program  # noqa: E402


class BytePieces(Pieces):
    """Names are bytes."""

    def __init__(self, crates):
        super().__init__(crates)
        self.primitives = {**WORDS, **STD}


class Ends(Exception):
    """The run ends within a block."""


class Rows:
    def __init__(self, crates, runner):
        self.runner, self.specs = runner, Specs(crates)
        get = BytePieces(crates).get
        self.row = get("sem_code_machine", "rows.Rows", "row")
        self.transition = get("sem_run", "transitions.Transitions", "transition")
        self.successor = get("sem_run", "transitions.Successors", "successor")
        self.turn = get("sem_code", "slots.Machine", "turn")
        self.active = get("sem_code", "slots.Slots", "active")
        self.pool_of = get("sem_code", "slots.BlockObject", "pool_of")
        self.heap_host = get("pt_host", "HeapHost", "heap_host")
        self.module_names = get("pt_host", "Calls", "module_names")
        self.module_world = get("pt_host", "Calls", "module_world")
        self.names_view = get("sem_rows", "heap_rows.Views", "names_view")
        self.hidden = None

    def objects(self, script):
        """The code objects of the blocks."""
        constants = [("Int", integer(c[1])) if c[0] == "Int" else c for c in items(script.code["constants"])]
        code = {**script.code, "texts": listed(t if isinstance(t, tuple) else word(t) for t in items(script.code["texts"])), "constants": listed(constants)}
        for b, plain in zip(script.blocks, script.plain["blocks"]):
            lists = dict(Checked(script.plain, plain).gets(len(plain["code"])))
            yield {
                **script.object(b, lambda pc, lists=lists: len(lists.get(pc, ""))), "pool": self.pool_of(code, b.block), "null": ("None",),
                "truth": lambda t: ("Bool", t), "is_truth": lambda v: ("Some", v[1]) if v[0] == "Bool" else NONE,
            }

    def side(self, text):
        """What a host knows of the blocks of a text, their code objects, and the texts of constants."""
        script = Script(self.specs, text)
        facts = [self.facts_of(b, script, laid.block) for b, laid in zip(self.runner.blocks(text), script.blocks)]
        return facts, list(self.objects(script)), items(self.runner.texts_of(self.runner.trees(text).tree))

    def run(self, text, most):
        """The acts, what is printed, and how the run ends."""
        self.hidden = self.hidden or self.side(prelude_text(self.runner.definitions.crates))
        self.sides = {True: self.hidden, False: self.side(text)}
        texts = list(dict.fromkeys(self.sides[True][2] + self.sides[False][2]))
        self.program = {"facts": self.facts, "texts": listed(texts), "file": word("script.py"), "source": ("Some", word(text))}
        self.host = self.heap_host(self.program)
        self.world, self.most, self.acts, self.out = self.module_world(self.program), most, [], ""
        self.open, self.frames = [], 0
        try:
            end = self.block({"hidden": False, "number": 0}, self.module_names(self.program))
        except Ends as e:
            return self.acts, self.out, e.args
        if end[0] == "gave":
            return self.acts, self.out, ("done",)
        heap = self.world["heap"]
        return self.acts, self.out, ("raised", self.runner.describe(end[1], heap), self.runner.text_of_error(end[1], heap))

    @staticmethod
    def facts_of(block, script, code):
        """What a host knows of a block, with its names in the order of the code."""
        texts = items(script.code["texts"])
        names = {"locals": "locals", "cells": "cells", "frees": "free"}
        return {**facts_of(block), **{k: listed(word(texts[t["0"]]) for t in items(code[v])) for k, v in names.items()}}

    def facts(self, block):
        return self.sides[block["hidden"]][0][block["number"]]

    def block(self, block, names):
        """How a block ends."""
        here = {"block": block, "frame": self.frames, "names": names, "state": ("on", 0, ()), "line": self.facts(block)["first_line"],
                "locals": [e[2] for e in items(names["values"])], "cells": [e[2] for e in items(names["cells"])]}
        self.frames += 1
        self.open.append(here)
        while here["state"][0] != "off":
            self.step(here, self.sides[block["hidden"]][1][block["number"]])
        self.open.pop()
        return here["state"][1]

    def step(self, here, code):
        state = here["state"]
        turn = self.turn(code, state)
        if turn[0] == "act" and turn[1] != NONE:
            if len(self.acts) == self.most:
                raise Ends("spent")
            mark = turn[1][1]
            here["line"] = mark["line"]
            self.acts.append((*here["block"].values(), mark["act"], mark["line"], mark["is_retest"]))
        stores = {"names": here["names"], "world": self.world}
        if state[0] == "on":
            ins = code["at"](state[1])[1]
            self.follow(here, self.row(self.host, code, state[1], ins, state[2], self.place(here), stores))
            self.change(here, ins["instr"], state[2], items(stores["world"]["cells"]))
        else:
            self.follow(here, self.successor(self.transition(self.host, turn, self.place(here), stores)))

    def change(self, here, instr, slots, before):
        """The same change by the numbers of names."""
        values = self.values(instr, slots)
        match instr:
            case ("SetLocal" | "DelLocal" | "FreshLocal", number):
                here["locals"][number["0"]] = values
            case ("SetCell" | "DelCell", number):
                before[here["cells"][number["0"]]] = values
            case ("FreshCell", number):
                here["cells"][number["0"]] = len(before)
                before.append(NONE)
            case ("Local", number) if here["state"][0] == "on" and here["locals"][number["0"]] != NONE:
                assert here["state"][2][0] == ("value", here["locals"][number["0"]][1])
        activation = {"locals": listed(here["locals"]), "cells": listed(here["cells"]), "names": ()}
        assert self.names_view(self.facts(here["block"]), activation) == here["names"], (instr, here["names"])
        if instr[0] in ("SetCell", "DelCell", "FreshCell"):
            assert before == items(self.world["cells"])

    @staticmethod
    def values(instr, slots):
        return ("Some", slots[0][1]) if instr[0].startswith("Set") else NONE

    def place(self, here):
        slots = [a["state"][-1] for a in reversed(self.open)]
        active = next((v for v in map(self.active, slots) if v != NONE), NONE)
        return {"frame": here["frame"], "block": here["block"], "active": active}

    def follow(self, here, successor):
        match successor:
            case ("to", state, stores) | ("arises", _, state, stores):
                here["state"], here["names"], self.world = state, stores["names"], stores["world"]
            case ("behind_print", text, onward):
                self.out += text_of(text)
                self.follow(here, onward)
            case ("behind_request", ("opens", opening), stores, onward):
                here["names"], self.world = stores["names"], stores["world"]
                end = self.opened(here, opening)
                self.follow(here, onward({"end": end, "names": opening["names"]})({"names": here["names"], "world": self.world}))
            case ("behind_note", _, onward):
                here["state"] = onward(("got", ("tt",)))
            case ("outside", what):
                raise Ends("outside", what[0], next(a["line"] for a in reversed(self.open) if not a["block"]["hidden"]))
            case _:
                raise Ends(successor[0])

    def opened(self, here, opening):
        if len(self.open) < 1000:
            return self.block(opening["block"], opening["names"])
        made = self.host["makes"](("too_deep",))(self.place(here))(self.world)
        self.world = made[2]
        return "left_by", made[1]


def by_tree(check, text, most):
    _, outputs, state, step = check.runner.run(text, most)
    acts = [(*o[1].values(), *(o[2][k] for k in ("act", "line", "is_retest"))) for o in outputs if o[0] == "begins"]
    return acts, "".join(text_of(o[1]) for o in outputs if o[0] == "prints"), check.ending(step, state["world"]["heap"])


def main():
    p = argparse.ArgumentParser()
    p.add_argument("--crates", default="../../crates")
    p.add_argument("--from", type=int, default=0, dest="first")
    p.add_argument("--many", type=int, default=100)
    p.add_argument("--most", type=int, default=1000)
    a = p.parse_args()
    check = Check(a.crates)
    rows, bad, ends, acts = Rows(a.crates, check.runner), 0, collections.Counter(), 0
    scripts = [w[:2] for w in WRITTEN] + [(t, a.most) for t in CONTAINERS + IMPORTS]
    scripts += [(program(seed, containers=seed % 4 > 0, exceptions=seed % 3 > 0, helpers=seed % 5 < 2), a.most) for seed in range(a.first, a.first + a.many)]
    for text, most in scripts:
        found, wanted = rows.run(text, most), by_tree(check, text, most)
        ends[" ".join(map(str, found[2][:2]))] += 1
        acts += len(found[0])
        if found != wanted:
            bad += 1
            print(text, found, wanted, sep="\n    ")
    print(", ".join(f"{k} {n}" for k, n in sorted(ends.items())))
    print(f"{len(WRITTEN) + len(CONTAINERS) + len(IMPORTS)} written scripts, {a.many} random ones, {acts} acts, {bad} with a difference")
    return bad > 0


if __name__ == "__main__":
    warnings.simplefilter("ignore")
    sys.exit(deep.call(main))
