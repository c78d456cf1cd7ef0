"""Bare runs of a script's code, as the definitions of `sem_compile.compile` and `law_compile.script_runs` have it, beside those of the script."""
import os
import sys

from definitions import items, listed
from objects import ObjectRunner, prelude_text

sys.path.append(os.path.join(os.path.dirname(os.path.abspath(__file__)), "..", "code"))

import machines  # noqa: E402
from machines import NONE, Pieces  # noqa: E402


def coded(text):
    return listed(text.encode())


class CodedRunner(ObjectRunner):
    def __init__(self, crates):
        super().__init__(crates)
        machines.WORDS.update({"codes": coded, "decimal": lambda n: coded(str(n))})
        d = Pieces(crates)
        d.remember("pt_assembler", "Layout", "width")
        self.code_of = d.get("sem_compile", "compile.ScriptCode", "code_of")
        self.layouts = d.get("sem_compile", "compile.ScriptCode", "script_layouts")
        self.instrs_of = d.get("pt_assembler", "Layout", "instrs_of")
        self.label_at = d.get("pt_assembler", "Layout", "label_at")
        self.ins_at = d.get("pt_code", "View", "ins_at")
        self.pool_of = d.get("sem_code", "slots.BlockObject", "pool_of")
        self.code_machine = d.get("law_compile", "script_runs.ProgramBlocks", "program_code_machine")
        self.hidden_code = None

    def code_object(self, code, block, written):
        """The code object of a block; where a loop is left to has as many slots as its label says."""
        view, pc, marks = {}, 0, {m["pc"]["0"]: m for m in items(block["marks"])}
        for i in items(self.instrs_of(written)):
            ins = self.ins_at({**block, "marks": (marks[pc], ()) if pc in marks else ()}, pc, i)
            view[pc] = ("Some", ins)
            pc = ins["next"]
        labels = [self.label_at(written, {"0": k}) for k in range(len(items(written["labels"])))]
        depths = {label["pc"]["0"]: label["depth"] for label in labels}
        return {"at": lambda pc: view.get(pc, NONE), "depth_at": depths.get, "pool": self.pool_of(code, block),
                "extras": {"tuple_join": ("tuple",), "dict_merge": ("dict",), "super": ("item",)}, "null": NONE,
                "truth": lambda b: ("Bool", b), "is_truth": lambda v: ("Some", v[1]) if v[0] == "Bool" else NONE}

    def side_code(self, text):
        """The tree of a text, and the code objects of its blocks."""
        tree = self.trees(text).tree
        code = self.code_of(tree)
        return tree, [self.code_object(code, block, layout["written"])
                      for block, layout in zip(items(code["blocks"]), items(self.layouts(tree)), strict=True)]

    def both_outcomes(self, text, most):
        """What the bare run of a script comes to, and that of its code."""
        _, machine, host, module = self.begin(text)
        self.hidden_code = self.hidden_code or self.side_code(prelude_text(self.definitions.crates))
        sides = {True: self.hidden_code, False: self.side_code(text)}
        by_code = self.code_machine(sides[True][0], sides[False][0], lambda hidden: sides[hidden][1].__getitem__)
        return self.bare_outcome(machine, host, module, most), self.bare_outcome(by_code, host, module, most)
