"""Listings of scripts by the definitions: a script's code by those of `sem_compile.compile`, and its listing by those of `pt_listing`."""
import os
import sys

HERE = os.path.dirname(os.path.abspath(__file__))
sys.path[:0] = [os.path.join(HERE, "..", "code")]

import machines  # noqa: E402
from machines import CRATES, Pieces, items, listed  # noqa: E402
from trees import Trees  # noqa: E402


class CodedTrees(Trees):
    """Names and texts are lists of bytes."""

    @staticmethod
    def word(text):
        return listed(text.encode())


def coded(text):
    return listed(text.encode())


class Listings:
    def __init__(self):
        machines.WORDS.update({"codes": coded, "decimal": lambda n: coded(str(n))})
        self.definitions = d = Pieces(CRATES)
        d.remember("pt_assembler", "Layout", "width")
        self.layouts = d.get("sem_compile", "compile.ScriptCode", "script_layouts")
        self.code_of = d.get("sem_compile", "compile.ScriptCode", "code_of")
        self.names_of = d.get("sem_names", "Around", "names_of")
        self.instrs_of = d.get("pt_assembler", "Layout", "instrs_of")
        self.block_lines = d.get("pt_listing", "Listing", "block_lines")

    def of(self, text):
        """The listing, and the blocks whose code has other names than they are said to have."""
        tree = CodedTrees(text).tree
        code, listing, others = self.code_of(tree), b"", []
        texts = items(code["texts"])
        for number, (block, layout) in enumerate(zip(items(code["blocks"]), items(self.layouts(tree)), strict=True)):
            listing += bytes(items(self.block_lines(code["texts"], number, block, self.instrs_of(layout["written"]))))
            names = self.names_of(tree, number)
            for kind, said in (("locals", "locals"), ("cells", "cells"), ("free", "frees")):
                if [texts[t["0"]] for t in items(block[kind])] != items(names[said]):
                    others.append(number)
        return listing.decode(), others
