"""What a host knows of each block of a script, by the definitions of `law_loading.script_program`, beside CPython 3.12's code objects, and beside what the
code of the block tells by those of `sem_compile.compile` and `pt_code_facts`; and the texts of constants, beside those that stand in the tree.

  check_programs.py [--from N] [--many N]

Names that begin with a dot are the compiler's own, as `.class` for `__class__`.
"""
import argparse
import os
import sys
import threading
import types
import warnings

HERE = os.path.dirname(os.path.abspath(__file__))
sys.path[:0] = [HERE, os.path.join(HERE, "..", "dis"), os.path.join(HERE, "..", "code")]

from laid import CRATES, CodedTrees, Listings  # noqa: E402
from machines import items  # noqa: E402
from objects import prelude_text  # noqa: E402
from programs import program  # noqa: E402

WRITTEN = ["x = 1\nprint('a', x)\n", """\
def f(a, b=2, *c, d, e='k', **g):
    h = a + b
    def inner(z=h):
        nonlocal h
        h = h + z
        return lambda q: q + h + a
    return inner
print(f(1, d=3)('s'), 'a', 'k', "a")
""", """\
class A:
    x = 'p'
    def __m(self, __y=1):
        t = self.__q
        return super().m() + __y
    def g(self):
        return [i for i in range(3) if i]
def gen(n):
    for i in range(n):
        yield i
def outer(a):
    b = a
    def mid():
        def leaf():
            return a + b
        return leaf
    return mid
z = [y for y in [1, 2]]
w = (q for q in z)
"""]


def text_of(codes):
    return bytes(items(codes)).decode()


def names_of(names):
    return [x for x in map(text_of, items(names)) if not x.startswith(".")]


def code_objects(code):
    yield code
    for constant in code.co_consts:
        if isinstance(constant, types.CodeType):
            yield from code_objects(constant)


def is_told(facts, code):
    """The facts are those of CPython's code object, which has its own order of names behind the parameters."""
    plain = code.co_argcount if code.co_name != "<genexpr>" else 0
    only = plain + code.co_kwonlyargcount
    params, local = facts["params"], names_of(facts["locals"])
    # a comprehension's names have a dot before them
    own = {text_of(x).lstrip(".") for x in items(facts["locals"])}
    many = only + bool(code.co_flags & 4) + bool(code.co_flags & 8)
    mine = [x for x in code.co_varnames if not x.startswith(".")]
    return (names_of(params["plain"]), names_of(params["only"])) == (mine[:plain], mine[plain:only]) \
        and (params["star"], params["stars"]) == (bool(code.co_flags & 4), bool(code.co_flags & 8)) \
        and local[:many] == mine[:many] and own >= set(mine) \
        and set(names_of(facts["cells"])) == set(code.co_cellvars) - {"__class__"} \
        and set(names_of(facts["frees"])) == set(code.co_freevars) - {"__class__"} \
        and (code.co_name == "<genexpr>" or facts["yields"] == bool(code.co_flags & 0x20))


class Check(Listings):
    def __init__(self):
        super().__init__()
        get = self.definitions.get
        self.program_of = get("law_loading", "script_program.ScriptProgram", "program_of")
        self.facts_of = get("pt_code_facts", "Facts", "facts_of")
        self.facts_view = get("pt_code_facts", "Facts", "facts_view")
        self.texts_of = get("pt_host", "Constants", "texts_of")
        self.prelude = CodedTrees(prelude_text(CRATES)).tree
        self.hidden = self.code_of(self.prelude)

    def differences(self, text):
        tree, found = CodedTrees(text).tree, {}
        said, code = self.program_of(self.prelude, tree), self.code_of(tree)
        for theirs in code_objects(compile(text, "script", "exec")):
            found.setdefault((theirs.co_name, theirs.co_firstlineno), []).append(theirs)
        blocks = items(code["blocks"])
        # the module stands for a block that isn't there
        for number, block in [*enumerate(blocks), (len(blocks), blocks[0])]:
            facts = said["facts"]({"hidden": False, "number": number})
            if facts != self.facts_view(self.facts_of(code["texts"], block)):
                yield number, "code"
            theirs = found.get((text_of(facts["name"]), facts["first_line"]), [])
            # CPython has no code for what it folds away
            if theirs and not any(is_told(facts, c) for c in theirs):
                yield number, "CPython"
        for number, block in enumerate(items(self.hidden["blocks"])):
            if said["facts"]({"hidden": True, "number": number}) != self.facts_view(self.facts_of(self.hidden["texts"], block)):
                yield number, "the prelude's code"
        texts = list(map(text_of, items(said["texts"])))
        if sorted(texts) != sorted(map(text_of, {*items(self.texts_of(self.prelude)), *items(self.texts_of(tree))})):
            yield "texts", texts


def main():
    p = argparse.ArgumentParser()
    p.add_argument("--from", type=int, default=0, dest="first")
    p.add_argument("--many", type=int, default=30)
    a = p.parse_args()
    check, bad = Check(), 0
    for text in WRITTEN + [program(seed) for seed in range(a.first, a.first + a.many)]:
        for difference in check.differences(text):
            bad += 1
            print(text, difference, sep="\n    ")
    print(f"{len(WRITTEN)} written scripts, {a.many} random ones, {bad} differences")
    return bad > 0


if __name__ == "__main__":
    sys.setrecursionlimit(200000)
    warnings.simplefilter("ignore")
    threading.stack_size(512 * 1024 * 1024)
    found = []
    thread = threading.Thread(target=lambda: found.append(main()))
    thread.start()
    thread.join()
    sys.exit(found[0] if found else 2)
