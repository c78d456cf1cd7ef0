"""Compares the first node of a script that isn't supported, by the definition of pt_supported, with that of expected.py.

  check.py [--crates FOLDER] [--from N] [--many N] [--show SEED] [--program]

With --program it asks the program about the written scripts too: it answers Unbuilt with that line, or runs them.
"""
import argparse
import ast
import os
import sys
import warnings

HERE = os.path.dirname(os.path.abspath(__file__))
sys.path[:0] = [os.path.join(HERE, ".."), os.path.join(HERE, "..", "run"), os.path.join(HERE, "..", "compare")]
import deep  # noqa: E402
from answers import Answer, ByProgram  # noqa: E402
from definitions import load  # noqa: E402
from expected import first_unsupported  # noqa: E402
from forms import ROWS, SUPPORTED, UNSUPPORTED  # noqa: E402
from objects import ByteTrees  # noqa: E402
from programs import program  # noqa: E402
from scripts import script  # noqa: E402


REFUSED, UNBUILT = 6, 12


def answers_so(program, text, line):
    """Whether the program answers that the node on this line isn't supported, or runs the script where there is none."""
    answer = program.answer("run", text)
    if line is None:
        return answer.status not in (REFUSED, UNBUILT)
    return answer == Answer(UNBUILT, "", [f"pt: not built at line {line}"])


class Check:
    def __init__(self, crates):
        definitions = load(crates)
        self.unbuilt_of = definitions.get("Rattle.pt_supported.specs.Built", "unbuilt_of")

    def differs(self, text, row=...):
        """Whether the definition, the walk over ast, and the line of a row tell different lines."""
        line = self.unbuilt_of(ByteTrees(text).tree)
        line = None if line == ("None",) else line[1]
        wanted = first_unsupported(ast.parse(text))
        if line == wanted and row in (..., line):
            return line, False
        print(text, f"the definition {line}, ast {wanted}" + (f", the row {row}" if row is not ... else ""), sep="\n")
        return line, True


def main():
    p = argparse.ArgumentParser()
    p.add_argument("--crates", default="../../crates")
    p.add_argument("--from", type=int, default=0, dest="first")
    p.add_argument("--many", type=int, default=200)
    p.add_argument("--show", type=int)
    p.add_argument("--program", action="store_true")
    a = p.parse_args()
    check = Check(a.crates)
    seeds = [a.show] if a.show is not None else range(a.first, a.first + a.many)
    random = [(text, ...) for seed in seeds for text in (script(seed), program(seed, containers=seed % 4 > 0))]
    by_hand = ROWS + [(text, None) for text in SUPPORTED] + [(text, ...) for text in UNSUPPORTED]
    found = [check.differs(text, row) for text, row in by_hand + random]
    if a.show is not None:
        print("\n".join(f"{i + 1:3} {line}" for i, line in enumerate(random[-1][0].split("\n"))))
    bad = sum(differs for _, differs in found) + sum(check.differs(text)[0] is None for text in UNSUPPORTED)
    if a.program:
        asked = ByProgram()
        for (text, _), (line, _) in zip(by_hand, found):
            if not answers_so(asked, text, line):
                print(text, f"the program doesn't answer as the definition, {line}", sep="\n")
                bad += 1
    supported = sum(line is None for line, _ in found)
    print(f"{len(by_hand)} written and {len(random)} random scripts, {supported} of them supported, {bad} with a difference")
    return bad > 0


if __name__ == "__main__":
    warnings.simplefilter("ignore")
    sys.exit(deep.call(main))
