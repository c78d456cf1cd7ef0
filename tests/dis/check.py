"""Reads the listing of each script's code back, and checks it against the acts of the script, which come from CPython's ast.

  check.py [--definitions] [SCRIPT ..]

The listings are those of the program, by the command PT. With --definitions they are also those of the definitions of code and listing, and
the code of a block has the names that the block is said to have, and no other. Checked are: the blocks with their names; places that rise, and targets that are places of the block; that each act begins once, and the
acts with which a loop tests again twice; its line; that the instruction at an act is one that does what the act says; and the listings of
`expected`, which were written by hand.
"""
import ast
import glob
import os
import shlex
import subprocess
import sys

HERE = os.path.dirname(os.path.abspath(__file__))
sys.path[:0] = [os.path.join(HERE, ".."), os.path.join(HERE, "..", "front")]
import acts  # noqa: E402
import deep  # noqa: E402
from laid import Listings  # noqa: E402

LOADS = {"Local", "Cell", "Global", "Name"}
STORES = {"SetLocal", "SetCell", "SetGlobal", "SetName"}
DELETES = {"DelLocal", "DelCell", "DelGlobal", "DelName"}
JUMPS = {"Jump", "JumpIf", "JumpUnless", "JumpIfKeep", "JumpUnlessKeep", "Leave", "Next"}
# the instructions of each kind of act
DOES = {
    "Const": {"Const"}, "Load": LOADS, "Store": STORES, "Delete": DELETES, "Attr": {"Attr"}, "SetAttr": {"SetAttr"}, "DelAttr": {"DelAttr"},
    "Item": {"Item"}, "SetItem": {"SetItem"}, "DelItem": {"DelItem"}, "Slice": {"Slice"}, "Unary": {"Unary"}, "Not": {"Not"},
    "Binary": {"Binary"}, "InPlace": {"InPlace"}, "Compare": {"Compare"}, "Build": {"Tuple", "List", "Set", "Dict"}, "Format": {"Format"},
    "Join": {"Join"}, "Spread": {"Spread", "SpreadMap"}, "Call": {"Call", "CallKw", "CallSpread"}, "Function": {"MakeFunction"},
    "Class": {"MakeClass"}, "Generator": {"MakeGenerator"}, "Iter": {"Iter"}, "Next": {"Next"}, "Add": {"ListAdd", "SetAdd", "DictAdd"},
    "Branch": {"JumpIf", "JumpUnless", "JumpIfKeep", "JumpUnlessKeep"}, "Unpack": {"Unpack", "UnpackStar"}, "Yield": {"Yield"},
    "Delegate": {"Delegate"}, "Return": {"Return"}, "Raise": {"Raise", "RaiseFrom", "RaiseAgain", "AssertFail"}, "Discard": {"Pop"},
    "Break": {"Leave"}, "Continue": {"Leave"}, "Pass": {"Nop"}, "Try": {"Nop"}, "Match": {"Match"}, "Enter": {"Enter"}, "Exit": {"Exit"},
    "Import": {"Import"}, "ImportName": {"ImportName"},
}


class Differs(Exception):
    pass


class Block:
    def __init__(self, name):
        self.name, self.places, self.acts = name, [], []


def blocks_of(listing):
    """The blocks of a listing: instructions by their places, and acts as (number, line, place)."""
    blocks, begun = [], []
    for text in listing.splitlines():
        first, *rest = text.split(" ")
        if first == "block":
            blocks.append(Block(rest[1]))
            if int(rest[0]) != len(blocks) - 1:
                raise Differs(f"block {rest[0]} is the {len(blocks)}th")
        elif first == "act":
            number, word, line = rest
            if word != "line":
                raise Differs(text)
            begun.append((int(number), int(line)))
        else:
            block, place = blocks[-1], int(first)
            if block.places and place <= block.places[-1][0]:
                raise Differs(f"place {place} doesn't rise")
            block.places.append((place, rest[0], [int(x) for x in rest[1:]]))
            if len(begun) > 1:
                raise Differs(f"several acts begin at place {place}")
            block.acts += [(number, line, len(block.places) - 1) for number, line in begun]
            begun = []
    if begun:
        raise Differs("an act begins behind the last place")
    return blocks


def name_of(node):
    return {ast.Module: "<module>", ast.Lambda: "<lambda>", ast.GeneratorExp: "<genexpr>"}.get(type(node)) or node.name


def wanted(node):
    """The acts of a block: kind, line, and how often it begins. The first with which a loop tests again has a star; with those up to its
    Branch, or alone if it is a Next, it stands in code twice."""
    found, again = [], False
    for kind, line in acts.block(node):
        twice = kind.endswith("*") or again
        again = twice and kind not in ("Next*", "Branch")
        found.append((kind.rstrip("*"), line, 2 if twice else 1))
    return found


def mark_tests():
    """All acts of a loop's test get the star."""
    acts.again = lambda found: [(kind.rstrip("*") + "*", line) for kind, line in found]


def check_block(node, block):
    if block.name != name_of(node):
        raise Differs(f"the name is {block.name}, not {name_of(node)}")
    places = {place for place, _, _ in block.places}
    for place, instruction, operands in block.places:
        if instruction in JUMPS and operands[0] not in places:
            raise Differs(f"{instruction} at {place} aims at no place")
    begun = {}
    for number, line, index in block.acts:
        begun.setdefault(number, []).append((line, block.places[index][1]))
    expected = wanted(node)
    if sorted(begun) != list(range(len(expected))):
        raise Differs(f"acts {sorted(begun)} of {len(expected)}")
    for number, (kind, line, times) in enumerate(expected):
        if [x for x, _ in begun[number]] != [line] * times:
            raise Differs(f"act {number} ({kind}) begins on the lines {[x for x, _ in begun[number]]}, not {times} times on {line}")
        for _, instruction in begun[number]:
            if instruction not in DOES[kind]:
                raise Differs(f"act {number} is a {kind}, and {instruction} begins it")
    return len(expected)


def check(script, listing):
    with open(script, encoding="utf-8") as f:
        tree = ast.parse(f.read())
    nodes = [tree] + acts.nodes(tree)
    blocks = blocks_of(listing)
    if len(blocks) != len(nodes):
        raise Differs(f"{len(blocks)} blocks, not {len(nodes)}")
    return len(blocks), sum(check_block(node, block) for node, block in zip(nodes, blocks))


def by_hand(script):
    """The listing that was written by hand, if there is one."""
    name = os.path.join(HERE, "expected", os.path.basename(script)[:-3] + ".txt")
    if not os.path.exists(name):
        return None
    with open(name, encoding="utf-8") as f:
        return f.read()


def by_program(script):
    """What the program lists."""
    command = os.environ.get("PT", os.path.join(HERE, "..", "..", "pt") + " --only-proved")
    run = subprocess.run([*shlex.split(command), "dis", script], capture_output=True)
    if run.returncode != 0:
        raise Differs(f"the program ends with status {run.returncode}")
    return run.stdout.decode()


def check_definitions(listings, script, listing):
    """The definitions have the same listing, and the names that they say of each block."""
    with open(script, encoding="utf-8") as f:
        said, others = listings.of(f.read())
    if others:
        raise Differs(f"the code of the blocks {others} has other names")
    if said != listing:
        raise Differs("the listing isn't that of the definitions")


def main():
    mark_tests()
    words = sys.argv[1:]
    listings = Listings() if "--definitions" in words else None
    scripts = [word for word in words if word != "--definitions"] or sorted(glob.glob(os.path.join(HERE, "scripts", "*.py")))
    wrong, blocks, marks, written = 0, 0, 0, 0
    for script in scripts:
        try:
            listing = by_program(script)
            b, n = check(script, listing)
            blocks, marks = blocks + b, marks + n
            if listings:
                check_definitions(listings, script, listing)
            expected = by_hand(script)
            written += expected is not None
            if expected not in (None, listing):
                raise Differs("the listing isn't the one that was written by hand")
        except Differs as e:
            wrong += 1
            print(f"{os.path.basename(script)}: {e}")
    print(f"{len(scripts)} scripts, {blocks} blocks, {marks} acts, {written} listings by hand, {wrong} wrong")
    return 1 if wrong else 0


if __name__ == "__main__":
    sys.exit(deep.call(main))
