"""Rows of code files in hex, and what the plain checker tells of the sizes of their blocks."""
import random
from checker import Block, read
from random_code import random_block
from rows import ROWS, block, file, is_code

RANDOM = 300
WIDE = 60


def wide_block(rng):
    """Slots come one by one, under many handler rows that leave some of them; now and then one leaves too many."""
    slots, depths = rng.randrange(1, 40), rng.randrange(1, 6)
    behind = 5 * slots + 1
    handlers = []
    for _ in range(rng.randrange(1, 60)):
        depth = rng.randrange(depths)
        start = rng.randrange(slots) if rng.random() < 0.03 else min(depth + rng.randrange(slots), slots - 1)
        handlers.append((5 * start, min(5 * (start + rng.randrange(1, slots + 2)), behind), behind + depth, depth, rng.randrange(2)))
    return file([block("; ".join(["Const 0"] * slots + ["Return"] + ["Rethrow"] * depths), handlers=handlers)])


def told(data):
    code = read(data)
    answers = [Block(code, b).sizes() for b in code["blocks"]]
    return "".join(a + (";" if a[:1].isalpha() else " ;") for a in answers)


def rows():
    """Name, row and answer."""
    rng = random.Random(21)
    found = [(name, data) for name, data, _ in ROWS if is_code(data)] + [("random %d" % n, random_block(rng)) for n in range(RANDOM)]
    found += [("wide %d" % n, wide_block(rng)) for n in range(WIDE)]
    return [(name, data.hex(), told(data)) for name, data in found]
