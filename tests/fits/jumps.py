"""Rows of jumps in code that fits: the file in hex, the number of the block, the place from which is jumped, and the line. The answer is that of the plain
checker."""
import random
from checker import P, Block, jump, read
from random_code import random_block
from rows import JUMPS

RANDOM = 12000
KEPT = 40


def asked(data, number):
    """Each place and line of a block that fits."""
    code = read(data)
    b = Block(code, code["blocks"][number])
    if b.refusal() is not None:
        return
    lists = dict(b.gets(b.size))
    for pc in sorted(lists):
        for line in sorted({line for _, line in b.b["starts"]} | {9}):
            to = jump(b, pc, line)
            holds = any(P in ks for ks in lists.values())
            yield " ".join([data.hex(), str(number), str(pc), str(line)]), "%d %d" % to if isinstance(to, tuple) else str(to), holds


def rows():
    """Name, row and answer: all jumps in the code of the rows that are written, and as many of random code with each answer."""
    rng = random.Random(48)
    found, kept, seen = [], {}, set()
    for name, data, _, _, _ in JUMPS:
        if data not in seen:
            seen.add(data)
            found += [("%s %d" % (name, n), row, answer) for n, (row, answer, _) in enumerate(asked(data, 0))]
    for n in range(RANDOM):
        for row, answer, holds in asked(random_block(rng, starts=True), 1):
            kind = (not answer[0].isdigit() and answer, answer.endswith(" 0"), holds)
            kept[kind] = kept.get(kind, 0) + 1
            if kept[kind] <= KEPT:
                found.append(("random %d" % n, row, answer))
    return found
