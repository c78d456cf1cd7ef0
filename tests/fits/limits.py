"""Rows of code files of which it is told, block by block, which row of the tables fails first, and where sizes agree whether a Leave has too few slots,
which Leave is lost, whether a place is too deep, and where the least silent loop begins: by the plain checker. A row has the file in hex."""
import random
from checker import END_FINALLY, LEAVE, MOST, Block, read
from random_code import PLAIN, random_block
from rows import ROWS, block, code_bytes, file, is_code

RANDOM = 4000
KEPT = 40
TABLES = 120


def random_tables(rng):
    """A block whose tables are in order, or nearly so."""
    lines = [rng.choice(["Nop", "Const 0", "Pop", "Local 0"]) for _ in range(rng.randrange(2, 9))] + ["Const 0", "Return"]
    places, pc = [], 0
    for line in lines:
        places.append(pc)
        pc += len(code_bytes(line))

    def rising():
        chosen = sorted(rng.sample(places, rng.randrange(len(places))))
        if chosen and rng.random() < 0.2:
            chosen[rng.randrange(len(chosen))] = rng.randrange(pc + 3)
        return chosen
    anywhere = lambda: rng.choice(places + [pc]) if rng.random() < 0.95 else rng.randrange(pc + 3)
    handlers = [(rng.choice(places), anywhere(), rng.choice(places), 0, 0) for _ in range(rng.randrange(4))]
    return file([block("Const 0; Return"), block("; ".join(lines), marks=rising(), handlers=handlers,
                                                 starts=[(at, n) for n, at in enumerate(rising())], kind=2, local=[1])])


def random_finally(rng):
    """Leaves under always rows whose parts end in an EndFinally, with few marks."""
    lines = []
    for _ in range(rng.randrange(1, 4)):
        lines += ["Leave @", rng.choice(["Nop", "Normal", "Jump @"]), rng.choice(["EndFinally", "Nop", "EndFinally"])]
        lines += [rng.choice(PLAIN[:4])] * rng.randrange(2)
    lines += ["Const 0", "Return"]
    places, pc = [], 0
    for line in lines:
        places.append(pc)
        pc += len(code_bytes(line.replace("@", "0")))
    ends = [places[n] for n, line in enumerate(lines) if line == "EndFinally"] or places
    lines = [line.replace("@", str(rng.choice(places))) for line in lines]
    handlers = []
    for n, line in enumerate(lines):
        if line.startswith("Leave") and rng.random() < 0.9:
            handlers.append((places[n], places[min(n + rng.randrange(1, 3), len(lines) - 1)], rng.choice(ends), 0, 1))
    marks = [p for p in places if rng.random() < 0.15]
    return file([block("Const 0; Return"), block("; ".join(lines), marks=marks, handlers=handlers, kind=2, local=[1])])


class Limits:
    """What is told of a block."""
    def __init__(self, b):
        self.b = b
        self.agree = not b.sizes()[:1].isalpha()
        hold = b.tables()
        self.row = hold.index(False) if False in hold else None
        if self.agree:
            self.lists = b.gets(b.size)
            self.departs, self.goes, _ = b.leaves(b.size, self.lists)

    def held(self):
        """Whether an EndFinally lets a Leave go on."""
        return self.agree and any(self.b.at[q][0] == END_FINALLY for _, q, _ in self.departs)

    def few(self):
        """Whether a Leave has fewer slots than its target, where it goes on or under a row that takes it."""
        sizes = {q: len(ks) for q, ks in self.lists}
        left = [(t, len(ks)) for t, q, ks in self.departs]
        left += [(t, min(len(ks), self.b.taker(q, t)[3])) for t, q, ks in self.departs if self.b.taker(q, t)]
        return any(low < sizes.get(t, 0) for t, low in left)

    def lost(self):
        reached = {q for q, _ in self.lists}
        return min((q for q in reached if self.b.at[q][0] == LEAVE and self.b.at[q][1][0] not in reached), default=None)

    def loop(self):
        return self.b.silent_loop(self.goes)

    def told(self):
        words = [] if self.row is None else ["row %d" % self.row]
        if self.agree:
            words += ["few"] if self.few() else []
            words += [] if self.lost() is None else ["lost %d" % self.lost()]
            words += ["deep"] if any(len(ks) > MOST for _, ks in self.lists) else []
            words += [] if self.loop() is None else ["loop %d" % self.loop()]
        return "".join(word + " " for word in words)


def limits(data):
    code = read(data)
    return [Limits(Block(code, b)) for b in code["blocks"]]


def rows():
    """Name, row and answer. Of random blocks as many of each kind of answer, with held Leaves and without."""
    rng = random.Random(27)
    found, kept = [], {}
    for name, data, _ in ROWS:
        if is_code(data):
            found.append((name, data, limits(data)))
    for n in range(RANDOM):
        data = random_finally(rng) if n % 2 else random_block(rng)
        told = limits(data)
        kind = (tuple(one.told().translate({ord(d): None for d in "0123456789"}) for one in told), any(one.held() for one in told),
                all(one.agree for one in told))
        kept[kind] = kept.get(kind, 0) + 1
        if kept[kind] <= (KEPT if kind[2] else KEPT // 4):
            found.append(("random %d" % n, data, told))
    for n in range(TABLES):
        data = random_tables(rng)
        found.append(("tables %d" % n, data, limits(data)))
    return [(name, data.hex(), "".join(one.told() + ";" for one in told)) for name, data, told in found]
