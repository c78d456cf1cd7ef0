"""Rows of code files whose blocks agree, and which slots of their places the plain checker finds in common: of each slot of a place, from the lowest, the
first place with which it is."""
import random
from checker import Block, common, read
from random_code import random_block
from rows import ROWS, block, code_bytes, file, is_code

RANDOM = 1000
NESTED = 60
MOST = 40
LONGEST = 2500


class Parts:
    """Nested loops, `finally` parts and `with` bodies, with jumps that are held; each stands where so many slots lie below."""
    def __init__(self, rng):
        self.rng, self.lines, self.handlers, self.targets, self.labels = rng, [], [], [], 0

    def label(self):
        self.labels += 1
        return "L%d" % self.labels

    def jump_if(self, label):
        self.lines += ["Const 0", "JumpIf " + label]

    def body(self, deep, below):
        for _ in range(self.rng.randrange(1, 4)):
            self.part(deep, below)

    def part(self, deep, below):
        chance = self.rng.random()
        if deep == 0 or chance < 0.15:
            self.lines.append("Nop")
        elif chance < 0.35 and self.targets:
            behind = self.label()
            self.jump_if(behind)
            self.lines += ["Leave " + self.rng.choice(self.targets), behind + ":"]
        elif chance < 0.5:
            again, end = self.label(), self.label()
            self.lines.append(again + ":")
            self.jump_if(end)
            self.targets += [again, end]
            self.body(deep - 1, below)
            del self.targets[-2:]
            self.lines += ["Jump " + again, end + ":"]
        else:
            held = self.rng.random() < 0.3
            start, end, handler, behind = (self.label() for _ in range(4))
            if held:
                self.lines += ["Const 0", "Enter", "Pop"]
            self.lines.append(start + ":")
            self.body(deep - 1, below + held)
            self.lines += [end + ":", "Normal", handler + ":"]
            if held:
                self.lines.append("Exit")
            elif self.rng.random() < 0.3:
                self.body(deep - 1, below + 1)
            if self.rng.random() < 0.2:
                other = self.label()
                self.jump_if(other)
                self.lines += ["EndFinally", "Jump " + behind, other + ":"]
            self.lines += ["EndFinally", behind + ":"]
            self.handlers.append((start, end, handler, below + held, 1))


def nested_block(rng):
    parts = Parts(rng)
    parts.body(4, 0)
    places, lines, pc = {}, [], 0
    for line in parts.lines + ["Const 0", "Return"]:
        if line.endswith(":"):
            places[line[:-1]] = pc
        else:
            lines.append(line)
            pc += len(code_bytes(line.split()[0] + " 0" * (len(line.split()) - 1)))
    lines = [" ".join(str(places.get(word, word)) for word in line.split()) for line in lines]
    handlers = [(places[a], places[b], places[t], depth, always) for a, b, t, depth, always in parts.handlers]
    if rng.random() < 0.3:
        rng.shuffle(handlers)
    return file([block("Const 0; Return"), block("; ".join(lines), handlers=handlers, kind=2, local=[1])])


def told(b):
    """None where it doesn't agree, or has more slots than are to be written."""
    if False in b.tables() or any(b.disagrees(p) for p in b.at):
        return None
    gets = b.gets(b.size)
    goes = b.leaves(b.size, gets)[1]
    sizes = {q: len(ks) for q, ks in gets}
    if max(sizes.values()) > MOST:
        return None
    words = []
    for q in sorted(sizes):
        firsts = ["%d," % min(common(goes, slot, q)) for slot in range(sizes[q])]
        words.append("%d:%s " % (q, "".join(firsts)))
    return "".join(words)


def rows_of(told, seed, blocks):
    """Name, row and answer, of code of whose blocks something is told: of the rows that are written, so many random blocks and nested parts."""
    rng = random.Random(seed)
    found = [(name, data) for name, data, _ in ROWS if is_code(data)]
    found += [("random %d" % n, random_block(rng)) for n in range(blocks)] + [("nested %d" % n, nested_block(rng)) for n in range(NESTED)]
    rows = []
    for name, data in found:
        code = read(data)
        answers = [told(Block(code, b)) for b in code["blocks"]] if len(data) < LONGEST else [None]
        if None not in answers:
            rows.append((name, data.hex(), "".join(answer + ";" for answer in answers)))
    return rows


def rows():
    """Of code whose blocks agree."""
    return rows_of(told, 31, RANDOM)
