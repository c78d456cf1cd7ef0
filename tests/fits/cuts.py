"""Rows of code files in hex in which a handler row is too deep or slots are too few, and what the plain checker tells of their blocks: under which row
cuts differ first, before the row that is too deep, or of all rows where none is."""
import random
from checker import Block, read
from rows import ROWS, block, code_bytes, file, is_code

RANDOM = 16000
KEPT = 30
# a value or an iterator lies lowest behind these
TWO_KINDS = ["Const 0", "JumpUnless 1", "Const 0", "Jump 2", "Const 0", "Iter", "Nop"]
LINES = ["Const 0", "Const 0", "Const 0", "Iter", "Iter", "Pop", "Pop", "Nop", "Swap", "Copy", "Binary 0", "Jump @", "JumpIf @", "JumpIf @", "Next @"]


def random_rows(rng):
    """A block with many handler rows, some of which leave many slots."""
    lines = TWO_KINDS + [rng.choice(LINES) for _ in range(rng.randrange(3, 12))] + ["Const 0", "Return"] + ["Rethrow"] * 4
    places, pc = [], 0
    for line in lines:
        places.append(pc)
        pc += len(code_bytes(line.replace("@", "0")))
    lines[1], lines[3] = "JumpUnless %d" % places[4], "Jump %d" % places[6]
    lines = [line.replace("@", str(rng.choice(places[6:]))) if line.endswith("@") else line for line in lines]
    handlers = []
    for _ in range(rng.randrange(1, 7)):
        f, t = sorted([rng.choice(places if rng.random() < 0.05 else places[6:]), rng.choice(places[6:] + [pc])])
        depth = rng.choice([0, 1, 1, 1, 2, 2, 3])
        handlers.append((f, t, rng.choice(places[6:]) if rng.random() < 0.2 else places[depth - 4], depth, rng.randrange(2)))
    return file([block("Const 0; Return"), block("; ".join(lines), handlers=handlers, kind=rng.choice([2, 2, 4]), local=[1])])


def asked(b):
    """The place up to which sizes disagree and of how many rows cuts are asked, or None."""
    words = b.sizes().split()
    if words[0] == "row":
        return int(words[3]), int(words[1])
    return (int(words[1]), len(b.b["handlers"])) if words[0] == "few" else None


def differing(b, p, rows):
    """The first of so many rows under which cuts differ."""
    reached = [(q, ks) for q, ks in b.gets(p) if q <= p]
    for n, row in enumerate(b.b["handlers"][:rows]):
        if len({ks[:row[3]] for q, ks in reached if row[0] <= q < row[1]}) > 1:
            return n
    return None


def told(b):
    found = asked(b)
    if found is None:
        return ";"
    n = differing(b, *found)
    return "none;" if n is None else "cut %d;" % n


def all_told(data):
    code = read(data)
    return "".join(told(Block(code, b)) for b in code["blocks"])


def rows():
    """Name, row and answer."""
    rng, counts = random.Random(23), {}
    found = [(name, data.hex(), all_told(data)) for name, data, _ in ROWS if is_code(data) and all_told(data).strip(";")]
    for n in range(RANDOM):
        data = random_rows(rng)
        code = read(data)
        b = Block(code, code["blocks"][1])
        kind = b.sizes().split()[0], told(b)
        if told(b) != ";" and counts.get(kind, 0) < KEPT:
            counts[kind] = counts.get(kind, 0) + 1
            found.append(("%s, %s %d" % (kind[0], kind[1][:-1], n), data.hex(), ";" + told(b)))
    return found
