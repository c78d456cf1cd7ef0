#!/usr/bin/env python3
"""Which Leaves each EndFinally lets go on, found over the classes of topmost slots, and whether a Leave lacks slots, beside the relations of
the plain checker. At each place up to which sizes agree.

    held.py [SEED [BLOCKS]]
"""
import random
import sys
import rows
from checker import END_FINALLY, EXIT, LEAVE, V, Block, read

LINES = ["Const 0", "Pop", "Nop", "Normal", "Enter", "EndFinally", "EndFinally", "EndFinally", "EndFinally", "Exit", "Exit", "Leave @", "Leave @", "Leave @",
         "Leave @", "JumpIf @", "Jump @", "Return"]


def random_block(rng):
    """Leaves in always rows, most of which lead to an EndFinally or an Exit."""
    lines = [rng.choice(LINES) for _ in range(rng.randrange(4, 14))]
    if rng.random() < 0.7:
        part = ["Leave @", "Normal", rng.choice(["Exit", "EndFinally"])]
        lines = ["Const 0", "Enter", "Pop", "Leave @", "Normal"] + part[rng.randrange(3):] + [rng.choice(["Exit", "Exit", "EndFinally"]), "EndFinally"] + lines[:6]
    nested = rng.random() < 0.3
    if nested:
        lines = ["Leave @", "EndFinally", "Normal", "EndFinally", "Normal", "EndFinally"] + lines[:rng.randrange(4)]
    lines += ["Const 0", "Return"]
    places, pc = [], 0
    for line in lines:
        places.append(pc)
        pc += len(rows.code_bytes(line.replace("@", "0")))
    ends = [at for at, line in zip(places, lines) if line in ("EndFinally", "Exit")] or places
    lines = [line.replace("@", str(rng.choice(places))) for line in lines]
    handlers = []
    if nested:
        handlers = [(0, places[n], places[n], 0, 1) for n in (1, 3, 5) if rng.random() < 0.8]
    for _ in range(rng.choice([0, 1, 2] if nested else [1, 1, 2, 2, 3])):
        f, t = sorted([rng.choice(places), rng.choice(places + [pc])])
        handlers.append((f, t, rng.choice(ends if rng.random() < 0.8 else places), rng.choice([0, 0, 0, 1, 1, 2]), rng.random() < 0.8))
    return rows.file([rows.block("Const 0; Return"), rows.block("; ".join(lines), handlers=handlers, kind=2, local=[1])])


def sizes_up_to(b, p):
    """How many slots places get, or None where sizes disagree up to p."""
    gets = b.gets(p)
    if gets is None:
        return None
    sizes = {q: len(ks) for q, ks in gets}
    for q, size in sizes.items():
        if q <= p and (not b.has_enough(q, V * size) or any(row[3] > b.spared(q, V * size) for row in b.at[q][4])):
            return None
    return sizes


def top_classes(b, p, sizes):
    """The class of the topmost slot of each place, by the plain steps and those of Leaves from their own places: its least place."""
    joins = []
    for q, size in sizes.items():
        if q > p:
            continue
        joins += [(q, r, kept) for r, _, kept in b.steps(q, V * size) if r in b.at]
        if b.at[q][0] == LEAVE and b.at[q][1][0] in sizes:
            joins.append((q, b.at[q][1][0], min(size, sizes[b.at[q][1][0]])))
    found = {}
    for q, size in sorted(sizes.items()):
        if size == 0:
            continue
        seen, due = {q}, [q]
        while due:
            r = due.pop()
            for one, other, kept in joins:
                for s, t in ((one, other), (other, one)):
                    if size - 1 < kept and s == r and t not in seen:
                        seen.add(t)
                        due.append(t)
        found[q] = min(s for s in seen if sizes.get(s) == size)
    return found


def held_leaves(b, p, sizes):
    """The pairs of a class and a target that follow from where rows take Leaves at first."""
    tops = top_classes(b, p, sizes)

    def onto(q, t):
        row = b.taker(q, t)
        return tops.get(row[2]) if row else None
    work = [(onto(q, b.at[q][1][0]), b.at[q][1][0]) for q in sizes if q <= p and b.at[q][0] == LEAVE]
    found = set()
    while work:
        c, t = work.pop()
        if c is None or (c, t) in found:
            continue
        found.add((c, t))
        for q, d in tops.items():
            if d == c and q <= p and b.at[q][0] == END_FINALLY:
                work.append((onto(q, t), t))
            if d == c and q <= p and b.at[q][0] == EXIT:
                work.append((tops.get(b.at[q][2]), t))
    return {(q, t) for q, d in tops.items() for c, t in found if d == c and q <= p and b.at[q][0] == END_FINALLY}


def lacks(b, p, sizes, goes):
    """Whether a Leave leaves fewer slots than its target has, where it goes on or under a row that takes it."""
    departures = [(q, b.at[q][1][0], sizes[q]) for q in sizes if q <= p and b.at[q][0] == LEAVE]
    departures += [(q, t, sizes[q] - 1) for q, t in goes]
    for q, t, low in departures:
        row = b.taker(q, t)
        if t in sizes and min(low, row[3] if row else low) < sizes[t]:
            return True
    return False


def compare(b, p, counts):
    """Whether sizes agree up to p; then both have to be what the relations have."""
    sizes = sizes_up_to(b, p)
    if sizes is None:
        return False
    gets = b.gets(p)
    departs, _, holds = b.leaves(p, gets)
    goes = {(q, t) for t, q, d in holds if q in sizes and q <= p and b.at[q][0] == END_FINALLY and d == sizes[q] - 1}
    told = held_leaves(b, p, sizes)
    assert told == goes, (p, told, goes)
    leaving = {(t, len(ks)) for t, q, ks in departs}
    leaving |= {(t, min(len(ks), b.taker(q, t)[3])) for t, q, ks in departs if b.taker(q, t)}
    few = any(t in sizes and low < sizes[t] for t, low in leaving)
    assert few == lacks(b, p, sizes, told), p
    counts["places"] += 1
    counts["let go"] += len(goes)
    counts["by several"] += len({q for q, _ in goes}) > 1
    counts["by exits"] += any(q in sizes and q <= p and b.at[q][0] == EXIT and d == sizes[q] - 1 for _, q, d in holds)
    counts["too few"] += few
    return True


def main():
    rng = random.Random(int(sys.argv[1]) if len(sys.argv) > 1 else 1)
    counts = {"places": 0, "let go": 0, "by several": 0, "by exits": 0, "too few": 0}
    for _ in range(int(sys.argv[2]) if len(sys.argv) > 2 else 2000):
        code = read(random_block(rng))
        b = Block(code, code["blocks"][1])
        if any(row[2] not in b.at for row in b.b["handlers"]):
            continue
        for p in sorted(b.at):
            if not compare(b, p, counts):
                break
    print(", ".join("%s: %d" % item for item in counts.items()))


if __name__ == "__main__":
    main()
