#!/usr/bin/env python3
"""Which code files fit: a plain checker, written from the definitions of crates/sem_fits and as slow as they are.

    checker.py FILE ..     writes for each file its answer: `fits`, or a refusal with its number and place

For each place p anew it makes the least relations of the definitions by adding what follows until nothing does.
"""
import struct
import sys

MOST = 16777216
V, C, I, X, P, W = "VCIXPW"
MODULE, FUNCTION, GENERATOR, CLASS, EXPRESSION = range(5)
OPERANDS = {n: 0 for n in range(81)}
for n in [1, 2, 3, 4, 5, 6, 7, 8, 9, 10, 11, 12, 13, 14, 20, 21, 22, 27, 29, 30, 31, 32, 33, 34, 35, 36, 37, 38, 39, 40, 41, 45,
          49, 50, 52, 53, 54, 55, 56, 57, 72, 73, 74, 75, 79, 80]:
    OPERANDS[n] = 1
for n in [42, 46, 47]:
    OPERANDS[n] = 2
OPERANDS[48] = 3
YIELD, DELEGATE, LEAVE, END_FINALLY, EXIT, SWAP = 59, 60, 72, 71, 70, 18


class BadFile(Exception):
    pass


class Reader:
    def __init__(self, data):
        self.data, self.at = data, 0

    def bytes(self, n):
        if self.at + n > len(self.data):
            raise BadFile
        self.at += n
        return self.data[self.at - n:self.at]

    def byte(self):
        return self.bytes(1)[0]

    def number(self):
        return struct.unpack("<I", self.bytes(4))[0]

    def listed(self, item):
        return [item() for _ in range(self.number())]

    def text(self):
        return self.bytes(self.number())


def read(data):
    """The code of a file that is one; fields aren't checked."""
    r = Reader(data)
    if r.bytes(5) != b"PTCF\x01":
        raise BadFile
    texts = r.listed(r.text)

    def constant():
        tag = r.byte()
        return bytes([tag]) + r.bytes({3: 16, 4: 4}.get(tag, 0))
    constants = r.listed(constant)
    lists = r.listed(lambda: r.listed(r.number))

    def block():
        b = {"name": r.number(), "kind": r.byte(), "line": r.number(), "parameters": r.number(), "flags": r.byte(),
             "keyword_only": r.number()}
        b["locals"], b["cells"], b["free"] = (r.listed(r.number) for _ in range(3))
        b["code"] = r.text()
        b["marks"] = r.listed(lambda: (r.number(), r.number(), r.number(), r.byte()))
        b["handlers"] = r.listed(lambda: (r.number(), r.number(), r.number(), r.number(), r.byte()))
        b["starts"] = r.listed(lambda: (r.number(), r.number()))
        return b
    blocks = r.listed(block)
    if r.at != len(data):
        raise BadFile
    return {"texts": texts, "constants": constants, "lists": lists, "blocks": blocks}


def instructions(code):
    """From each place to the operation, its operands and the place behind."""
    found, pc = {}, 0
    while pc < len(code):
        op = code[pc]
        if op not in OPERANDS or pc + 1 + 4 * OPERANDS[op] > len(code):
            raise BadFile
        end = pc + 1 + 4 * OPERANDS[op]
        found[pc] = (op, struct.unpack("<%dI" % OPERANDS[op], code[pc + 1:end]), end)
        pc = end
    return found


# what each instruction takes and gives, as texts of kinds with the top last
PLAIN = {
    0: ("", ""), 1: ("", V), 2: ("", V), 3: (V, ""), 4: ("", ""), 5: ("", V), 6: (V, ""), 7: ("", ""), 8: ("", V), 9: (V, ""),
    10: ("", ""), 11: ("", V), 12: (V, ""), 13: ("", ""), 14: ("", C), 15: (V, ""), 16: (V, "VV"), 17: ("VV", "VVVV"),
    18: ("VV", "VV"), 19: ("VVV", "VVV"), 20: (V, V), 21: ("VV", ""), 22: (V, ""), 23: ("VV", V), 24: ("VVV", ""), 25: ("VV", ""),
    26: ("VVV", V), 27: (V, V), 28: (V, V), 29: ("VV", V), 30: ("VV", V), 31: ("VV", V), 36: (V, ""), 37: (V, ""), 38: ("VV", ""),
    39: ("VV", V), 43: (V, V), 44: (V, V), 51: (V, I), 52: (I, "IV"), 53: ("", None), 54: (V, ""), 55: (V, ""), 56: (V, ""),
    57: (V, ""), 58: (V, None), 59: (V, V), 60: ("IV", V), 61: (V, None), 62: ("VV", None), 63: ("", None), 64: ("XV", "XV"),
    65: (X, "XV"), 66: (X, ""), 67: (X, None), 68: (V, "WV"), 69: ("", P), 70: ("WP", P), 71: (P, ""), 72: ("", None),
    73: ("", V), 74: (V, "VV"), 76: ("VV", V), 77: ("VV", V), 78: ("VV", V), 79: ("", ""), 80: ("", ""),
}
KEEPS = {16: 1, 17: 2, 52: 1, 56: 1, 57: 1, 64: 1, 74: 1}
ASIDE = {52: "", 53: "", 54: "", 55: "", 56: V, 57: V}


class Block:
    def __init__(self, code, b):
        self.code, self.b = code, b
        found = instructions(b["code"])
        marks = {}
        for m in reversed(b["marks"]):
            marks[m[0]] = m
        self.at = {pc: (op, args, end, marks.get(pc), [h for h in b["handlers"] if h[0] <= pc < h[1]])
                   for pc, (op, args, end) in found.items()}
        self.size = len(b["code"])

    def captured(self, n):
        return len(self.code["blocks"][n]["free"]) if n < len(self.code["blocks"]) else 0

    def values(self, count):
        return V * count

    def kinds_at_start(self):
        return I if self.b["kind"] == EXPRESSION else ""

    def effect(self, op, args):
        """What is taken, how deep a value is read below that, what is given."""
        if op in (32, 33, 34, 40):
            return self.values(args[0]), 0, V
        if op == 35:
            return self.values(2 * args[0]), 0, V
        if op == 41:
            return V, 0, self.values(args[0])
        if op == 42:
            return V, 0, self.values(args[0] + args[1] + 1)
        if op in (45, 46, 47):
            return self.values(args[0] + 1), 0, V
        if op == 48:
            return self.values(args[1]) + C * self.captured(args[0]), 0, V
        if op == 49:
            return V + C * self.captured(args[0]), 0, V
        if op == 50:
            return I + C * self.captured(args[0]), 0, V
        if op == 75:
            return V * args[0], 0, None
        takes, gives = PLAIN[op]
        return takes, args[0] if op in (36, 37, 38) else 0, gives

    def swaps_iterator(self, op, taken):
        return op == SWAP and taken == "IV"

    def has_enough(self, pc, ks):
        op, args = self.at[pc][:2]
        takes, deep, _ = self.effect(op, args)
        return len(takes) + deep <= len(ks)

    def finds(self, pc, ks):
        op, args = self.at[pc][:2]
        takes, deep, _ = self.effect(op, args)
        spared = max(len(ks) - len(takes), 0)
        below, taken = ks[:spared], ks[spared:]
        if taken != takes and not self.swaps_iterator(op, taken):
            return False
        return op not in (36, 37, 38) or (1 <= deep <= len(below) and below[len(below) - deep] == V)

    def spared(self, pc, ks):
        op, args = self.at[pc][:2]
        return max(len(ks) - len(self.effect(op, args)[0]), 0)

    def steps(self, pc, ks):
        """The ways on: where to, with which kinds, and how many slots are kept."""
        op, args, end, _, rows = self.at[pc]
        takes, _, gives = self.effect(op, args)
        spared = self.spared(pc, ks)
        below = ks[:spared]
        out = []
        if self.has_enough(pc, ks):
            keeps = KEEPS.get(op, 0)
            if gives is not None:
                if op == SWAP:
                    gives = V + ks[spared]
                out.append((end, below + gives, spared + min(keeps, len(gives))))
            if op in ASIDE:
                out.append((args[0], below + ASIDE[op], spared + min(keeps, len(ASIDE[op]))))
            if op == DELEGATE:
                out.append((pc, ks, len(ks)))
        for f, t, target, depth, always in rows:
            if depth <= spared:
                out.append((target, ks[:depth] + (P if always else X), depth))
        return out

    def gets(self, p):
        """All pairs of a place and kinds that it gets through the instructions at p and below; None where two lengths meet, as there may be
        kinds without end then."""
        first = (0, self.kinds_at_start())
        seen, due = {first}, [first]
        lengths = {0: len(first[1])}
        while due:
            q, ks = due.pop()
            if q > p or q not in self.at:
                continue
            for r, ls, _ in self.steps(q, ks):
                if r in self.at and (r, ls) not in seen:
                    if lengths.setdefault(r, len(ls)) != len(ls):
                        return None
                    seen.add((r, ls))
                    due.append((r, ls))
        return seen

    def sizes(self):
        """How many slots each place gets, or the least place up to which these numbers disagree, and how."""
        def failing(reached):
            return [n for n, row in enumerate(self.b["handlers"])
                    if any(row[0] <= q < row[1] and row[3] > self.spared(q, self.values(size)) for q, size in reached.items())]
        first = len(self.kinds_at_start())
        found = {}
        for p in sorted(self.at):
            found, due, meet = {0: first}, [0], False
            while due and not meet:
                q = due.pop()
                if q > p:
                    continue
                for r, ks, _ in self.steps(q, self.values(found[q])):
                    if r in self.at and r not in found:
                        found[r] = len(ks)
                        due.append(r)
                    meet = meet or found.get(r, len(ks)) != len(ks)
            reached = {q: size for q, size in found.items() if q <= p}
            if meet:
                return "meet %d" % p
            if failing(reached):
                return "row %d at %d" % (failing(reached)[0], p)
            if any(not self.has_enough(q, self.values(size)) for q, size in reached.items()):
                return "few %d" % p
        return " ".join("%d:%d" % item for item in sorted(found.items()))

    def taker(self, q, t):
        for row in self.at[q][4]:
            if row[4] and not row[0] <= t < row[1]:
                return row
        return None

    def leaves(self, p, gets):
        """Departures of Leaves, steps between places, and slots that hold a Leave, until nothing is added."""
        reached = [(q, ks) for q, ks in gets if q <= p]
        departs, goes, holds = set(), set(), set()
        for q, ks in reached:
            for r, ls, k in self.steps(q, ks):
                if r in self.at:
                    goes.add((q, r, k))
            if self.at[q][0] == LEAVE:
                departs.add((self.at[q][1][0], q, ks))
        while True:
            before = len(departs), len(goes), len(holds)
            for t, q, ks in list(departs):
                row = self.taker(q, t)
                if row:
                    holds.add((t, row[2], row[3]))
                for r, ls in gets:
                    if r == t:
                        goes.add((q, t, min(len(ls), len(ks))))
            for q, ks in reached:
                for t, r, d in list(holds):
                    if r == q and d == max(len(ks) - 1, 0):
                        if self.at[q][0] == END_FINALLY:
                            departs.add((t, q, ks[:max(len(ks) - 1, 0)]))
                        if self.at[q][0] == EXIT:
                            holds.add((t, self.at[q][2], max(len(ks) - 2, 0)))
            for q, r, k in goes:
                for t, s, d in list(holds):
                    if d < k and s == q:
                        holds.add((t, r, d))
                    if d < k and s == r:
                        holds.add((t, q, d))
            if before == (len(departs), len(goes), len(holds)):
                return departs, goes, holds

    def may_stand(self, pc):
        op, args = self.at[pc][:2]
        kind, code = self.b["kind"], self.code

        def texts(n):
            return [code["texts"][t] for t in code["lists"][n]]

        def kind_of(n):
            return code["blocks"][n]["kind"] if n < len(code["blocks"]) else None
        if op in (YIELD, DELEGATE):
            return kind in (GENERATOR, EXPRESSION)
        if op in (11, 12, 13):
            return kind in (MODULE, CLASS)
        if op == 46:
            return len(texts(args[1])) <= args[0]
        if op == 47:
            return len(texts(args[1])) == args[0]
        if op == 48:
            if kind_of(args[0]) not in (FUNCTION, GENERATOR):
                return False
            c = code["blocks"][args[0]]
            names = [code["texts"][t] for t in c["locals"][:c["parameters"] + c["keyword_only"]]]
            xs = texts(args[2])
            return len(xs) == args[1] and len(set(xs)) == len(xs) and all(x in names for x in xs)
        if op == 49:
            return kind_of(args[0]) == CLASS
        if op == 50:
            return kind_of(args[0]) == EXPRESSION
        return True

    def disagrees(self, p):
        """The first of the failures in their order, or None."""
        gets = self.gets(p)
        if gets is None:
            return (23, p)
        lists = {}
        for q, ks in gets:
            lists.setdefault(q, []).append(ks)
        reached = [(q, ks) for q, ks in gets if q <= p]
        failing = []
        for n, row in enumerate(self.b["handlers"]):
            under = [(q, ks) for q, ks in reached if row[0] <= q < row[1]]
            if any(row[3] > self.spared(q, ks) for q, ks in under) or len({ks[:row[3]] for _, ks in under}) > 1:
                failing.append(len(self.b["marks"]) + n)
        if failing:
            return (26, min(failing))
        departs, _, _ = self.leaves(p, gets)
        leaving = set()
        for t, q, ks in departs:
            leaving.add((t, ks))
            row = self.taker(q, t)
            if row:
                leaving.add((t, ks[:row[3]]))
        asked = [(ks, ls) for t, ks in leaving for ls in lists.get(t, [])]
        if any(not self.has_enough(q, ks) for q, ks in reached) or any(len(ls) > len(ks) for ks, ls in asked):
            return (23, p)
        if (any(len(set(kss)) > 1 for kss in lists.values())
                or any(not self.finds(q, ks) or not self.may_stand(q) for q, ks in reached)
                or any(not ks.startswith(ls) for ks, ls in asked)):
            return (24, p)
        for q, ks in reached:
            if any(r not in self.at for r, _, _ in self.steps(q, ks)):
                return (25, p)
            if self.at[q][0] == LEAVE and self.at[q][1][0] not in self.at:
                return (25, p)
        return None

    def tables(self):
        hold = []

        def in_order(pcs):
            before = None
            for pc in pcs:
                hold.append(pc in self.at and (before is None or before < pc))
                before = pc
        in_order([m[0] for m in self.b["marks"]])
        for f, t, target, _, _ in self.b["handlers"]:
            hold.append(f in self.at and (t in self.at or t == self.size) and target in self.at)
        in_order([s[0] for s in self.b["starts"]])
        return hold

    def first_disagreement(self):
        return next(filter(None, map(self.disagrees, sorted(self.at))), None)

    def refusal(self):
        hold = self.tables()
        if False in hold:
            return (26, hold.index(False))
        bad = self.first_disagreement()
        if bad:
            return bad
        gets = self.gets(self.size)
        places = {q for q, _ in gets}
        lost = [q for q in places if self.at[q][0] == LEAVE and self.at[q][1][0] not in places]
        if lost:
            return (25, min(lost))
        if any(len(ks) > MOST for _, ks in gets):
            return (28, None)
        loop = self.silent_loop(self.leaves(self.size, gets)[1])
        return None if loop is None else (27, loop)

    def silent_loop(self, goes):
        """The least place on a cycle of steps without a mark."""
        edges = {}
        for q, r, _ in goes:
            if self.at[q][3] is None:
                edges.setdefault(q, set()).add(r)

        def is_round(q):
            seen, due = set(), list(edges[q])
            while due:
                r = due.pop()
                if r not in seen:
                    seen.add(r)
                    due.extend(edges.get(r, ()))
            return q in seen
        return min(filter(is_round, edges), default=None)


def common(goes, slot, pc):
    """The places at which a slot, counted from the lowest, is the same as at this one."""
    seen, due = {pc}, [pc]
    while due:
        q = due.pop()
        for r, s, kept in goes:
            for one, other in ((r, s), (s, r)):
                if slot < kept and one == q and other not in seen:
                    seen.add(other)
                    due.append(other)
    return seen


def jump(b, pc, line):
    """Where a jump from a place of a block that fits leads, with how many slots, or why it is refused."""
    gets = b.gets(b.size)
    lists = dict(gets)
    starts = [at for at, on in b.b["starts"] if on == line and at in lists]
    if not starts:
        return "no statement"
    to = min(starts)
    goes = b.leaves(b.size, gets)[1]

    in_common = lambda d: to in common(goes, d, pc)
    held = [d for ks in (lists[pc], lists[to]) for d, k in enumerate(ks) if k == P]
    if not all(map(in_common, held)):
        return "out of finally"
    if not all(in_common(d) for d in range(len(lists[to]))):
        return "into block"
    return to, len(lists[to])


NAMES = {23: "Stack", 24: "Kind", 25: "Target", 26: "Table", 27: "SilentLoop", 28: "Depth"}


def verify(code):
    """None where it fits, else the number, block and place of the refusal."""
    for n, b in enumerate(code["blocks"]):
        bad = Block(code, b).refusal()
        if bad:
            return (bad[0], n, bad[1])
    return None


def said(answer):
    if answer is None:
        return "fits"
    number, block, place = answer
    where = "" if place is None else " %s %d" % ("row" if number == 26 else "pc", place)
    return "%d %s block %d%s" % (number, NAMES[number], block, where)


if __name__ == "__main__":
    for name in sys.argv[1:]:
        with open(name, "rb") as f:
            try:
                print(said(verify(read(f.read()))))
            except BadFile:
                print("no code file")
