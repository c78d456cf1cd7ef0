#!/usr/bin/env python3
"""Random blocks, and runs of those that the plain checker accepts: at each state the slots have the kinds of the place, and none is stuck.

    random_code.py [SEED [BLOCKS]]
"""
import random
import sys
import rows
from checker import (Block, DELEGATE, END_FINALLY, EXIT, LEAVE, P, V, X, read, said)

PLAIN = ["Nop", "Const 0", "Const 0", "Const 0", "Pop", "Pop", "Copy", "Copy2", "Swap", "Rot3", "Binary 0", "Tuple 2", "ListAdd 1", "Unpack 2", "Call 1",
         "Iter", "Iter", "Match", "Caught", "EndHandler", "EndHandler", "Enter", "Normal", "Normal", "Exit", "EndFinally", "EndFinally", "Return", "Raise",
         "RaiseAgain", "Rethrow", "Yield", "Delegate", "Local 0", "SetLocal 0", "ImportName 0"]
JUMPS = ["Jump", "Jump", "JumpIf", "JumpUnless", "JumpIfKeep", "Next", "Next", "Leave", "Leave", "Leave"]


def random_block(rng, starts=False):
    lines = [rng.choice(PLAIN) if rng.random() < 0.7 else rng.choice(JUMPS) + " @" for _ in range(rng.randrange(2, 11))]
    lines += ["Const 0", "Return"]
    places, pc = [], 0
    for line in lines:
        places.append(pc)
        pc += len(rows.code_bytes(line.replace("@", "0")))
    lines = [line.replace("@", str(rng.choice(places))) if line.endswith("@") else line for line in lines]
    handlers = []
    for _ in range(rng.choice([0, 0, 1, 1, 2])):
        f, t = sorted([rng.choice(places), rng.choice(places + [pc])])
        handlers.append((f, t, rng.choice(places), rng.choice([0, 0, 0, 1, 2]), rng.randrange(2)))
    marks = [p for p in places if rng.random() < 0.7]
    kind = rng.choice([2, 2, 2, 4])
    lines_at = [(p, rng.randrange(1, 4)) for p in places if rng.random() < 0.5] if starts else []
    return rows.file([rows.block("Const 0; Return"),
                      rows.block("; ".join(lines), marks=marks, handlers=handlers, starts=lines_at, kind=kind, local=[1])])


class Stuck(Exception):
    pass


def land(b, pc, slots, how, lengths):
    """Where a completion goes that leaves a place with these slots: a place and slots, or None at the end of the block."""
    for f, t, target, depth, always in b.at[pc][4]:
        if how[0] == "raise" or (always and (how[0] == "return" or not f <= how[1] < t)):
            return target, slots[:depth] + [(P, how) if always else (X, None)]
    return (how[1], slots[:lengths[how[1]]]) if how[0] == "jump" else None


def turn(b, pc, slots, rng, lengths):
    """One turn with a random answer."""
    op, args, end, _, _ = b.at[pc]
    takes, deep, gives = b.effect(op, args)
    below, taken = slots[:len(slots) - len(takes)], slots[len(slots) - len(takes):]
    kinds = "".join(k for k, _ in taken)
    if len(slots) < len(takes) or (kinds != takes and not b.swaps_iterator(op, kinds)) or (deep and (deep > len(below) or below[-deep][0] != V)):
        raise Stuck
    raising = rng.random() < 0.25
    if op == LEAVE:
        return land(b, pc, slots, ("jump", args[0]), lengths)
    if op == 58:
        return land(b, pc, below, ("return",), lengths)
    if op == END_FINALLY:
        how = taken[-1][1]
        return (end, below) if how is None else land(b, pc, below, how, lengths)
    if raising or op in (61, 62, 63, 67, 75):
        return land(b, pc, below, ("raise",), lengths)
    if op == EXIT:
        how = taken[-1][1]
        return end, below + [(P, None if how == ("raise",) and rng.random() < 0.5 else how)]
    if op == DELEGATE and rng.random() < 0.5:
        return pc, slots
    if 52 <= op <= 57 and (op == 53 or rng.random() < 0.5):
        return args[0], below + [(V, None)] * (op in (56, 57))
    if b.swaps_iterator(op, kinds):
        gives = "VI"
    return end, below + [(k, None) for k in gives]


def run(b, rng, kinds_at):
    lengths = {pc: len(ks) for pc, ks in kinds_at.items()}
    state = (0, [(k, None) for k in kinds_at[0]])
    for _ in range(60):
        if state is None:
            return
        pc, slots = state
        assert "".join(k for k, _ in slots) == kinds_at[pc], (pc, slots, kinds_at[pc])
        state = turn(b, pc, slots, rng, lengths)


def main():
    rng = random.Random(int(sys.argv[1]) if len(sys.argv) > 1 else 1)
    answers, fitting = {}, 0
    for _ in range(int(sys.argv[2]) if len(sys.argv) > 2 else 3000):
        data = random_block(rng)
        code = read(data)
        b = Block(code, code["blocks"][1])
        bad = b.refusal()
        name = said(bad and (bad[0], 1, bad[1])).split()[0]
        answers[name] = answers.get(name, 0) + 1
        if bad is None:
            fitting += 1
            kinds_at = dict(b.gets(b.size))
            for _ in range(20):
                run(b, rng, kinds_at)
    print(" ".join("%s:%d" % pair for pair in sorted(answers.items())))


if __name__ == "__main__":
    main()
