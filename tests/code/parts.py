"""The slots of closed parts, as `law_parts.part_slots` has them, beside the walk over pieces and runs of control and code: each has one place where it is
made; statements start where the slots are those of their parts, the first on a line at the least place; and where an act begins the place lies in
the parts of control's nest.

  parts.py [--crates FOLDER] [--from N] [--many N] [--runs N] [--errors]
"""
import random
import sys

import errors
import over_scripts
from check import PLANS, text_of
from follow import Differs, Pair
from kinds import Walk
from machines import NONE, Script, items

import deep  # noqa: I001

KIND = {"for_part": "I", "with_part": "W", "tests_part": "X", "handler_part": "X", "finally_part": "P", "exit_part": "P"}


class Parts:
    """The closed parts of a block by the place where their slots are made."""

    def __init__(self, specs, script, b):
        d, after = specs.pieces, {pc: i[2] for pc, i in b.checked.at.items()}
        self.walk = Walk(specs, script, b)
        self.next_of = after.__getitem__
        found = items(d.get("law_parts", "part_slots.Slots", "slots_of_code")(b.around, self.next_of, b.tree))
        self.slots = [(s["part"], s["slot"], s["origin"]) for s in found]
        self.of = {o: (q, n) for q, n, o in self.slots}
        have = items(d.get("sem_control", "control.ClosedParts", "parts_of")(specs.statements_of(b.tree), 0))
        if [q for q, _, _ in self.slots] != have or len(self.of) != len(have) or len(set(have)) != len(have):
            raise Differs(f"parts {have} and slots {self.slots}")

    def around(self, pc):
        """The parts whose slots lie at a place, the innermost first, and the kinds there."""
        found = self.walk.slots[pc]
        if found is None:
            raise Differs(f"nothing comes to {pc}")
        parts = []
        for n, (_, origin, _) in enumerate(found):
            if origin in self.of:
                q, slot = self.of[origin]
                if slot != n or len(parts) != n or KIND[q[0]] != found[n][0]:
                    raise Differs(f"slot {n} of {q} at {pc}")
                parts.insert(0, q)
            elif found[n][0] == "P":
                raise Differs(f"slot {n} at {pc} holds a completion of no part")
        return parts, found


def parts_of(specs, nest):
    return items(specs.pieces.get("sem_control", "control.Jump", "parts")(nest))


def check(specs, script, b):
    if not b.parts.slots and not items(specs.starts_of(b.tree)):
        return 0
    d, seen = specs.pieces, set()
    targets = items(specs.starts_of(b.tree))
    for t in targets:
        if t["line"] in seen:
            continue
        seen.add(t["line"])
        place = d.get("law_pieces", "first_starts.First", "first_start")(b.parts.next_of, t["line"], b.piece, 0)
        least = min(pc for pc, line in b.checked.b["starts"] if line == t["line"])
        if place != ("Some", least):
            raise Differs(f"line {t['line']} starts at {place}, the table has {least}")
        parts, slots = b.parts.around(least)
        if parts != parts_of(specs, t["within"]) or len(parts) != len(slots):
            raise Differs(f"line {t['line']} at {least} lies in {parts} with {slots}, not in {parts_of(specs, t['within'])}")
    return len(seen)


class Run(Pair):
    """A run in which each act begins in the parts of its nest."""

    def step(self, c, s):
        told = self.specs.by_tree(self.b.around, c)
        at, _ = self.turn_of_code(s)
        if told[0] == "act" and told[1] != NONE and at[0] == "on":
            want = parts_of(self.specs, self.specs.nest_at(c))
            if want and want[0][0] == "exit_part":
                want = [want[0], ("with_part", want[0][1]), *want[1:]]
            have, _ = self.b.parts.around(at[1])
            if have != want:
                raise Differs(f"at {at[1]} code lies in {have}, control in {want}")
        return super().step(c, s)


def script_checked(specs, seed, runs, totals):
    script = Script(specs, text_of(seed))
    for n, b in enumerate(script.blocks):
        Run(specs, script, b, random.Random(f"{seed} {n}"), 0, 0)
        b.parts = Parts(specs, script, b)
        totals["blocks"] += 1
        totals["parts"] += len(b.parts.slots)
        totals["lines"] += check(specs, script, b)
        for k in range(runs):
            run = Run(specs, script, b, random.Random(f"{seed} {n} {k}"), *PLANS[k % len(PLANS)])
            run.run()
            totals["acts"] += run.acts


def Error(name, old, new):
    return errors.Error(name, "Slots", old, new)


WRONG = [
    Error("an iterator that is made at its Iter", "let taken = next (behind_value it n p) in", "let taken = behind_value it n p in"),
    Error("a `with` whose body's slot is that of its exit", "part_slot (with_part (m + items_size r k)) d entered", "part_slot (with_part (m + items_size r k)) (suc d) entered"),
    Error("an `else` part in front of its test", "d (next (next tested)))", "d (next tested))"),
    Error("a handler whose slot is that of the tests", "part_slot (handler_part n) d (next caught)", "part_slot (handler_part n) d caught"),
    Error("tests behind their handlers' first instruction", "let tests = next (end_of next other else_at) in", "let tests = next (next (end_of next other else_at)) in"),
    Error("a `finally` part above its slot", "(needed_if (is_needed b)) (suc d) last", "(needed_if (is_needed b)) d last"),
]


if __name__ == "__main__":
    counted = "blocks", "parts", "lines", "acts"
    sys.exit(deep.call(lambda: over_scripts.main(script_checked, counted, WRONG, 100, "law_parts.part_slots")))
