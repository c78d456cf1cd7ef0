"""The walk of `law_pieces.piece_kinds` over the pieces of random scripts, beside the plain checker of code and runs on slots: the same kinds at each
place, one origin for each slot that two places have in common, and what `finally` parts and exits may hold.

  kinds.py [--crates FOLDER] [--from N] [--many N] [--runs N] [--errors]
"""
import random
import sys

import errors
import over_scripts
from check import PLANS, text_of
from follow import Differs, Pair
from machines import NONE, Script, items, listed

import deep  # noqa: I001

TEXT = {"Value": "V", "Cell": "C", "Iter": "I", "Exc": "X", "Pending": "P", "With": "W"}


def Error(name, old, new):
    return errors.Error(name, "Walk", old, new)


class Walk:
    """The slots at each place of a block, the lowest first: a kind and the place where the slot was made."""

    def __init__(self, specs, script, b):
        d = specs.pieces
        specs.flows.clear()
        checked = b.checked
        links = d.get("sem_fits", "fits.Block", "links_of")(script.code)
        after = {pc: i[2] for pc, i in checked.at.items()}
        def next_of(pc):
            return after[pc]
        start = ("Some", listed([{"kind": ("Iter",), "origin": NONE, "loop": NONE}] if b.kind == 4 else []))
        base, outermost = listed([]), {"labels": (), "loop": NONE}
        slots_at = d.get("law_pieces", "piece_kinds.Walk", "slots_at")
        self.slots = {}
        for pc in checked.at:
            found = slots_at(links, next_of, b.piece, outermost, base, 0, start, pc)
            self.slots[pc] = None if found == NONE else [self.known(k) for k in reversed(items(found[1]))]
        end = d.get("law_pieces", "piece_kinds.Walk", "behind")(links, next_of, b.piece, outermost, base, 0, start)
        if end != NONE:
            raise Differs("a block that goes on behind its end")

    @staticmethod
    def known(k):
        """The kind, the origin, and the loop whose exits it may hold: their places, and how many slots lie below its body."""
        x = None if k["loop"] == NONE else tuple(k["loop"][1][f] for f in ("break_to", "continue_to", "depth"))
        return TEXT[k["kind"][0]], k["origin"][1] if k["origin"] != NONE else None, x


def check(specs, script, b):
    w = Walk(specs, script, b)
    c = b.checked
    gets = dict(c.gets(c.size))
    for pc, ks in w.slots.items():
        have = None if ks is None else "".join(k[0] for k in ks)
        if have != gets.get(pc):
            raise Differs(f"at {pc} the walk has {have}, code {gets.get(pc)}")
    departs, goes, holds = c.leaves(c.size, c.gets(c.size))
    # in common: joined by steps that keep the slot
    joined = {}

    def root(x):
        while joined.get(x, x) != x:
            x = joined[x]
        return x
    for q, r, k in goes:
        for d in range(k):
            joined[root((d, q))] = root((d, r))
        if w.slots[q][:k] != w.slots[r][:k]:
            raise Differs(f"from {q} to {r} {k} slots are kept: {w.slots[q]} and {w.slots[r]}")
        for _, o, _ in w.slots[r][k:]:
            if o not in (None, r):
                raise Differs(f"from {q} to {r} a slot of {o} is made")
    groups = {}
    tracked = 0
    for q, ks in w.slots.items():
        for d, (k, o, _) in enumerate(ks or []):
            if (k in "VC") != (o is None) and not (q == 0 or b.kind == 4 and d == 0):
                raise Differs(f"at {q} slot {d} is {k} of {o}")
            if o is not None:
                tracked += 1
                if groups.setdefault((d, o), root((d, q))) != root((d, q)):
                    raise Differs(f"slot {d} of {o} isn't in common at {q}")
    if len(set(groups.values())) != len(groups):
        raise Differs("slots in common of two origins")
    for t, q, d in holds:
        k, o, x = w.slots[q][d]
        if k != "P" or x is None or t not in x[:2] or w.slots[t] is None or w.slots[q][:d][:len(w.slots[t])] != w.slots[t]:
            raise Differs(f"slot {d} at {q} may hold a jump to {t}: {w.slots[q][d]}")
        if not len(w.slots[t]) <= x[2] <= d:
            raise Differs(f"slot {d} at {q} may hold a jump to {t} with {len(w.slots[t])} slots, out of a loop above {x[2]}")
    return len(w.slots), tracked, w


class Run(Pair):
    """A run in which the slots have the kinds of the walk."""
    walk = None

    def turn_of_code(self, s):
        if s[0] == "on":
            want = "".join(k[0] for k in self.walk.slots[s[1]] or [])
            names = {"value": "V", "cell": "C", "iterator": "I", "exception": "X", "pending": "P", "exit": "W"}
            have = "".join(names[x[0]] for x in reversed(items(s[2])))
            if self.walk.slots[s[1]] is None or want != have:
                raise Differs(f"at {s[1]} the run has {have}, the walk {want}")
        return super().turn_of_code(s)


def script_checked(specs, seed, runs, totals):
    script = Script(specs, text_of(seed))
    for n, b in enumerate(script.blocks):
        pair = Run(specs, script, b, random.Random(f"{seed} {n}"), 0, 0)
        places, tracked, walk = check(specs, script, b)
        totals["blocks"] += 1
        totals["places"] += places
        totals["slots of parts"] += tracked
        for k in range(runs):
            pair = Run(specs, script, b, random.Random(f"{seed} {n} {k}"), *PLANS[k % len(PLANS)])
            pair.walk = walk
            pair.run()
            totals["runs"] += 1
            totals["acts"] += pair.acts


WRONG = [
    Error("an instruction that keeps a slot more", "given n p x ts g = reverse (take (min n (length g))", "given n p x ts g = reverse (take (min (n + 1) (length g))"),
    Error("slots that are made at the instruction itself", "flow (act op n l g) c base p s = record { behind = behind_op links op (next p)",
          "flow (act op n l g) c base p s = record { behind = behind_op links op p"),
    Error("a block whose labels nothing comes to", "behind = or_else f.behind (f.sent 0)", "behind = f.behind"),
    Error("a row that leaves all slots", "held k p x base (Some ks) = Some (made p x k ∷ base)", "held k p x base (Some ks) = Some (made p x k ∷ ks)"),
    Error("an exit that is one slot too low", "deepened k base (Some ks) = lowest (length base + k) ks", "deepened k base (Some ks) = base"),
    Error("an iterator that isn't swapped", "then kind.Value ∷ kind.Iter ∷ [] else g", "then g else g"),
    Error("labels that are counted from the outermost", "flow q (with_label p c) base p s in record { behind = f.behind; sent = λ k. f.sent (suc k) }",
          "flow q (with_label p c) base p s in record { behind = f.behind; sent = λ k. f.sent k }"),
    Error("a loop that has the exits of the loop around", "slots_at (looped b q) c base p s pc = slots_at q (with_loop b (end_of next q p) (length base) c)",
          "slots_at (looped b q) c base p s pc = slots_at q (with_none c)"),
    Error("a loop above nothing", "continue_to = e; depth = d })", "continue_to = e; depth = 0 })"),
    Error("an exit that is left for the end of its own block", "with_label p c = record c { labels = p ∷ c.labels }", "with_label p c = record c { labels = c.labels }"),
    Error("a completion that holds no exit", "origin = Some p; loop = x }", "origin = Some p; loop = None }"),
    Error("an exception that stays where it was made", "made p x k = record { kind = k; origin = Some p; loop = None }", "made p x k = some k"),
]


if __name__ == "__main__":
    counted = "blocks", "places", "slots of parts", "runs", "acts"
    sys.exit(deep.call(lambda: over_scripts.main(script_checked, counted, WRONG, 300, "law_pieces.piece_kinds")))
