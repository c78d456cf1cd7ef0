"""Errors of a verifier, each of which must show on the rows of tests/fits and on random code files.

  errors.py [--many FILES]       tells for each error the first row and after how many files it shows
"""
import argparse
import sys
from fuzz import Files
import checker
import files
from files import WholeBlock
from refusals import rows


def changed(**methods):
    return type("Wrong", (WholeBlock,), methods)


def kinds_before_slots(self, p):
    bad = WholeBlock.disagrees(self, p)
    if bad != (23, p) or self.gets(p) is None:
        return bad
    return (24, p) if any(not self.finds(q, ks) for q, ks in self.gets(p) if q <= p) else bad


def last_row(self, p):
    bad = WholeBlock.disagrees(self, p)
    if bad is None or bad[0] != 26:
        return bad
    rows, failing = self.b["handlers"], 0
    for n, row in enumerate(rows):
        self.b["handlers"] = [row]
        alone = WholeBlock.disagrees(self, p)
        failing = n if alone and alone[0] == 26 else failing
    self.b["handlers"] = rows
    return 26, len(self.b["marks"]) + failing


def without_cuts(self, q, t):
    """A row that takes a Leave leaves all its slots."""
    row = WholeBlock.taker(self, q, t)
    return row and (*row[:3], checker.MOST, row[4])


def covering_taker(self, q, t):
    return next((row for row in self.at[q][4] if row[4]), None)


def outer_taker(self, q, t):
    taking = [row for row in self.at[q][4] if row[4] and not row[0] <= t < row[1]]
    return taking[-1] if taking else None


def leaves_that_are_not_held(self, p, gets):
    departs, goes, holds = WholeBlock.leaves(self, p, gets)
    held = {(t, q, ks) for t, q, ks in departs if self.at[q][0] == checker.END_FINALLY}
    return departs - held, {(q, r, k) for q, r, k in goes if self.at[q][0] != checker.END_FINALLY or r == self.at[q][2]}, holds


def without_again(self, pc, ks):
    return [step for step in WholeBlock.steps(self, pc, ks) if self.at[pc][0] != checker.DELEGATE or step[0] != pc]


def without_rows_of_jumps(self, pc, ks):
    """Handlers are led to by what may raise alone."""
    ways = WholeBlock.steps(self, pc, ks)
    if self.at[pc][0] in (0, 15, 16, 53, 72):
        return ways[:len(ways) - len(self.at[pc][4])]
    return ways


def stands(self, pc):
    op, args = self.at[pc][:2]
    if op == 46:
        return len(self.code["lists"][args[1]]) == args[0]
    return WholeBlock.may_stand(self, pc)


def stands_by_numbers(self, pc):
    op, args = self.at[pc][:2]
    may = WholeBlock.may_stand(self, pc)
    if op != 48 or not may:
        return may
    other = self.code["blocks"][args[0]]
    return set(self.code["lists"][args[2]]) <= set(other["locals"][:other["parameters"] + other["keyword_only"]])


def stands_anywhere(self, pc):
    return self.at[pc][0] in (11, 12, 13, 59, 60) or WholeBlock.may_stand(self, pc)


def reads_below(self, pc, ks):
    """A ListAdd may read any slot below."""
    op, args = self.at[pc][:2]
    takes, deep, _ = self.effect(op, args)
    if op not in (36, 37, 38):
        return WholeBlock.finds(self, pc, ks)
    return ks[max(len(ks) - len(takes), 0):] == takes and deep > 0


def no_lost_leaves(self):
    bad = WholeBlock.refusal(self)
    return None if bad and bad[0] == 25 and self.disagrees(self.size) is None else bad


def where_too_deep(otherwise):
    """Tells of a block that is too deep something else."""
    def refusal(self):
        bad = WholeBlock.refusal(self)
        return otherwise(self, bad) if bad == (28, None) else bad
    return changed(refusal=refusal)


def one_slot_more(self, bad):
    return bad if any(len(ks) > checker.MOST + 1 for _, ks in self.gets(self.size)) else None


def loops_first(self, bad):
    loop = self.silent_loop(self.leaves(self.size, self.gets(self.size))[1])
    return bad if loop is None else (27, loop)


def tables_last(self):
    hold, self.tables = self.tables(), lambda: []
    bad = WholeBlock.refusal(self)
    return (26, hold.index(False)) if bad is None and False in hold else bad


def marks_alone(self):
    hold = WholeBlock.tables(self)
    return [row or n >= len(self.b["marks"]) + len(self.b["handlers"]) for n, row in enumerate(hold)]


ERRORS = {
    "another kind before too few slots": changed(disagrees=kinds_before_slots),
    "the last handler row that fails": changed(disagrees=last_row),
    "a row leaves a Leave all its slots": changed(taker=without_cuts),
    "a row that covers the target takes the Leave": changed(taker=covering_taker),
    "the outermost row takes a Leave": changed(taker=outer_taker),
    "Leaves that are held don't go on": changed(leaves=leaves_that_are_not_held),
    "a delegation has no step to itself": changed(steps=without_again),
    "rows over what can't raise lead nowhere": changed(steps=without_rows_of_jumps),
    "as many names as arguments": changed(may_stand=stands),
    "names by their numbers": changed(may_stand=stands_by_numbers),
    "names and yields in any block": changed(may_stand=stands_anywhere),
    "any slot is added to": changed(finds=reads_below),
    "two slots swapped must be values": changed(swaps_iterator=lambda self, op, taken: False),
    "a generator expression starts without an iterator": changed(kinds_at_start=lambda self: files.Runs(())),
    "Leaves that are lost": changed(refusal=no_lost_leaves),
    "one slot more": where_too_deep(one_slot_more),
    "loops before the depth": where_too_deep(loops_first),
    "tables last": changed(refusal=tables_last),
    "starts that aren't tried": changed(tables=marks_alone),
}


def shows(wrong, data, code, answer):
    """Whether a verifier with the error answers otherwise."""
    for n, b in enumerate(code["blocks"]):
        bad = wrong(code, b).refusal()
        if bad:
            return (bad[0], n, bad[1]) != answer
    return answer is not None


def main():
    options = argparse.ArgumentParser()
    options.add_argument("--many", type=int, default=20000)
    given = options.parse_args()
    source = Files([])
    written = [(name, bytes.fromhex(digits)) for name, digits, _ in rows()]
    found = {error: [None, None] for error in ERRORS}

    def tried(column, name, data):
        answer = files.answer(data)
        if answer and answer[1] is None:
            return
        code = checker.read(data)
        for error, wrong in ERRORS.items():
            if found[error][column] is None and shows(wrong, data, code, answer):
                found[error][column] = name
    for name, data in written:
        tried(0, name, data)
    for seed in range(given.many):
        if all(seen for _, seen in found.values()):
            break
        tried(1, str(seed + 1), source.file(seed)[1])
    for error, (row, seed) in found.items():
        print(f"{error:50} {row or 'NO ROW':60} {seed or 'NO FILE'}")
    return any(None in each for each in found.values())


if __name__ == "__main__":
    sys.exit(main())
