"""What `pt exec` answers to whole code files: the plain reader of tests/code_files, and the plain checker of what is read."""
import os
import sys
from bisect import bisect_left
from checker import NAMES, Block, read, V

sys.path.append(os.path.join(os.path.dirname(os.path.abspath(__file__)), "..", "code_files"))
import reader  # noqa: E402

LIMIT = 16777216
DEPTH = 28
NAMES_OF_FILES = {reader.MAGIC: "Magic", reader.VERSION: "Version", reader.TRUNCATED: "Truncated", reader.FIELD: "Field", reader.TRAILING: "Trailing"}


class Runs:
    """Kinds as runs of one kind each, so that 2^32 slots take no more room than one; the checker asks it what it asks of a text."""

    def __init__(self, runs):
        joined = []
        for kind, count in runs:
            if joined and joined[-1][0] == kind:
                count += joined.pop()[1]
            if count:
                joined.append((kind, count))
        self.runs = tuple(joined)

    @classmethod
    def of(cls, kinds):
        return kinds if isinstance(kinds, cls) else cls((kind, 1) for kind in kinds)

    def __len__(self):
        return sum(count for _, count in self.runs)

    def __eq__(self, other):
        return self.runs == Runs.of(other).runs

    def __hash__(self):
        return hash(self.runs)

    def __add__(self, other):
        return Runs(self.runs + Runs.of(other).runs)

    def __radd__(self, other):
        return Runs.of(other) + self

    def __getitem__(self, at):
        low, high, _ = at.indices(len(self)) if isinstance(at, slice) else (at, at + 1, 1)
        found, start = [], 0
        for kind, count in self.runs:
            found.append((kind, max(min(high, start + count) - max(low, start), 0)))
            start += count
        found = Runs(found)
        return found if isinstance(at, slice) else found.runs[0][0]

    def startswith(self, other):
        return self[:len(other)] == other


class WholeBlock(Block):
    """A block with any number of slots. What fails up to a place fails up to each behind it, so the first place is found by halving."""

    def values(self, count):
        return Runs(((V, count),))

    def kinds_at_start(self):
        return Runs.of(super().kinds_at_start())

    def first_disagreement(self):
        places = sorted(self.at)
        if self.disagrees(places[-1]) is None:
            return None
        return self.disagrees(places[bisect_left(places, True, key=lambda p: self.disagrees(p) is not None)])


def answer(data):
    """None where the file is accepted, else the number of the refusal, the block, if it is one of a block, and the place."""
    try:
        reader.read(data)
    except reader.BadFile as e:
        number, place = e.args
        return number, None, place
    code = read(data)
    for n, b in enumerate(code["blocks"]):
        bad = WholeBlock(code, b).refusal()
        if bad:
            return bad[0], n, bad[1]
    return None


def logged(answer):
    """The number and the place as the log has them: of Depth the block."""
    number, block, place = answer
    return "%d at %d" % (number, block if number == DEPTH else place)


def told(answer):
    """The answer in words."""
    if answer is None:
        return "fits"
    number, block, place = answer
    if block is None:
        return "%d %s %d" % (number, NAMES_OF_FILES[number], place)
    return "%d %s block %d" % (number, NAMES[number], block) + ("" if place is None else " %s %d" % ("row" if number == 26 else "pc", place))
