"""Rows of code files that fit, and the slots of each place of their blocks, from the lowest: its kind, and the first place with which it is in common, as
the plain checker finds them."""
from checker import common
from common import MOST, rows_of

RANDOM = 3000


def told(b):
    """None where it doesn't fit, or has more slots than are to be written."""
    if b.refusal() is not None:
        return None
    gets = b.gets(b.size)
    goes = b.leaves(b.size, gets)[1]
    lists = dict(gets)
    if max(map(len, lists.values())) > MOST:
        return None
    words = []
    for q in sorted(lists):
        slots = ["%s%d," % (kind, min(common(goes, slot, q))) for slot, kind in enumerate(lists[q])]
        words.append("%d:%s " % (q, "".join(slots)))
    return "".join(words)


def rows():
    """Of code whose blocks fit."""
    return rows_of(told, 57, RANDOM)
