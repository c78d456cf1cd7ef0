#!/usr/bin/env python3
"""With what all lists of kinds begin that a place gets, by one list for each vertex of a graph, beside the lists of the plain checker.

    beginnings.py [SEED [BLOCKS]]

The graph has a vertex for each place and for each stretch of places. A place leads to its stretch with the slots that lie below those
that its instruction takes, and a handler row is an edge from the few stretches that are together what it covers. A Swap puts the lower of
two slots on top and a value below, whatever kinds it finds.
"""
import random
import sys
import random_code
from checker import ASIDE, DELEGATE, EXPRESSION, P, SWAP, V, X, Block, read

ALL = 1 << 64


def common(one, other):
    count = 0
    while count < min(len(one), len(other)) and one[count] == other[count]:
        count += 1
    return one[:count]


def all_common(lists):
    lists = list(lists)
    beginning = lists[0]
    for ks in lists:
        beginning = common(beginning, ks)
    return beginning


def led(edge, ks):
    _, keeps, given, raises = edge
    if len(ks) < keeps:
        return ks
    return ks[:keeps] + given + (ks[keeps:keeps + 1] if raises else "")


def levels(count):
    """The first vertex of each level of stretches, which come behind the places, and how many it has."""
    found, first = [], count
    while True:
        found.append((first, count))
        first += count
        if count <= 1:
            return found
        count = (count + 1) // 2


def covering(b, row):
    """The stretches that are together what a row covers."""
    low, high, found = row[0], min(row[1], b.size + 1), []
    for first, _ in levels(b.size + 1):
        if low < high and low % 2:
            found.append(first + low)
        if low < high and high % 2:
            found.append(first + high - 1)
        low, high = (low + 1) // 2, high // 2
    return found


def graph(b, p, sizes):
    """The edges from each vertex, of the instructions at p and below whose places have a size."""
    edges = {}

    def add(vertex, to, keeps, given, raises=False):
        edges.setdefault(vertex, []).append((to, keeps, given, raises))
    stretches = levels(b.size + 1)
    for q, size in sizes.items():
        if q > p or q not in b.at:
            continue
        op, args, end = b.at[q][:3]
        takes, deep, gives = b.effect(op, args)
        left = max(size - len(takes), 0)
        if len(takes) + deep <= size:
            if gives is not None:
                add(q, end, left, V if op == SWAP else gives, op == SWAP)
            if op in ASIDE:
                add(q, args[0], left, ASIDE[op])
            if op == DELEGATE:
                add(q, q, size, "")
        add(q, stretches[0][0] + q, left, "")
    for (first, count), (above, _) in zip(stretches, stretches[1:]):
        for n in range(count):
            add(first + n, above + n // 2, ALL, "")
    for row in b.b["handlers"]:
        for vertex in covering(b, row):
            add(vertex, row[2], row[3], P if row[4] else X)
    return edges


def flow(edges, first, rng):
    """Of each vertex the longest list with which all begin that come there, in any order."""
    table, work = {}, [(0, first)]
    while work:
        vertex, ks = work.pop(rng.randrange(len(work)))
        if vertex in table:
            if ks.startswith(table[vertex]):
                continue
            ks = common(table[vertex], ks)
        table[vertex] = ks
        work.extend((edge[0], led(edge, ks)) for edge in edges.get(vertex, ()))
    return table


def compare(b, p, rng, counts):
    """Whether sizes agree up to p; then what the flow tells has to be what the lists have."""
    gets = b.gets(p)
    if gets is None:
        return False
    lists = {}
    for q, ks in gets:
        lists.setdefault(q, set()).add(ks)
    sizes = {q: len(next(iter(kss))) for q, kss in lists.items()}
    under = [[q for q in sizes if q <= p and row[0] <= q < row[1]] for row in b.b["handlers"]]
    if any(row[3] > b.spared(q, V * sizes[q]) for row, places in zip(b.b["handlers"], under) for q in places):
        return False
    table = flow(graph(b, p, sizes), "I" if b.b["kind"] == EXPRESSION else "", rng)
    for q in b.at:
        assert table.get(q) == (all_common(lists[q]) if q in lists else None), (p, q)
    counts["several lists" if any(len(kss) > 1 for kss in lists.values()) else "one list each"] += 1
    for row, places in zip(b.b["handlers"], under):
        differ = len({ks[:row[3]] for q in places for ks in lists[q]}) > 1
        told = [table[vertex] for vertex in covering(b, row) if vertex in table]
        assert differ == (told != [] and len(all_common(told)) < row[3]), (p, row)
        counts["cuts that differ"] += differ
    return all(b.has_enough(q, V * size) for q, size in sizes.items() if q <= p)


def main():
    rng = random.Random(int(sys.argv[1]) if len(sys.argv) > 1 else 1)
    counts = {"one list each": 0, "several lists": 0, "cuts that differ": 0}
    for _ in range(int(sys.argv[2]) if len(sys.argv) > 2 else 2000):
        code = read(random_code.random_block(rng))
        b = Block(code, code["blocks"][1])
        if any(row[2] not in b.at for row in b.b["handlers"]):
            continue
        for p in sorted(b.at):
            if not compare(b, p, rng, counts):
                break
    print(", ".join("%s: %d" % item for item in counts.items()))
    assert counts["one list each"] and counts["several lists"]


if __name__ == "__main__":
    main()
