def lists(n):
    squares = [i * i for i in range(n)]
    print(squares, [i for i in squares if i % 2 if i > 1])
    print([(i, j) for i in range(3) for j in range(i) if i + j])
    print([[i * j for j in range(3)] for i in range(3)])
    print([a + b for a, (b, c) in [(1, (2, 3)), (4, (5, 6))]], [0 for i in ()])


def sets_and_dictionaries(text):
    print({c: text[i:] for i, c in [(0, "a"), (1, "b"), (2, "a")]})
    print(len({c for c in text}), "b" in {c for c in text if c != "b"})
    print({i: {j: [k for k in range(j)] for j in range(i)} for i in range(3)})


def own_names(i):
    items = [i for i in range(i)]
    print(i, items, (lambda: [i for j in "ab"])())
    for i in [i + 1 for i in items]:
        items[0] = i
    return [items for items in items]


lists(6)
sets_and_dictionaries("abc")
print(own_names(3))
