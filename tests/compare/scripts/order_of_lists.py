def told(f):
    try:
        return f()
    except TypeError as error:
        return error
    except RecursionError as error:
        return "too deep"

lists = [[], [1], [1, 2], [1, 3], [1, 2, 0], [True, 2], ["a"], [[1], 2], [[1, 0]], [None], [(1, 2)]]
for a in lists:
    for b in lists:
        print(told(lambda: a < b), told(lambda: a <= b), told(lambda: a > b), told(lambda: a >= b))
print((1, "b", [2]) < (1, "b", [3]), (1,) > (), ("a", 1) <= ("a", 1), told(lambda: (1,) < [1]))
same = [None]
print(same <= same, same < same, [same, 1] < [same, 2])
held = []
held.append(held)
kept = []
kept.append(kept)
print(told(lambda: held < held), told(lambda: held < kept))
