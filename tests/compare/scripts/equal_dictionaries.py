a = {1: "x", "k": [1, {2: ()}]}
b = {"k": [True, {2: ()}], 1: "x"}
for other in [b, {1: "x"}, {1: "x", "k": [1, {2: (0,)}]}, {1: "x", "l": [1, {2: ()}]}, {1: "x", "k": 0, 3: 0}, {}, [], None]:
    print(a == other, a != other, other == a, other != a)
print({} == {}, {1: 2} == {True: 2}, {None: 1} == {None: 1, 0: 1}, [a] == [b], (a, 1) != (b, 1), a in [{}, b], [b].index(a))
held = {}
held[0] = held
kept = {}
kept[0] = kept
print(held == held)
try:
    print(held == kept)
except RecursionError:
    print("too deep")
