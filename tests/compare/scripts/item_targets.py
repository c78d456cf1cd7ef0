def told(name, value):
    print(name, end=" ")
    return value
x = [0, 1, 2, [3, [4]], {"k": 5}]
x[0] = "first"
x[-1]["k"] = x[3][1][0] = 6
x[3][0], x[1] = x[1], x[3][0]
print(x)
told("list", x)[told("index", 1)] = told("value", 7)
told("a", x)[told("i", 0)] = told("b", x)[told("j", 2)] = told("v", 8)
print(x)
told("c", x)[told("k", 0)], [told("d", x)[told("l", 1)], y] = told("w", (1, [2, 3]))
print(x, y)
for x[0] in range(2):
    print(x[0], end=";")
for i, x[i] in [(0, "p"), (1, "q")]:
    print(i, x[:2])
(x[2]) = 9
x[2 * 1]: int = 10
x[True] = 11
d = {}
d[1], d[2], d["x", "y"] = "abc"
print(x, d)
