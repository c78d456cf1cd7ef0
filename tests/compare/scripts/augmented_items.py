def told(name, value):
    print(name, end=" ")
    return value
x = [1, [2], "a"]
d = {"n": 0, "l": [1]}
x[0] += 5
x[1] += [3]
x[2] += "b"
x[2] *= 2
x[-3] <<= 2
print(x)
told("list", x)[told("index", 0)] -= told("value", 4)
inner = x[1]
x[1] += (4,)
d["n"] += 1
d["l"] *= 2
d["l"][0] -= 7
print(x, inner is x[1], d)
i = 0
while i < 3:
    d["n"] |= 1 << i
    x[1][i] **= 2
    i += 1
print(d, x)
d["none"] += 1
