x = [0, 1, 2, 3, 4, 5]
del x[0], x[-1]
print(x)
del (x[1], [x[0]])
print(x, len(x))
d = {"a": 1, "b": [1, 2], "c": {"d": 3}}
del d["a"], d["b"][0]
del d["c"]["d"]
print(d)
y = x
del x[True]
print(x, y is x, y)
del d["b"][0], d["b"], d["c"]
print(d, not d)
del x[1]
