def change(x, i, v):
    x[i] = v
    return x
print(change([1, 2], 0, 3), change({}, 0, 3))
print(change("ab", 0, "c"))
