a, b = 1, 2
a, b = b, a
print(a, b)
[c, (d, e)], f = ("x", (3, 4)), [5]
print(c, d, e, f)
def swap(pair):
    x, y = pair
    return y, x
print(swap((1, 2)), swap([3, 4]), swap("ab"), swap(range(2)))
for n, (x, y) in [(1, (2, 3)), (4, "pq")]:
    print(n, x, y)
g = h, k = swap((6, 7))
print(g, h, k)
del g, (h, [k])
print(k)
