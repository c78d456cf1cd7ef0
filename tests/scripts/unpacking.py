# What stands in a row is handed on to names.
a, b = 0, 1
fibonacci = [a]
for _ in range(10):
    a, b = b, a + b
    fibonacci += a,
print(fibonacci)
(x, [y, z]), w = ("one", "23"), range(3)
print(x, y, z, w)
for i, (name, (low, high)) in [(1, ("a", (0, 9))), (2, ["b", range(2)])]:
    print(i, name, high - low)
first = second, third = [4, 5]
print(first, second, third)
one, = "x"
print(one)
