def f(xs):
    a, b = xs
    return a
print(f([1, 2]))
print(f((1, 2, 3)))
