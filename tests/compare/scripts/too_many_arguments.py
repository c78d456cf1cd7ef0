def f(a, *, b=1):
    return a
print(f(1))
f(1, 2)
