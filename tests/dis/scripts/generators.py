x = (a for a in b)
y = list(a + c
         for a in b if a
         for c in a)
def f():
    yield
    z = yield a
    yield from b
    return z
