def f(a):
    b = a
    def g():
        nonlocal b
        global c
        b = c = a
        return lambda: b
    return g
