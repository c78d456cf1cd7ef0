def f(a, b=c, *d, e, g=h, **i):
    "what it does"
    return a
@f
@g(h)
def k():
    return
k = lambda a, b=c: a
