with a:
    b
with a as b, c as (d, e), f:
    with g as h.i: pass
def f():
    with a:
        with b as c:
            return c
