def f(a, b, *, c, d):
    print(a + b * 10 + c * 100 + d * 1000)

def told(value):
    print(value)
    return value

f(told(1), told(2), d=told(3), c=told(4))
f(b=told(5), c=told(6), d=told(7), a=told(8))
def g(a=told(9), *, b=told(10)):
    return a + b
print(g())
