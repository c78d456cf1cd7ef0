add = lambda a: lambda b: lambda c: a + b + c
print(add(1)(2)(3))
compose = lambda f, g: lambda x: f(g(x))
print(compose(add(1)(1), lambda x, y=3: x * y)(4))
