def a(x):
    def b(y):
        def c(z):
            def d():
                nonlocal x
                x = x + y + z
                return lambda: x
            return d()
        return c
    return b
print(a(1)(2)(3)())
