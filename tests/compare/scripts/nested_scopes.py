x = 1
def a():
    x = 2
    def b():
        global x
        x = 3
        def c():
            nonlocal y
            y = y + x
            return y
        y = 10
        return c
    c = b()
    print(x)
    print(c())
    print(c())
a()
print(x)
