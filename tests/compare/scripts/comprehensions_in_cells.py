def functions():
    late = [lambda: i for i in range(3)]
    now = [lambda i=i: i for i in range(3)]
    print([f() for f in late], [f() for f in now])
    return late


def counted(n):
    i = 10
    added = [lambda: i + n + j for j in range(3)]
    n = n + 100
    print([f() for f in added])
    nested = [[lambda: (i, j) for i in range(2)] for j in range(2)]
    print([f() for fs in nested for f in fs], i)

    def inner():
        nonlocal i
        i = i + 1
        return [i for k in range(2)], [lambda: j for j in "ab"][0](), {i: k for k in range(2)}

    return inner


print(functions()[0]())
f = counted(1)
print(f(), f())
