def later(xs):
    fs = [lambda: x + y for x in xs]
    print([len(x) for x in xs if x])
    print(fs[0]())
    y = 1


later(["a", "bc"])
