def each(xs):
    for x in xs:
        print(x)
each([1])
each(1)
