for a, b in [(1, 2), "x"]:
    print(a, b)
