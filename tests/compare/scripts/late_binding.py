def make():
    i = 0
    first = lambda: i
    kept = lambda i=i: i
    while i < 3:
        i += 1
    print(first())
    print(kept())
make()
