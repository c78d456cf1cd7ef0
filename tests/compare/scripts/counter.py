def make(start=0, *, step=1):
    count = start
    def next_count():
        nonlocal count
        count += step
        return count
    return next_count

a = make()
b = make(10, step=5)
print(a())
print(a())
print(b())
print(a() + b())
