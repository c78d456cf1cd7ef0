fs = []
for i in range(3):
    fs += [lambda: i]
    def g(i=i):
        return i
    fs += [g]
for f in fs:
    print(f(), end=" ")
print(i)
def outer():
    for k in range(2):
        def inner():
            nonlocal k
            k += 10
            return k
        print(inner(), k)
    return k
print(outer())
