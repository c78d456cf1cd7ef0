it = iter([1, 2, 3, 4])
for x in it:
    print(x, next(it, "none"))
print(next(it, "end"))
r = range(5, 0, -2)
print(len(r), r[1], r[-1], 3 in r, 4 in r, r)
both = iter(r)
print(next(both), next(both))
for x in both:
    print("left", x)
print(next(both, "end"))
