xs = [3, 1]
for x in xs:
    if x > 1:
        xs += [x - 1, 1]
print(xs)
ys = xs
ys = ys + [0]
print(len(xs), len(ys), ys is xs)
zs = [xs] * 2
print(zs[0] is zs[1], zs == [xs, ys])
