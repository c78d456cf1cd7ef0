xs = [3, 1, 2]
xs.append(4)
xs.insert(0, 5)
xs.insert(-1, 6)
print(xs, xs.pop(), xs.pop(0), xs.pop(-2), xs)
xs.reverse()
ys = xs.copy()
ys.extend((7, 8))
ys.extend([9])
print(xs, ys, ys is xs, xs.index(1), ys.count(7))
ys.remove(8)
add = ys.append
for n in range(3):
    add(n)
print(ys, (1, 2, 1).count(1), (1, 2).index(2))
ys.clear()
print(ys)
def take(items):
    while items:
        print(items.pop(), end=";")
    return items.pop()
take(xs)
