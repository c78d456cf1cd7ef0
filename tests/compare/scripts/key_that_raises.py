def key(n):
    if n == 2:
        raise ValueError(n)
    return -n


def ordered(xs):
    try:
        return sorted(xs, key=key)
    finally:
        print("tried", xs)


print(ordered([1, 3]))
try:
    ordered([3, 2, 1])
except ValueError as e:
    print("caught", e)
for f in (min, max):
    try:
        print(f([1, 2], key=lambda n: n // (n - 1)))
    except ZeroDivisionError:
        print("divided")
xs = [2, 3]
xs.sort(key=lambda n: key(n) + 1)
