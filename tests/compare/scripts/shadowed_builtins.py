list = tuple = set = dict = len = bool = None


def sorted_of(x):
    return "mine"


_sort = sorted_of
print(sorted("hello", reverse=True), sorted_of(1), _sort(2))
print("-".join("abc"), sum([1, 2]), any(()), all("x"))
del list, dict
print(list("ab"), dict(a=1), dict([(1, 2)], b=3))


def sum(xs):
    for x in xs:
        return x


print(sum([7, 8]))
del sum
print(sum([7, 8]), max([3, 1]), min(4, 2))
