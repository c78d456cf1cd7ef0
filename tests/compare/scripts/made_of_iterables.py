def items(n):
    return [i * i for i in range(n)]


print(list(items(3)), tuple(items(3)), len(set(items(3) + items(2))), list("ab"), tuple({1: 2}))
d = dict(zip=1, key=items(1))
d.update({"a": 1})
d.update([("b", 2), ["c", 3]])
print(d, dict(d) == d, dict(d) is d)
xs = list(range(2))
xs.extend("yz")
xs.extend({5: 6})
xs.extend(xs)
print(xs, ", ".join([str(x) for x in xs]), "".join("pq"))
print(sum(items(4)), sum([[1], [2]], []), sum(items(4), start=10), any(items(1)), all(items(2)))
for wrong in (5, None, [1], ["abc"]):
    try:
        print(dict(wrong))
    except (TypeError, ValueError) as e:
        print(type(e))
d.update(3)
