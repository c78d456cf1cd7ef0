def f(*items, **options):
    return items, options


def g(a, b, c=3, *, d=4):
    return a, b, c, d


xs = [1, 2, 3]
t = (4, 5)
d = {"d": 6, "c": 7}
print(f(*xs), f(*t), f(*[]), f(*()), f(**{}), f(**d))
print(f(0, *xs, 9, *t, 10), f(*xs, *t), f(*xs, k=1), f(k=1, *xs))
print(f(*xs, **d), f(1, *t, x=2, **d), f(**d, x=2), f(**d, **{"e": 8}), f(y=0, **d, z=1, **{"w": 2}))
print(g(*t), g(*xs), g(1, *t), g(*t, **d), g(1, b=2, **d), g(**{"a": 1, "b": 2}))
print(*xs)
print(*xs, sep=", ")
print(*t, **{"sep": "-", "end": ".\n"})
print(*[], 1, *(2,), sep="")
print(len(*[xs]), range(*t), str(*[12]), isinstance(*(1, int)), isinstance(*[1], *(str,)))
print("a,b,c".split(*[","]), "-".join(*[["a", "b"]]), {"k": 1}.get(*("k", 2)), {"k": 1}.get(*["j"], *[2]))
ys = [3, 1, 2]
ys.append(*[4])
ys.insert(*(0, 5))
print(ys, (lambda *a: a)(*ys), (lambda **k: k)(**d))


def change(values, entries):
    values.append(4)
    entries["z"] = 0
    return 5


values = [1, 2, 3]
entries = {"a": 1}
print(f(*values, change(values, entries), **entries))
print(values, entries)

items, options = f(*values, **entries)
values.append(6)
entries["a"] = 7
options["a"] = 8
print(items, options, values, entries)


def apply(function, *items, **options):
    return function(*items, **options)


print(apply(g, 1, 2), apply(g, 1, b=2, d=5), apply(apply, g, 1, *[2], c=6), apply(f), apply(print, 1, 2, sep="+"))
print(apply(lambda x, y=1: x - y, *[5]), apply(lambda *a, **k: (k, a), 1, *xs, **d))


def logged(function):
    def call(*items, **options):
        print("call", items, options)
        return function(*items, **options)
    return call


@logged
def total(*numbers, start=0):
    for n in numbers:
        start += n
    return start


print(total(1, 2, 3), total(*xs, start=10), total())


def curry(function, *first):
    return lambda *rest, **named: function(*first, *rest, **named)


print(curry(g, 1)(2), curry(g, 1, 2)(), curry(curry(g, 1), 2)(d=3))


def tried(function, *items, **options):
    try:
        return function(*items, **options)
    except TypeError as e:
        return "TypeError"


def spread(value):
    return f(**value)


print(tried(g), tried(g, 1), tried(g, 1, 2, 3, 4), tried(g, 1, 2, e=5), tried(g, 1, 2, a=5), tried(g, 1, 2, d=5))
print(tried(spread, {1: 2}), tried(spread, {"a": 1, (): 2}), tried(spread, [("a", 1)]), tried(spread, None), tried(spread, 3))
try:
    f(a=1, **{"a": 2})
except TypeError:
    print("twice")
try:
    g(1, *[2], **{"b": 3})
except TypeError:
    print("twice")
try:
    g(*xs, *t)
except TypeError:
    print("too many")

print([f(*[n] * n) for n in range(0)], [0][0])


def made():
    return [f(*[n] * n, **{"n": n}) for n in range(3)]


print(made())
print(str(*xs[:1]), repr(*["a"]), f(*xs[1:], **{"k" + "l": 1}))
print(f"{f(*xs)} {g(*t)!r}")
