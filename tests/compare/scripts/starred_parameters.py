def rest(*items):
    return items


def behind(first, *items):
    return first, items


def named(**options):
    return options


def all_kinds(a, b=2, *items, c, d=4, **options):
    return a, b, items, c, d, options


print(rest(), rest(1), rest(1, 2, 3))
print(behind(1), behind(1, 2), behind(1, 2, 3))
print(named(), named(a=1), named(b=1, a=2))
print(all_kinds(1, c=3))
print(all_kinds(1, 5, 6, 7, c=8, d=9, e=10, f=11))
print(all_kinds(c=1, b=2, a=3, z=4, y=5))
print(all_kinds(1, 2, 3, c=(), d=[], e={}))

first = lambda *items: items[0]
count = lambda *items, **options: len(items) + len(options)
default = lambda a, *items, k=7, **options: (a, items, k, options)
print(first(3, 4), count(), count(1, 2), count(1, x=2, y=3))
print(default(1), default(1, 2, k=3), default(1, k=2, j=3))


def changes(*items, **options):
    items = list_of(items)
    items.append(0)
    options["new"] = items
    options["old"] = len(options)
    del options["new"]
    return items, options


def list_of(items):
    made = []
    for item in items:
        made.append(item)
    return made


print(changes(1, 2, x=3), changes())


def counter(*start, **step):
    def count():
        total = 0
        for n in start:
            total += n
        for name in step:
            total += step[name]
        return total
    def add(*more, **others):
        nonlocal start, step
        start = start + more
        step = others
        return count()
    return count, add


count, add = counter(1, 2, by=3)
print(count(), add(4), add(5, by=6, to=7), count())


def locals_behind(a, *items, b, **options):
    last = b
    for item in items:
        last = item
    found = options.get("found", a)
    return last, found


print(locals_behind(1, b=2), locals_behind(1, 3, 4, b=2, found=5))


def same(*items, **options):
    return items is items, options is options, items == (1, 2), options["a"] == 1


print(same(1, 2, a=1))
one = named(a=1)
other = named(a=1)
one["a"] = 2
print(one, other)


def recursive(n, *items):
    if n == 0:
        return items
    return recursive(n - 1, n, items)


print(recursive(4))


def unbound(*items):
    del items
    try:
        return items
    except NameError as e:
        return "unbound"


print(unbound(1))
