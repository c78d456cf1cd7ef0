def f(a, *items, **options):
    return a, items, options


d = {"b": 1, "a": 2}
print(f(1, b=2))
print(f(1, 2,
        **d))
