def f(**options):
    return options


d = {"a": 1, 2: 3}
print("before")
print(f(
    b=1,
    **d))
