def told(f):
    try:
        return f()
    except TypeError:
        return "TypeError"


some = (str, (list, (int,)), ())
for value in [1, True, "a", [], (), None, 1 == 1, ValueError("x")]:
    print(isinstance(value, some), isinstance(value, ((), (some,))), isinstance(value, (int, 5)) if value == 1 else told(lambda: isinstance(value, (int, 5))))
print(told(lambda: isinstance(1, (5, int))), told(lambda: isinstance(1, (str, [int]))), told(lambda: isinstance(1, ((str, 0), int))))
print(issubclass(bool, some), issubclass(KeyError, (some, (LookupError,))), told(lambda: issubclass(int, (str, (1,)))))
