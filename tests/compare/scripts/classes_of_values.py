def told(f):
    try:
        return f()
    except TypeError:
        return "TypeError"


values = [None, True, 7, "a", [1], (1,), {1}, {1: 2}, range(3), print, told, ValueError("a"), int, KeyError]
classes = [object, bool, int, str, list, tuple, set, dict, range, type, Exception, LookupError, ValueError]
for value in values:
    found = []
    for each in classes:
        if isinstance(value, each):
            found.append(each is type(value))
    print(len(found), found, isinstance(value, (int, str)), isinstance(value, ()))
for a in classes:
    for b in [object, int, Exception, (list, LookupError)]:
        print(issubclass(a, b), end=" ")
    print(issubclass(a, a))
print(told(lambda: isinstance(1, 1)), told(lambda: isinstance(1, (str, "a"))), told(lambda: issubclass(1, int)))
print(told(lambda: issubclass(1, 2)), told(lambda: isinstance([], None)), told(lambda: issubclass(int, [int])))
