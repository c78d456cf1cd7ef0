def told(f):
    try:
        return f()
    except AttributeError as error:
        return error
    except TypeError:
        return "TypeError"


for value in [1, "a", [], (), {}, None, range(3), told, print]:
    print(hasattr(value, "append"), hasattr(value, "get"), hasattr(value, "join"), hasattr(value, "nothing"))
    print(getattr(value, "nothing", 5), told(lambda: getattr(value, "nothing")), told(lambda: hasattr(value, 3)), told(lambda: getattr(value, None, 1)))
    print(callable(value), type(value) is type(1))
