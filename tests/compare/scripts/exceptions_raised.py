def check(n):
    if n < 0:
        raise ValueError("negative", n)
    if n == 0:
        raise KeyError("zero")
    return 100 // n

for n in (5, 0, -1):
    try:
        print(check(n))
    except KeyError as error:
        print("key", error, repr(error))
    except (ValueError, TypeError) as error:
        print("value", error, [error])
    else:
        print("fine")
    finally:
        print("done", n)
