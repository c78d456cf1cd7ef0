def f(xs):
    for x in xs:
        try:
            if x == 1: continue
            if x == 3: return x
            print(x)
        finally:
            print("left", x)

print(f([1, 2, 3, 4]))
try:
    missing
except NameError as error:
    raise LookupError(error, 1) from None
