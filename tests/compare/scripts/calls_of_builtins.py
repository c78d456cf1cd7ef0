print(len("four"), abs(-3), divmod(-7, 2), ord("a"), chr(955), int(True), int(), bool([0]), str(None))
def apply(f, x):
    return f(x)
for f in len, str, repr, bool:
    print(apply(f, "text"))
print(callable(apply), callable(1), callable(int))
apply(len, 5)
