def same(x, y):
    return x is y
print(same(None, None))
print(same(True, True))
print(same(..., ...))
print(same(same, same))
print(same is not None)
f = lambda: same
print(f() is same)
