a = b = c = 1
del a, b
print(c)
del c
def f():
    x = 1
    del x
    x = 2
    print(x)
    del (x)
    print(x)
f()
