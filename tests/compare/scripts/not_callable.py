x = 3
def f():
    return x
print(f())
f()()
