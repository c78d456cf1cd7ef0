x = 1
def f(n):
    if n:
        x = 2
    return x
print(f(1))
print(f(0))
