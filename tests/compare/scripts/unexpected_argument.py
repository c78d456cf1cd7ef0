f = lambda a: a
print(f(a=1))
f(1, b=2)
