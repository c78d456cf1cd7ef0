x = 3; y = 4
if x: print(x); print(y)
while y > 2: y -= 1
def f(n): return n if n else 0
print(f(y)); print(f(0))
