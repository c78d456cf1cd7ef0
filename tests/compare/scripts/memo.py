known = {0: 0, 1: 1}
def fib(n):
    if n not in known:
        known[n] = fib(n - 1) + fib(n - 2)
    return known[n]
print(fib(60), len(known), known[10], f"{fib(90):x}")
def push(x):
    known["last", x] = f"{x}{known[x]}"
    return x
seen = {push(3), push(4), push(3)}
print(len(seen), known["last", 4], ("last", 5) in known)
