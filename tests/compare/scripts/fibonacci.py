def fib(n):
    return n if n < 2 else fib(n - 1) + fib(n - 2)

i = 0
while i < 15:
    print(fib(i))
    i += 1
