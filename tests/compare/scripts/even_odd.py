def even(n):
    return n == 0 or odd(n - 1)
def odd(n):
    return n != 0 and even(n - 1)
print(even(20))
print(odd(20))
print(even(0) and not odd(0))
