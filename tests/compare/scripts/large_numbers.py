x = 1
while x < 2 ** 120:
    x *= 7
    print(x)
print(x - 2 ** 127 + 1)
print(-x)
print(x ** 2)
