def ratio(a, b):
    return a // b * 10 + a % b
print(ratio(7, 2))
print(ratio(-7, 2))
print(ratio(7, -2))
print(ratio(7, 0))
