def gcd(a, b):
    while b:
        t = a % b
        a = b
        b = t
    return a

print(gcd(1071, 462))
print(gcd(-12, 18))
print(gcd(0, 5))
