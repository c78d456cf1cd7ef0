def greatest_divisor(a, b):
    """The greatest number that divides both."""
    while b:
        old = b
        b = a % b
        a = old
    return a

print(greatest_divisor(1071, 462))
print(greatest_divisor(17, 5))
print(greatest_divisor(b=12, a=0))
