def power(base, exponent, modulus=None):
    result = 1
    while exponent:
        if exponent & 1:
            result = result * base if modulus is None else result * base % modulus
        base = base * base if modulus is None else base * base % modulus
        exponent >>= 1
    return result
print(power(3, 13))
print(power(7, 560, modulus=561))
