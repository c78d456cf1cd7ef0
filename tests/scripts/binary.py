def binary(n):
    if n < 0:
        return "-" + binary(-n)
    digit = "1" if n & 1 else "0"
    return digit if n < 2 else binary(n >> 1) + digit

print(binary(0))
print(binary(37))
print(binary(-1024))
