a = 202
b = 173
print(a & b)
print(a | b)
print(a ^ b)
print(~a)
print(-a & 255)
a <<= 3
a |= 5
a ^= b
a >>= 1
a &= 1023
print(a)
