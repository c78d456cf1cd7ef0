print(1 << 5 >> 2)
print(-9 >> 1)
print(1 << (0 - 1))
