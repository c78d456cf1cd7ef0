# The whole part of a square root, by halves.
def root(n):
    low = 0
    high = n + 1
    while high - low > 1:
        middle = (low + high) // 2
        if middle * middle <= n:
            low = middle
        else:
            high = middle
    return low

print(root(0))
print(root(99))
print(root(10 ** 18 + 1))
