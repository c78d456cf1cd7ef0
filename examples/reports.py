def steps(n):
    if n == 0:
        return 0
    if n < 0:
        return None
    return steps(n - 1) + 1

for n in range(3):
    print(steps(n))
