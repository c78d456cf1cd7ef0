n = 1
n = n + n
n = n + n
n = n + n
n = n + n
print(n)
