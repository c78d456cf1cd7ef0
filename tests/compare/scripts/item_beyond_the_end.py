x = [1, 2]
x[-2] = 3
print(x)
x[2] = 4
