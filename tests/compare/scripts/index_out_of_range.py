xs = [1, 2]
i = 0
while True:
    print(xs[i], xs[-i])
    i += 1
