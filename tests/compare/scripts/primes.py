n = 2
found = 0
while found < 12:
    d = 2
    while d * d <= n:
        if n % d == 0:
            break
        d += 1
    else:
        print(n)
        found += 1
    n += 1
