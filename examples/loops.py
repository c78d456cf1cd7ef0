# How many steps it takes from n to 1: half of what is even, three times what is odd and one.
n = 27
steps = 0
greatest = n
while n != 1:
    n = n // 2 if n % 2 == 0 else 3 * n + 1
    steps += 1
    if n > greatest:
        greatest = n
print(steps)
print(greatest)
