# Counting, with words for some numbers.
n = 1
while n <= 20:
    if n % 15 == 0:
        print("fizz buzz")
    elif n % 3 == 0:
        print("fizz")
    elif n % 5 == 0:
        print("buzz")
    else:
        print(n)
    n += 1
