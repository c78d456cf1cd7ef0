def digit_sum(n): return n if n < 10 else n % 10 + digit_sum(n // 10)

n = 2 ** 100
print(n)
print(digit_sum(n))
power = 0
while n > 1:
    n //= 2
    power += 1
print(power)
