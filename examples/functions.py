def counter(step=1):
    count = 0
    def more():
        nonlocal count
        count += step
        return count
    return more

by_ten = counter(step=10)
by_ten()
print(by_ten())
