count = 0
def bump(by=1):
    global count, last
    count += by
    last = by
bump()
bump(by=5)
print(count)
print(last)
