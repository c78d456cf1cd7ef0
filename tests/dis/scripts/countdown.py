x = 2
while x:
    x -= 1
