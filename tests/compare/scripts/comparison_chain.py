def told(value):
    print(value)
    return value

print(told(1) < told(2) < told(2) < told(9))
print(told(3) >= told(3) > told(1))
print(1 < 2 == 2 != 3)
print(None is None is not True)
