def told(text, value):
    print(text)
    return value

print(told("a", 0) and told("b", 1))
print(told("c", 2) or told("d", 3))
print(not told("e", "") or told("f", None))
print(told("g", 1) if told("h", 0) else told("i", 2))
