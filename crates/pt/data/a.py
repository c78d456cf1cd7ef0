x = 40
y = x + 2
print(y)
print("a" + "b")
