value = "text"
value = 3
value = value + 4
print(value)
