first = "co"
second = "py"
word = first + second + first
print(word + "!")
print("")
first = "caco"
print(first + second)
