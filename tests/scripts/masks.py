read = 0b001
write = 0b010
run = 0b100
everything = read + write + run
print(everything)
print(0o17 + 0O1)
