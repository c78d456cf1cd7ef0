rent = 850
food = 320 ; travel = 95
fun = 60

# everything but the rent
other = food + travel + fun
total = rent + other

print("other:")
print(other)
print("total:")
print(total)
