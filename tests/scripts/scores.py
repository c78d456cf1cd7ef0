home = 0
away = 0

home = home + 3   # a try
away = away + 1
home = home + 2   # and its conversion

print("home")
print(home)
print("away")
print(away)
