print("one")
print("one" + 1)
print("never")
