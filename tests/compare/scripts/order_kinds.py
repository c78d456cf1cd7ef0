print(1 < True)
print(False <= 0)
print(None < 1)
