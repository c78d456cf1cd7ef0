d = {1: 2, 3: 4}
for key in d:
    d[key] = key
print(d)
for key in d:
    d[key + 10] = key
print(d)
