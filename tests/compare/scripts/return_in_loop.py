def find(limit):
    i = 0
    while True:
        j = 0
        while j < i:
            if i * j > limit:
                return i * 100 + j
            j += 1
        i += 1

print(find(30))
print(find(0))
