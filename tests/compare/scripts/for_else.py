def first_even(xs):
    for x in xs:
        if x % 2 == 0:
            break
    else:
        return None
    return x

print(first_even([1, 3, 4, 5]))
print(first_even((1, 3)))
print(first_even(range(0)))
for i in range(3):
    for j in range(3):
        if j == i:
            continue
        if j > i:
            break
        print(i, j)
    else:
        print(i, "to its end")
else:
    print("all")
