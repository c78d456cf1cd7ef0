# The rows of Pascal's triangle, each made of the one before it.
def next_row(row):
    made = [1]
    for i in range(len(row) - 1):
        made += [row[i] + row[i + 1]]
    return made + [1]

row = [1]
for i in range(8):
    print(" " * (8 - i), end="")
    for n in row:
        print(n, end=" ")
    print()
    row = next_row(row)
print(row)
