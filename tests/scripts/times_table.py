# A table of products, each in as much room as the longest.
def padded(value, width):
    text = str(value)
    return " " * (width - len(text)) + text

size = 6
for row in range(1, size + 1):
    for column in range(1, size + 1):
        print(padded(row * column, 3), end="")
    print()
