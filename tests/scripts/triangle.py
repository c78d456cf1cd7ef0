row = 1
while row <= 4:
    line = ""
    column = 0
    while column < row:
        line += "*"
        column += 1
    print(line)
    row += 1
else:
    print("-----")
