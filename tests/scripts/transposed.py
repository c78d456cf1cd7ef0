# Rows to columns, and the product of two matrices.
def transposed(rows):
    columns = []
    for i in range(len(rows[0])):
        column = []
        for row in rows:
            column += [row[i]]
        columns += [column]
    return columns

def product(a, b):
    made = []
    for row in a:
        line = []
        for column in transposed(b):
            total = 0
            for i in range(len(row)):
                total += row[i] * column[i]
            line += [total]
        made += [line]
    return made

m = [[1, 2, 3], [4, 5, 6]]
print(transposed(m))
print(product(m, transposed(m)))
print(transposed(transposed(m)) == m, transposed(m) == m)
