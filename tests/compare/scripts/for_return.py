def find(rows, sought):
    for i, row in rows:
        for j, x in row:
            if x == sought:
                return i, j
    return "nowhere"

table = [(0, [(0, "a"), (1, "b")]), (1, [(0, "c"), (1, "d")])]
print(find(table, "c"))
print(find(table, "e"))
def last(xs):
    for x in xs: pass
    return x
print(last("abc"))
print(last(""))
