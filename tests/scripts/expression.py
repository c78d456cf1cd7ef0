# What trees of operators and numbers are worth, and how they are written.
def value(tree):
    if type(tree) is int:
        return tree
    sign, (left, right) = tree
    a, b = value(left), value(right)
    return a + b if sign == "+" else a * b

def written(tree):
    if type(tree) is int:
        return str(tree)
    sign, (left, right) = tree
    return "(" + written(left) + " " + sign + " " + written(right) + ")"

for tree in [7, ("+", (1, 2)), ("*", (("+", (1, 2)), ("+", (3, ("*", (4, 5))))))]:
    print(written(tree), "=", value(tree))
print(("+", [1, 2]))
