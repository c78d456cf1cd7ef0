def product(a, b):
    rows = []
    for row in a:
        made = [0] * len(b[0])
        for i in range(len(b[0])):
            for k in range(len(b)):
                made[i] += row[k] * b[k][i]
        rows += [made]
    return rows
m = [[1, 2], [3, 4]]
m[0][1], m[1][0] = m[1][0], m[0][1]
print(m, product(m, [[0, 1], [1, 0]]))
power = [[1, 1], [1, 0]]
for n in range(5):
    power = product(power, power)
    print(f"{n}: {power[0][0]:>20}")
