# Sorting by halves, with no place of a list set anew.
def part(xs, start, stop):
    made = []
    for i in range(start, stop):
        made += [xs[i]]
    return made

def merged(xs, ys, key):
    i = j = 0
    made = []
    while i < len(xs) or j < len(ys):
        if j == len(ys) or i < len(xs) and key(xs[i]) <= key(ys[j]):
            made += [xs[i]]
            i += 1
        else:
            made += [ys[j]]
            j += 1
    return made

def in_order(xs, key=lambda x: x):
    if len(xs) < 2:
        return xs
    middle = len(xs) // 2
    return merged(in_order(part(xs, 0, middle), key), in_order(part(xs, middle, len(xs)), key), key)

print(in_order([31, 4, 15, 92, 65, 35, 89, 79]))
print(in_order(["pear", "fig", "apple", "date"]))
print(in_order(["pear", "fig", "apple", "date"], key=len))
print(in_order([(2, "b"), (1, "z"), (2, "a")], key=lambda pair: pair[1]))
print(in_order([]))
