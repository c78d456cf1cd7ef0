def pairs(xs, ys):
    found = []
    for x in xs:
        for y in ys:
            if x != y:
                found += [(x, y)]
    return found

for a, b in pairs([1, 2], range(2, 4)):
    print(a, b, sep="-")
