def pairs(xs):
    found = {
        (x, y)
        for x in xs
        for y in [x] if y
    }
    return len(found)


print(pairs([1, "a", ()]))
print(pairs([1, [2], 3]))
