def divided(xs):
    return {x: [
        12 // y
        for y in range(x, x - 2, -1)
    ] for x in xs}


print(divided([4, 2]))
print(divided([4, 1]))
