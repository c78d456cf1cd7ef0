moves = 0

def move(height, source, target, spare):
    global moves
    if height == 0:
        return
    move(height - 1, source, spare, target)
    moves += 1
    if height == 3:
        print(source + " to " + target)
    move(height - 1, spare, target, source)

move(5, "left", "right", "middle")
print(moves)
