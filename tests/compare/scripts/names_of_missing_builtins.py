def power(pow, round=2):
    hash = pow
    while round > 1:
        hash = hash * pow
        round = round - 1
    return hash
id = 3
print(id, power(id), power(2, round=5))
def open(file, *, format="r"):
    return [file, format]
print(open("a"), open("b", format="w"))
for bin in range(2): print(bin)
print([hex for hex in (1, 2)], (lambda oct: oct + 1)(4))
try:
    raise ValueError("x")
except ValueError as vars:
    print(vars)
def counter():
    input = 0
    def up():
        nonlocal input
        input += 1
        return input
    return up
eval = counter()
print(eval(), eval())
def late(): return dir
dir = "bound later"
print(late())
del id, open
id = "again"
print(id)
