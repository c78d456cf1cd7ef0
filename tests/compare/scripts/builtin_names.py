def len(x):
    return "mine"
print(len([1, 2]))
del len
print(len([1, 2]))
def f(str, int=3):
    range = str + int
    return range
print(f(1), str(2))
show = print
print = lambda x: show("shown:", x)
print(4)
del print
print(5)
def g():
    return max_len
max_len = len
print(g()("four"))
abs = None
abs(1)
