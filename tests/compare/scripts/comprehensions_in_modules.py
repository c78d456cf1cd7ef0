i = "mine"
squares = [i * i for i in range(5) if i % 2 == 0]
print(squares, i)
print({i: [j for j in range(i)] for i in range(4) if i != 2}, {i % 3 for i in range(9)} == {0, 1, 2})
print([(a, b) for a, (b, *c) in [(1, (2, 3)), (4, (5,))]], [i + j for i in (1, 2) for j in (10, 20) if i * j > 10])
late = [lambda: i for i in range(3)]
print([f() for f in late])
early = [lambda i=i: i * k for i in range(3) for k in (1, 2)]
print([f() for f in early])
def outer(): return i
print(outer(), [outer() for i in (1,)], i)
for i in [i + 1 for i in range(2)]:
    print(i, [i for _ in (1, 2)], [[i for i in "ab"] for j in (1,)])
total = 0
if [x for x in (0, 1)]:
    total += [x * x for x in range(4)][-1]
print(total, f"{[x for x in 'ab']!s:>12}")
try:
    print([10 // x for x in (5, 0)])
except ZeroDivisionError:
    print("caught", [x for x in (1, 2)])
fs = [f() for f in [lambda: [k() for k in [lambda: i + j for j in (1, 2)]] for i in (10, 20)]]
print(fs)
def counted(xs=[n for n in range(3)]): return [n + 1 for n in xs]
print(counted(), (lambda ys=[m for m in "xy"]: ys)())
n = [n for n in [n for n in (1, 2)]]
print(n)
print([y for y in 5])
