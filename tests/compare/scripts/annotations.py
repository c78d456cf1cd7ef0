x: int = 3
y: str
def f(a: int, *, b: "text" = 2) -> None:
    c: missing = a + b
    d: missing
    return c
print(f(x))
print(y)
