def f(a,
      b=2,
      *,
      c=3):
    return (a
            + b
            - c)
print(f(
    1,
    c=
    10))
x = (1 if f(1) else
     2)
print(
    x)
