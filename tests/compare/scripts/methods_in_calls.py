def apply(f, *, a, b):
    return f(a) if b is None else f(a, b)
text = "a b c"
print(apply(text.split, a=" ", b=None), apply(text.replace, a=" ", b="-"))
print(text.split()[1].join(["x", "y"]), [text.find][0]("b"), (text.count)("a"))
d = {}
d.get
print(d.get is d.get, type(d.get) is type(print), callable(d.get))
n = 5
n.push
