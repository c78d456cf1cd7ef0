"""A text of the module."""
def f():
    """A text of the function."""
    x = 1
    """A text of nobody."""
    return x
print(f())
def g():
    "This is all."
print(g())
