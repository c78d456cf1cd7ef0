def f():
    import nosuch as found
    return found


try:
    missing
except NameError:
    f()
