def main(words):
    print(__name__, len(words))
    return __name__ == "__main__"
def named(__name__="inner"):
    return __name__, (lambda: __name__)()
if __name__ == "__main__":
    print(main(["a", "b"]), __name__ is __name__, f"{__name__:>10}|{__name__!r}")
else:
    print("imported")
print(named(), named("given"), [__name__ for __name__ in (1, 2)], __name__)
names = {__name__: 1}
print(names["__main__"], "__main__" in names, __name__[2:-2])
__name__ = "mine"
print(__name__, named())
main([])
