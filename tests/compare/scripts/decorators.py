def logged(name):
    print(name)
    def decorate(f):
        def inner(x):
            print("call " + name)
            return f(x)
        return inner
    return decorate

@logged("outer")
@logged("inner")
def double(x):
    return x * 2

print(double(21))
