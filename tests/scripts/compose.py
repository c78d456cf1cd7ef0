def compose(f, g):
    return lambda x: f(g(x))

def repeated(times):
    def decorate(f):
        def again(x):
            done = 0
            while done < times:
                x = f(x)
                done += 1
            return x
        return again
    return decorate

@repeated(3)
def double(x):
    return x * 2

increment = lambda x, by=1: x + by
print(compose(double, increment)(4))
print(compose(increment, double)(4))
print(compose(increment, increment)(0))
