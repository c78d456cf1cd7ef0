class A:
    x = 1
    def f(self):
        self.__x = __y
        return super().f()
@A
class B(A):
    y = [x for x in z]
    def g(self):
        return lambda: __class__
