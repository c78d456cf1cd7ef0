class C:
    def f(self):
        return f"{self.x:>4}"
print(C().f())
