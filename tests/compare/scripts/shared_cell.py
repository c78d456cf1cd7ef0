def account(balance):
    def deposit(n):
        nonlocal balance
        balance = balance + n
    def read():
        return balance
    def call(name, n=0):
        return deposit(n) if name == "deposit" else read()
    return call
one = account(10)
other = account(20)
one("deposit", n=5)
other("deposit", 7)
print(one("read"))
print(other("read"))
