# An account that keeps its balance to itself.
def account(balance, *, limit=0):
    def pay_in(amount):
        nonlocal balance
        balance += amount
        return balance

    def take_out(amount):
        nonlocal balance
        if balance - amount < -limit:
            print("declined")
        else:
            balance -= amount
        return balance

    return lambda amount: take_out(-amount) if amount < 0 else pay_in(amount)

mine = account(100)
yours = account(0, limit=50)
print(mine(25))
print(mine(-200))
print(yours(-30))
print(yours(-30))
print(mine(-125))
