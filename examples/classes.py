class Account:
    opened = 0

    def __init__(self, owner, balance=0):
        Account.opened += 1
        self.owner, self.balance = owner, balance

    def deposit(self, amount):
        self.balance += amount
        return self.balance

class Credit(Account):
    def deposit(self, amount):
        return super().deposit(amount + 1)

for account in (Account("ada", 5), Credit("bob")):
    print(account.owner, account.deposit(10), type(account).__name__)
print(Account.opened, issubclass(Credit, Account))
