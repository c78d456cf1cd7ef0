# accounts of a bank, their errors, and a book of what happened
class BankError(Exception):
    pass


class Overdrawn(BankError):
    def __init__(self, account, missing):
        self.account = account
        self.missing = missing


class Closed(BankError):
    pass


class Book:
    def __init__(self):
        self.lines = []

    def write(self, what, owner, amount):
        self.lines.append((len(self.lines) + 1, what, owner, amount))

    def of(self, owner):
        return [line for line in self.lines if line[2] == owner]


class Account:
    opened = 0

    def __init__(self, owner, book, balance=0):
        Account.opened += 1
        self.number = Account.opened
        self.owner = owner
        self.book = book
        self.balance = balance
        self.is_open = True

    def check(self):
        if not self.is_open:
            raise Closed(self.owner)

    def deposit(self, amount):
        self.check()
        if amount <= 0:
            raise ValueError(f"an amount of {amount}")
        self.balance += amount
        self.book.write("in", self.owner, amount)
        return self.balance

    def withdraw(self, amount):
        self.check()
        if amount > self.limit():
            raise Overdrawn(self, amount - self.limit())
        self.balance -= amount
        self.book.write("out", self.owner, amount)
        return self.balance

    def limit(self):
        return self.balance

    def close(self):
        self.check()
        self.is_open = False
        rest, self.balance = self.balance, 0
        return rest


class Credit(Account):
    def __init__(self, owner, book, credit, **more):
        super().__init__(owner, book, **more)
        self.credit = credit

    def limit(self):
        return super().limit() + self.credit


def transfer(a, b, amount):
    before = a.balance
    try:
        a.withdraw(amount)
        b.deposit(amount)
    except BankError as error:
        a.balance = before
        print("no transfer:", type(error).__name__, len(error.args))
        return False
    else:
        return True
    finally:
        print(a.owner, a.balance, b.owner, b.balance)


book = Book()
ada = Account("ada", book, 100)
bob = Credit("bob", book, 50, balance=20)
print(ada.number, bob.number, Account.opened, isinstance(bob, Account))
print(transfer(ada, bob, 30), transfer(ada, bob, 71), transfer(bob, ada, 100), transfer(bob, ada, 1))
for amount in (5, 0, -3):
    try:
        print(ada.deposit(amount))
    except ValueError as error:
        print("refused:", error)
print(ada.close(), bob.limit())
transfer(bob, ada, 0)
print(book.of("ada"))
print(sum([line[3] for line in book.lines if line[1] == "in"]), len(book.lines))
try:
    bob.withdraw(1000)
except Overdrawn as error:
    print(error.account is bob, error.missing, error.args[1:])
ada.withdraw(1)
