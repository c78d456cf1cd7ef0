# Transfers between accounts that are rolled back where one fails.
class TooLittle(Exception):
    pass

class Transaction:
    def __init__(self, accounts):
        self.accounts = accounts

    def __enter__(self):
        self.before = dict(self.accounts)
        return self.accounts

    def __exit__(self, kind, value, trace):
        if kind is None:
            print("done")
            return False
        self.accounts.clear()
        self.accounts.update(self.before)
        print("rolled back:", value)
        return issubclass(kind, TooLittle)

class Indented:
    depth = 0

    def __enter__(self):
        Indented.depth += 1
        return "  " * Indented.depth

    def __exit__(self, *told):
        Indented.depth -= 1

def transfer(accounts, source, target, amount):
    with Transaction(accounts) as a:
        a[target] += amount
        a[source] -= amount
        if a[source] < 0:
            raise TooLittle(source + " has " + str(a[source] + amount))
        return True
    return False

accounts = {"ann": 50, "bob": 10}
print(transfer(accounts, "ann", "bob", 30), accounts)
print(transfer(accounts, "ann", "bob", 200), accounts)
try:
    transfer(accounts, "ann", "cid", 5)
except KeyError as e:
    print("no", e, accounts)

for name in sorted(accounts):
    with Indented() as one:
        print(one + name)
        with Indented() as two, Indented() as three:
            if accounts[name] < 30:
                print(three + "little")
                continue
            print(two + "enough")
print(Indented.depth)
