# stock of a shop: items, orders, and who is told of them
class Item:
    def __init__(self, name, price, many=0, *, tags=()):
        self.name, self.price, self.many = name, price, many
        self.tags = set(tags)

    def worth(self):
        return self.price * self.many


class Event:
    def __init__(self):
        self.listeners = []

    def listen(self, listener):
        self.listeners.append(listener)
        return listener

    def tell(self, *args, **names):
        return [listener(*args, **names) for listener in self.listeners]


class OutOfStock(LookupError):
    def __init__(self, item, wanted):
        self.name, self.wanted, self.many = item.name, wanted, item.many

    def told(self):
        return f"{self.wanted} of {self.many} {self.name}"


class Stock:
    def __init__(self):
        self.items = {}
        self.low = Event()
        self.sold = Event()

    def add(self, item):
        if item.name in self.items:
            self.items[item.name].many += item.many
        else:
            self.items[item.name] = item
        return self

    def take(self, name, many=1):
        item = self.items[name]
        if item.many < many:
            raise OutOfStock(item, many)
        item.many -= many
        self.sold.tell(item, many=many)
        if item.many < 3:
            self.low.tell(item)
        return item.price * many

    def tagged(self, tag):
        return sorted([name for name, item in self.items.items() if tag in item.tags])

    def worth(self):
        return sum([item.worth() for item in self.items.values()])


class Order:
    last = 0

    def __init__(self, stock, lines):
        Order.last += 1
        self.number, self.stock, self.lines = Order.last, stock, lines
        self.state = "new"

    def run(self):
        total, done = 0, []
        for name, many in self.lines:
            try:
                total += self.stock.take(name, many)
            except OutOfStock as error:
                print(f"order {self.number}: {error.told()}")
                self.state = "partly"
                continue
            except KeyError as error:
                print(f"order {self.number}: no {error}")
                self.state = "failed"
                break
            done.append(name)
        else:
            if self.state == "new":
                self.state = "done"
        return total, done


stock = Stock()
stock.add(Item("pen", 2, 10, tags=["office", "small"])).add(Item("desk", 150, 2, tags=["office"])).add(Item("ball", 5, 4, tags=["small"]))
stock.add(Item("pen", 2, 5))
report = []


@stock.low.listen
def warn(item):
    report.append("few of " + item.name)


stock.sold.listen(lambda item, many: report.append(f"{many} {item.name}"))
print(stock.worth(), stock.tagged("small"), stock.tagged("office"), stock.tagged("large"))
orders = [Order(stock, lines) for lines in ([("pen", 13), ("ball", 1)], [("desk", 3), ("ball", 3)], [("lamp", 1), ("pen", 1)], [])]
for order in orders:
    print(order.number, order.run(), order.state)
print(report)
print(stock.worth(), warn is stock.low.listeners[0], Order.last)
print({name: item.many for name, item in stock.items.items()})
try:
    stock.take("desk", 5)
except LookupError as error:
    print(error.told(), error.args[1])
stock.items["lamp"].take()
