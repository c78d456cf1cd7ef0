# a machine of a stack with its own language
class Fault(Exception):
    def __init__(self, place, why):
        self.place = place
        self.why = why


class Stack:
    def __init__(self, limit):
        self.limit = limit
        self.items = []

    def push(self, value):
        if len(self.items) >= self.limit:
            raise IndexError("full")
        self.items.append(value)

    def pop(self):
        if not self.items:
            raise IndexError("empty")
        return self.items.pop()

    def many(self, n):
        taken = []
        for i in range(n):
            taken.append(self.pop())
        taken.reverse()
        return taken


class Machine:
    def __init__(self, text, limit=8):
        self.program = [line.split() for line in text.split("\n") if line.strip()]
        self.stack = Stack(limit)
        self.place = 0
        self.names = {}
        self.printed = []
        self.rows = {
            "push": self.push, "add": self.two(lambda a, b: a + b), "sub": self.two(lambda a, b: a - b), "mul": self.two(lambda a, b: a * b),
            "div": self.two(lambda a, b: a // b), "dup": self.dup, "set": self.set, "get": self.get, "print": self.print, "jump": self.jump, "unless": self.unless,
        }

    def two(self, how):
        def row():
            a, b = self.stack.many(2)
            self.stack.push(how(a, b))
        return row

    def push(self, value):
        self.stack.push(int(value))

    def dup(self):
        value = self.stack.pop()
        for i in range(2):
            self.stack.push(value)

    def set(self, name):
        self.names[name] = self.stack.pop()

    def get(self, name):
        self.stack.push(self.names[name])

    def print(self):
        self.printed.append(str(self.stack.pop()))

    def jump(self, place):
        self.place = int(place)

    def unless(self, place):
        if self.stack.pop() == 0:
            self.jump(place)

    def step(self):
        word, *arguments = self.program[self.place]
        at, self.place = self.place, self.place + 1
        try:
            self.rows[word](*arguments)
        except (IndexError, KeyError, ZeroDivisionError, ValueError) as error:
            raise Fault(at, type(error).__name__) from error

    def run(self, most=200):
        steps = 0
        while self.place < len(self.program) and steps < most:
            self.step()
            steps += 1
        return steps


def show(text, **how):
    machine = Machine(text, **how)
    try:
        steps = machine.run()
    except Fault as fault:
        print("fault at", fault.place, "by", fault.why, type(fault.__cause__).__name__)
    else:
        print("done in", steps)
    finally:
        print(" ".join(machine.printed), machine.names, machine.stack.items)


show("push 2\npush 3\nadd\ndup\nmul\nprint")
show("push 5\nset n\npush 1\nset f\nget n\nunless 15\nget f\nget n\nmul\nset f\nget n\npush 1\nsub\nset n\njump 4\nget f\nprint")
show("push 1\npush 0\ndiv")
show("push 1\nadd")
show("push 1\ndup\ndup\ndup", limit=3)
show("get x")
show("push x")
show("jump 0")
show("fly")
