# tasks in a queue by their rank, and a clock that runs them
class Heap:
    def __init__(self, rank):
        self.rank = rank
        self.items = []

    def push(self, item):
        self.items.append(item)
        at = len(self.items) - 1
        while at and self.rank(self.items[at]) < self.rank(self.items[(at - 1) // 2]):
            above = (at - 1) // 2
            self.items[at], self.items[above] = self.items[above], self.items[at]
            at = above

    def pop(self):
        first, last = self.items[0], self.items.pop()
        if self.items:
            self.items[0] = last
            self.sink(0)
        return first

    def sink(self, at):
        while 2 * at + 1 < len(self.items):
            below = 2 * at + 1
            if below + 1 < len(self.items) and self.rank(self.items[below + 1]) < self.rank(self.items[below]):
                below += 1
            if self.rank(self.items[at]) <= self.rank(self.items[below]):
                break
            self.items[at], self.items[below] = self.items[below], self.items[at]
            at = below


class Task:
    made = 0

    def __init__(self, when, name):
        Task.made += 1
        self.when, self.name, self.number = when, name, Task.made

    def run(self, clock):
        clock.say(self.name)


class Again(Task):
    def __init__(self, when, name, every, times):
        super().__init__(when, name)
        self.every, self.times = every, times

    def run(self, clock):
        super().run(clock)
        self.times -= 1
        if self.times:
            self.when += self.every
            clock.add(self)


class Broken(Task):
    def run(self, clock):
        super().run(clock)
        raise RuntimeError(self.name)


class Clock:
    def __init__(self):
        self.now = 0
        self.tasks = Heap(lambda task: (task.when, task.number))
        self.said, self.errors = [], []

    def add(self, *tasks):
        for task in tasks:
            self.tasks.push(task)
        return self

    def say(self, text):
        self.said.append(f"{self.now}:{text}")

    def run(self, until):
        while self.tasks.items and self.tasks.items[0].when <= until:
            task = self.tasks.pop()
            self.now = task.when
            try:
                task.run(self)
            except RuntimeError as error:
                self.errors.append((self.now, error.args[0]))
        self.now = until
        return len(self.tasks.items)


numbers = Heap(lambda n: n)
for n in [5, 3, 8, 1, 9, 2, 7]:
    numbers.push(n)
print([numbers.pop() for i in range(7)], numbers.items)
clock = Clock().add(Task(5, "five"), Again(1, "tick", 2, 4), Broken(3, "bad"), Task(5, "also five"), Task(40, "late"))
print(clock.run(6), " ".join(clock.said))
print(clock.run(20), " ".join(clock.said), clock.errors, clock.now)
print(clock.add(Again(21, "end", 1, 2)).run(100), clock.said[-3:], Task.made)
numbers.pop()
