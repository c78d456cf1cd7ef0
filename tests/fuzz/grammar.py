"""Random code by a grammar of statements and expressions, most of which fits: loops, `try` with handlers and `finally` parts, `with`, exits through
them, generators, and functions, classes and generator expressions with cells."""
from checker import CLASS, EXPRESSION, FUNCTION, GENERATOR, MODULE
from shapes import END, OP, Block, File, Instruction

TEXTS = (b"m", b"x", b"y", b"", b"*", b"**", b"z")
X, Y, Z = 1, 2, 6
CONSTANTS = (b"\0", b"\1", b"\2", b"\3" + (7).to_bytes(16, "little"), b"\3" + b"\xff" * 16, b"\4" + bytes([2, 0, 0, 0]), b"\5")
LISTS = ((), (X,), (Y,), (X, Y), (3,), (3, 4), (X, X), (Z,))
LIST_OF = {(X,): 1, (Y,): 2, (X, Y): 3, (): 0}
# the list that has another number of the first parameter's text, in some files
OTHER_X = 7


class Writer:
    """Writes the instructions of one block; labels stand for the instruction that is written next."""

    def __init__(self, rng, block, file):
        self.rng, self.block, self.file = rng, block, file
        self.waiting, self.loops = [], []
        self.left = rng.choice((3, 6, 12, 25))

    def label(self):
        return Instruction(OP["Nop"])

    def place(self, *labels):
        self.waiting += labels

    def put(self, name, *args, mark=False):
        it = Instruction(OP[name], args)
        for label in self.waiting:
            label.heir = it
        self.waiting = []
        self.block.code.append(it)
        if mark:
            self.block.marks.append([it, len(self.block.marks), 1, self.rng.randrange(2)])
        return it

    def often(self, chance):
        return self.rng.random() < chance

    def number(self, count):
        """A number below the count, or none where there is none."""
        return [self.rng.randrange(count)] if count else []

    # expressions: each leaves a value more
    def expression(self, deep=2):
        r = self.rng
        if deep == 0 or self.often(0.35):
            return self.leaf()
        r.choice((self.operation, self.display, self.call, self.choice, self.short, self.text, self.comprehension, self.function, self.item,
                  self.yielded, self.raised))(deep - 1)

    def leaf(self):
        kinds = [("Const", len(CONSTANTS)), ("Local", len(self.block.locals)), ("Cell", len(self.block.cells + self.block.free)),
                 ("Global", len(TEXTS))]
        if self.block.kind in (MODULE, CLASS):
            kinds.append(("Name", len(TEXTS)))
        name, count = self.rng.choice([it for it in kinds if it[1]])
        self.put(name, self.rng.randrange(count))

    def operation(self, deep):
        name, count = self.rng.choice((("Unary", 3), ("Not", 0), ("Binary", 12), ("InPlace", 12), ("Compare", 10), ("TupleJoin", 0), ("DictMerge", 0),
                                       ("Super", 0)))
        self.expression(deep)
        if name not in ("Unary", "Not"):
            self.expression(deep)
        self.put(name, *self.number(count))

    def display(self, deep):
        count = self.rng.randrange(4)
        name = self.rng.choice(("Tuple", "List", "Set", "Dict", "Join"))
        for _ in range(count * (1 + (name == "Dict"))):
            self.expression(deep)
        self.put(name, count)

    def call(self, deep):
        count = self.rng.randrange(3)
        for _ in range(count + 1):
            self.expression(deep)
        name = self.rng.choice(("Call", "CallKw", "CallSpread"))
        fitting = [n for n, each in enumerate(LISTS) if len(each) <= count and (name == "CallKw" or len(each) == count)]
        self.put(name, count, *[] if name == "Call" else [self.rng.choice(fitting)])

    def choice(self, deep):
        other, behind = self.label(), self.label()
        self.expression(deep)
        self.put(self.rng.choice(("JumpIf", "JumpUnless")), other)
        self.expression(deep)
        self.put("Jump", behind)
        self.place(other)
        self.expression(deep)
        self.place(behind)
        if self.often(0.5):
            self.put("Nop")

    def short(self, deep):
        behind = self.label()
        for _ in range(self.rng.randrange(1, 3)):
            self.expression(deep)
            self.put(self.rng.choice(("JumpIfKeep", "JumpUnlessKeep")), behind)
        self.expression(deep)
        self.place(behind)

    def text(self, deep):
        self.expression(deep)
        self.leaf()
        self.put("Format", self.rng.randrange(3))

    def comprehension(self, deep):
        again, behind = self.label(), self.label()
        name = self.rng.choice(("List", "Set", "Dict"))
        self.put(name, 0)
        self.expression(deep)
        self.put("Iter")
        self.place(again)
        self.put("Next", behind, mark=self.often(0.97))
        if name == "Dict":
            self.put("Copy")
        self.put(name + "Add", 2)
        self.put("Jump", again)
        self.place(behind)
        if self.often(0.5):
            self.put("Nop")

    def function(self, deep):
        number = self.rng.randrange(len(self.file.blocks))
        other = self.file.blocks[number]
        if other.kind in (FUNCTION, GENERATOR):
            names = tuple(other.locals[:self.rng.randrange(other.parameters + other.keyword_only + 1)])
            names = names if names in LIST_OF else ()
            for _ in names:
                self.expression(deep)
        elif other.kind in (CLASS, EXPRESSION):
            self.expression(deep)
            if other.kind == EXPRESSION:
                self.put("Iter")
        else:
            return self.leaf()
        if other.free and not self.block.cells + self.block.free:
            return self.leaf() if other.kind in (FUNCTION, GENERATOR) and not names else self.put("Nop") if other.kind == CLASS else self.leaf()
        for _ in other.free:
            self.put("PushCell", self.rng.randrange(len(self.block.cells + self.block.free)))
        if other.kind in (FUNCTION, GENERATOR):
            is_other = names == (X,) and self.file.texts[X] == self.file.texts[Z] and self.often(0.5)
            self.put("MakeFunction", number, len(names), OTHER_X if is_other else LIST_OF[names])
        else:
            self.put("MakeClass" if other.kind == CLASS else "MakeGenerator", number)

    def item(self, deep):
        self.expression(deep)
        if self.often(0.5):
            self.put("Attr", self.rng.randrange(len(TEXTS)))
            return
        self.expression(deep)
        if self.often(0.2):
            self.leaf()
            self.leaf()
            self.put("Slice")
        self.put("Item")

    def raised(self, deep):
        """An iterator above a value, where it began below."""
        again, behind = self.label(), self.label()
        self.expression(deep)
        self.put("Iter")
        self.leaf()
        self.put("Swap")
        self.place(again)
        self.put("Next", behind, mark=self.often(0.97))
        self.put("Pop")
        self.put("Jump", again)
        self.place(behind)

    def yielded(self, deep):
        self.expression(deep)
        if self.block.kind not in (GENERATOR, EXPRESSION):
            self.put(self.rng.choice(("Spread", "SpreadMap", "Not")))
        elif self.often(0.6):
            self.put("Yield")
        else:
            self.put("Iter")
            self.put("Const", 0)
            self.put("Delegate", mark=self.often(0.95))

    # statements: each leaves as many slots as it finds
    def statements(self, deep, below):
        for _ in range(self.rng.randrange(1, 4)):
            if self.left <= 0:
                break
            self.left -= 1
            self.statement(deep, below)

    def statement(self, deep, below):
        simple = (self.discard, self.assign, self.augment, self.unpack, self.leave, self.finish, self.check, self.bind)
        compound = (self.branch, self.loop, self.each, self.attempt, self.guarded, self.guarded, self.managed, self.leave)
        self.rng.choice(compound if deep and self.often(0.6) else simple)(deep - 1 if deep else 0, below)

    def discard(self, deep, below):
        self.expression()
        self.put("Pop")

    def store(self):
        kinds = [("Pop", 0), ("SetLocal", len(self.block.locals)), ("SetCell", len(self.block.cells + self.block.free)), ("SetGlobal", len(TEXTS))]
        if self.block.kind in (MODULE, CLASS):
            kinds.append(("SetName", len(TEXTS)))
        name, count = self.rng.choice([it for it in kinds if it[1] or it[0] == "Pop"])
        self.put(name, *self.number(count))

    def assign(self, deep, below):
        self.expression()
        if self.often(0.3):
            self.put("Copy")
            self.store()
        self.store()

    def augment(self, deep, below):
        self.expression(1)
        if self.often(0.5):
            self.put("Copy")
            self.put("Attr", 1)
            self.expression(1)
            self.put("InPlace", 0)
            self.put("Swap")
            self.put("SetAttr", 1)
        else:
            self.expression(1)
            self.put("Copy2")
            self.put("Item")
            self.expression(1)
            self.put("InPlace", 0)
            self.put("Rot3")
            self.put("SetItem")

    def unpack(self, deep, below):
        self.expression()
        count = self.rng.randrange(4)
        if self.often(0.7):
            self.put("Unpack", count)
        else:
            self.put("UnpackStar", count, 1)
            count += 2
        for _ in range(count):
            self.store()

    def leave(self, deep, below):
        if not self.loops:
            return self.discard(deep, below)
        behind = self.label()
        if self.often(0.8):
            self.expression(1)
            self.put("JumpIf", behind)
        self.put("Leave", self.rng.choice(self.loops[-2:]))
        self.place(behind)

    def finish(self, deep, below):
        behind = self.label()
        if self.often(0.8):
            self.expression(1)
            self.put("JumpIf", behind)
        how = self.rng.randrange(4)
        if how == 0:
            self.put("RaiseAgain")
        else:
            self.expression(1)
            if how == 1:
                self.leaf()
            self.put(("", "RaiseFrom", "Raise", "Return")[how])
        self.place(behind)

    def check(self, deep, below):
        behind = self.label()
        self.expression()
        self.put("JumpIf", behind)
        given = self.rng.randrange(2)
        if given:
            self.leaf()
        self.put("AssertFail", given)
        self.place(behind)

    def bind(self, deep, below):
        self.put("Import", 1)
        if self.often(0.5):
            self.put("ImportName", 2)
            self.store()
        self.store()
        if self.block.locals:
            self.put(self.rng.choice(("DelLocal", "FreshLocal")), 0)
        if self.block.cells:
            self.put(self.rng.choice(("DelCell", "FreshCell")), 0)

    def branch(self, deep, below):
        other, behind = self.label(), self.label()
        self.expression(1)
        self.put("JumpUnless", other)
        self.statements(deep, below)
        self.put("Jump", behind)
        self.place(other)
        self.statements(deep, below)
        self.place(behind)

    def body(self, deep, below, again, behind):
        self.loops += [again, behind]
        self.statements(deep, below)
        del self.loops[-2:]
        self.put("Jump", again)
        self.place(behind)

    def loop(self, deep, below):
        again, behind = self.label(), self.label()
        self.place(again)
        self.put("Const", 1, mark=self.often(0.95))
        self.put("JumpUnless", behind)
        self.body(deep, below, again, behind)

    def each(self, deep, below):
        again, behind = self.label(), self.label()
        self.expression(1)
        self.put("Iter")
        self.place(again)
        self.put("Next", behind, mark=self.often(0.95))
        self.store()
        self.body(deep, below + 1, again, behind)

    def covered(self, deep, below, target, depth, always):
        """Statements under a handler row, which comes behind those of the statements within."""
        first = self.put("Nop")
        self.statements(deep, below)
        last = self.label()
        self.place(last)
        self.block.handlers.append([first, last, target, depth, always])

    def attempt(self, deep, below):
        handler, other, behind = self.label(), self.label(), self.label()
        self.covered(deep, below, handler, below, 0)
        self.put("Jump", behind)
        self.place(handler)
        self.expression(0)
        self.put("Match")
        self.put("JumpUnless", other)
        self.put("Caught")
        self.store()
        self.statements(deep, below + 1)
        self.put("EndHandler")
        self.put("Jump", behind)
        self.place(other)
        self.put("Rethrow")
        self.place(behind)

    def guarded(self, deep, below):
        handler = self.label()
        self.covered(deep, below, handler, below, 1)
        self.put("Normal")
        self.place(handler)
        if self.often(0.5):
            self.statements(deep, below + 1)
        self.put("EndFinally")

    def managed(self, deep, below):
        handler = self.label()
        self.expression(1)
        self.put("Enter")
        self.store()
        self.covered(deep, below + 1, handler, below + 1, 1)
        self.put("Normal")
        self.place(handler)
        self.put("Exit")
        self.put("EndFinally")

    def write(self):
        self.statements(3, 1 if self.block.kind == EXPRESSION else 0)
        self.put("Const", 0)
        self.put("Return")
        places, _ = self.block.places()
        self.block.marks.sort(key=lambda mark: places[id(mark[0])])
        if self.often(0.5):
            self.block.starts = [[it, n + 1] for n, it in enumerate(self.block.code) if self.often(0.2)]


def random_block(rng, is_first):
    kind = MODULE if is_first else rng.choice((FUNCTION, FUNCTION, GENERATOR, GENERATOR, CLASS, EXPRESSION))
    block = Block(kind, name=rng.randrange(len(TEXTS)), line=rng.randrange(1, 9))
    if kind in (FUNCTION, GENERATOR):
        block.parameters, block.keyword_only, block.flags = rng.randrange(2), rng.randrange(2), rng.choice((0, 0, 0, 1, 3))
        block.locals = [X, Y, Z, 0, 3][:block.parameters + block.keyword_only + block.flags % 2 + block.flags // 2 + rng.randrange(2)]
    block.cells = [Z] * rng.randrange(2)
    block.free = [] if is_first else [5] * rng.randrange(2)
    return block


def random_file(rng):
    file = File(TEXTS, CONSTANTS, LISTS)
    if rng.random() < 0.1:
        file.texts[Z] = file.texts[X]
    file.blocks = [random_block(rng, n == 0) for n in range(rng.choice((1, 1, 2, 2, 3)))]
    for block in file.blocks:
        Writer(rng, block, file).write()
    return file
