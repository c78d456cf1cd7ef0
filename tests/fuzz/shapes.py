"""Code files as they are changed: instructions are objects, and what names a place names the instruction there, wherever it comes to stand."""
import copy
from checker import instructions, read
from rows import NAMES, listed, number, text

OP = {name: n for n, name in enumerate(NAMES)}
# operations whose operand is a place
PLACED = {OP[name] for name in ("Next", "Jump", "JumpIf", "JumpUnless", "JumpIfKeep", "JumpUnlessKeep", "Leave")}


class Instruction:
    """An operation and its operands; behind a change it may stand nowhere, and then what stood behind it takes its place."""
    __slots__ = ("op", "args", "heir")

    def __init__(self, op, args=()):
        self.op, self.args, self.heir = op, list(args), None


class End:
    """The place behind the last instruction."""

    def __deepcopy__(self, _):
        return self


END = End()


class Block:
    """A block: its fields as numbers, but for places, each of which is an instruction, the end, or a number of its own."""

    def __init__(self, kind=0, name=0, line=1, parameters=0, flags=0, keyword_only=0, local=(), cells=(), free=()):
        self.kind, self.name, self.line = kind, name, line
        self.parameters, self.flags, self.keyword_only = parameters, flags, keyword_only
        self.locals, self.cells, self.free = list(local), list(cells), list(free)
        self.code = []
        self.marks, self.handlers, self.starts = [], [], []

    def remove(self, at):
        gone = self.code.pop(at)
        gone.heir = self.code[at] if at < len(self.code) else END

    def places(self):
        """The place of each instruction, and the number of bytes."""
        found, pc = {}, 0
        for it in self.code:
            found[id(it)] = pc
            pc += 1 + 4 * len(it.args)
        return found, pc

    def encoded(self):
        found, size = self.places()

        def place(of):
            while isinstance(of, Instruction) and id(of) not in found:
                of = of.heir or END
            return size if of is END else found[id(of)] if isinstance(of, Instruction) else of

        def place_bytes(of):
            return number(place(of) % 2 ** 32)
        code = b"".join(bytes([it.op]) + b"".join(place_bytes(arg) for arg in it.args) for it in self.code)
        return b"".join([
            number(self.name), bytes([self.kind]), number(self.line), number(self.parameters), bytes([self.flags]), number(self.keyword_only),
            *(listed([number(n) for n in names]) for names in (self.locals, self.cells, self.free)), text(code),
            listed([place_bytes(at) + number(act) + number(line) + bytes([again]) for at, act, line, again in self.marks]),
            listed([place_bytes(f) + place_bytes(t) + place_bytes(target) + number(depth) + bytes([always])
                    for f, t, target, depth, always in self.handlers]),
            listed([place_bytes(at) + number(line) for at, line in self.starts])])


class File:
    def __init__(self, texts=(b"m", b"x", b"y"), constants=(b"\0",), lists=((), (1,), (1, 2)), blocks=()):
        self.texts, self.constants, self.lists, self.blocks = list(texts), list(constants), [list(each) for each in lists], list(blocks)

    def encoded(self):
        return b"PTCF\x01" + listed([text(t) for t in self.texts]) + listed(self.constants) + listed(
            [listed([number(t) for t in each]) for each in self.lists]) + listed([block.encoded() for block in self.blocks])

    def copied(self):
        return copy.deepcopy(self)


def block_of(b):
    """A block that was read; a place at which no instruction starts stays a number."""
    block = Block(b["kind"], b["name"], b["line"], b["parameters"], b["flags"], b["keyword_only"], b["locals"], b["cells"], b["free"])
    found = {pc: Instruction(op, args) for pc, (op, args, _) in instructions(b["code"]).items()}
    block.code = list(found.values())

    def at(pc):
        return END if pc == len(b["code"]) else found.get(pc, pc)
    for it in block.code:
        if it.op in PLACED:
            it.args[0] = at(it.args[0])
    block.marks = [[at(pc), *rest] for pc, *rest in b["marks"]]
    block.handlers = [[at(f), at(t), at(target), depth, always] for f, t, target, depth, always in b["handlers"]]
    block.starts = [[at(pc), line] for pc, line in b["starts"]]
    return block


def parsed(data):
    """The shape of a code file."""
    code = read(data)
    return File(code["texts"], code["constants"], code["lists"], map(block_of, code["blocks"]))
