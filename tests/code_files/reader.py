"""Reads code files, by their format alone: docs/CODE_FILES.md. What isn't one is BadFile, with the number of its refusal and its place."""
import dataclasses

MAGIC, VERSION, TRUNCATED, FIELD, TRAILING = range(18, 23)

NONE, FALSE, TRUE, INTEGER, TEXT, ELLIPSIS = range(6)
MODULE, FUNCTION, GENERATOR, CLASS, GENERATOR_EXPRESSION = range(5)
MOST = 1 << 32

# the names of the operations in the order of their numbers, each with its operands
OPERATIONS = [row.split() for row in """
Nop
Const constant
Local local
SetLocal local
DelLocal local
Cell cell
SetCell cell
DelCell cell
Global text
SetGlobal text
DelGlobal text
Name text
SetName text
DelName text
PushCell cell
Pop
Copy
Copy2
Swap
Rot3
Attr text
SetAttr text
DelAttr text
Item
SetItem
DelItem
Slice
Unary unary
Not
Binary binary
InPlace binary
Compare comparison
Tuple number
List number
Set number
Dict number
ListAdd number
SetAdd number
DictAdd number
Format conversion
Join number
Unpack number
UnpackStar number number
Spread
SpreadMap
Call number
CallKw number list
CallSpread number list
MakeFunction block number list
MakeClass block
MakeGenerator block
Iter
Next number
Jump number
JumpIf number
JumpUnless number
JumpIfKeep number
JumpUnlessKeep number
Return
Yield
Delegate
Raise
RaiseFrom
RaiseAgain
Match
Caught
EndHandler
Rethrow
Enter
Normal
Exit
EndFinally
Leave number
Import text
ImportName text
AssertFail flag
TupleJoin
DictMerge
Super
FreshLocal local
FreshCell cell
""".split("\n") if row]


class BadFile(Exception):
    """The format fails: the number of the refusal, and the place; of a version the one that is there."""


@dataclasses.dataclass
class Block:
    name: str
    kind: int
    first_line: int
    plain: int
    takes_rest: bool
    takes_named_rest: bool
    keyword_only: int
    locals: list
    cells: list
    free: list
    instructions: list  # place, name, operands
    marks: list  # place, act, line, whether a test is done again
    handlers: list  # from, to, target, depth, whether it takes every way out
    starts: list  # place, line


@dataclasses.dataclass
class File:
    texts: list
    constants: list
    lists: list
    blocks: list


class Reader:
    def __init__(self, data):
        self.data, self.at = data, 0

    def take(self, count):
        if self.at + count > len(self.data):
            raise BadFile(TRUNCATED, len(self.data))
        self.at += count
        return self.data[self.at - count:self.at]

    def byte(self, bound):
        at = self.at
        (value,) = self.take(1)
        if value >= bound:
            raise BadFile(FIELD, at)
        return value

    def number(self, bound=MOST, least=0):
        at = self.at
        value = int.from_bytes(self.take(4), "little")
        if not least <= value < bound:
            raise BadFile(FIELD, at)
        return value

    def items(self, item, **within):
        return [item() for _ in range(self.number(**within))]

    def text(self):
        at = self.at
        try:
            return self.take(self.number()).decode()
        except UnicodeDecodeError:
            raise BadFile(FIELD, at) from None

    def constant(self, texts):
        tag = self.byte(6)
        if tag == INTEGER:
            return int.from_bytes(self.take(16), "little", signed=True)
        if tag == TEXT:
            return texts[self.number(len(texts))]
        return {NONE: None, FALSE: False, TRUE: True, ELLIPSIS: ...}[tag]

    def names(self, texts, **within):
        return self.items(lambda: texts[self.number(len(texts))], **within)

    def instructions(self, bounds):
        count = self.number(least=1)
        first, end = self.at, self.at + count
        found = []
        while self.at < end:
            at = self.at
            name, *operands = OPERATIONS[self.byte(len(OPERATIONS))]
            if at + 1 + 4 * len(operands) > end:
                raise BadFile(FIELD, at)
            found.append((at - first, name, [self.number(bounds[kind]) for kind in operands]))
        return found

    def block(self, file, is_first, blocks):
        texts = file.texts
        name = texts[self.number(len(texts))]
        at = self.at
        kind = self.byte(5)
        if (kind == MODULE) != is_first:
            raise BadFile(FIELD, at)
        first_line = self.number()
        most = MOST if kind in (FUNCTION, GENERATOR) else 1
        plain = self.number(most)
        flags = self.byte(4 if most == MOST else 1)
        keyword_only = self.number(most)
        local_names = self.names(texts, least=plain + keyword_only + flags % 2 + flags // 2)
        cells = self.names(texts)
        free = self.names(texts, bound=1 if is_first else MOST)
        bounds = {"number": MOST, "constant": len(file.constants), "text": len(texts), "local": len(local_names), "cell": len(cells) + len(free),
                  "list": len(file.lists), "block": blocks, "unary": 3, "binary": 12, "comparison": 10, "conversion": 3, "flag": 2}
        instructions = self.instructions(bounds)
        marks = self.items(lambda: (self.number(), self.number(), self.number(), self.byte(2)))
        handlers = self.items(lambda: (self.number(), self.number(), self.number(), self.number(), self.byte(2)))
        starts = self.items(lambda: (self.number(), self.number()))
        return Block(name, kind, first_line, plain, flags % 2 == 1, flags // 2 == 1, keyword_only, local_names, cells, free, instructions, marks,
                     handlers, starts)

    def heading(self):
        for byte in b"PTCF":
            if self.take(1)[0] != byte:
                raise BadFile(MAGIC, 0)
        (version,) = self.take(1)
        if version != 1:
            raise BadFile(VERSION, version)

    def file(self):
        self.heading()
        file = File([], [], [], [])
        file.texts = self.items(self.text)
        file.constants = self.items(lambda: self.constant(file.texts))
        file.lists = self.items(lambda: self.names(file.texts))
        count = self.number(least=1)
        for number in range(count):
            file.blocks.append(self.block(file, number == 0, count))
        if self.at != len(self.data):
            raise BadFile(TRAILING, self.at)
        return file


def read(data):
    """The code whose file the bytes are."""
    return Reader(data).file()


def listing(file):
    """The lines in which `dis` has it."""
    lines = []
    for number, block in enumerate(file.blocks):
        lines.append(f"block {number} {block.name}")
        acts = {place: (act, line) for place, act, line, _ in block.marks}
        for place, name, operands in block.instructions:
            if place in acts:
                lines.append("act {} line {}".format(*acts[place]))
            lines.append(" ".join([str(place), name, *map(str, operands)]))
    return "".join(line + "\n" for line in lines)
