"""Changes of code files: of their shape, and of their bytes."""
from checker import OPERANDS
from shapes import END, OP, PLACED, Instruction

EXTREMES = (0, 1, 2, 3, 16777215, 16777216, 16777217, 2 ** 31, 2 ** 32 - 2, 2 ** 32 - 1)
COUNTED = {OP[name] for name in ("Tuple", "List", "Set", "Dict", "ListAdd", "SetAdd", "DictAdd", "Join", "Unpack", "UnpackStar", "Call", "CallKw",
                                 "CallSpread", "MakeFunction")}
KINDS = range(5)


def some_block(rng, file):
    return rng.choice(file.blocks)


def some_at(rng, block):
    return rng.randrange(len(block.code))


def some_place(rng, block):
    chance = rng.random()
    return END if chance < 0.05 else rng.randrange(len(block.code) * 3) if chance < 0.12 else rng.choice(block.code)


def some_number(rng):
    return rng.randrange(4) if rng.random() < 0.8 else rng.choice(EXTREMES)


def beside(rng, number):
    """One more or one less."""
    return min(max(number + rng.choice((-1, 1)), 0), EXTREMES[-1])


def some_operand(rng, block, file):
    counts = (len(block.locals), len(block.cells + block.free), len(file.texts), len(file.constants), len(file.lists), len(file.blocks))
    return rng.randrange(max(rng.choice(counts), 1)) if rng.random() < 0.9 else some_number(rng)


def some_instruction(rng, block, file):
    op = rng.randrange(81)
    args = [some_operand(rng, block, file) for _ in range(OPERANDS[op])]
    if op in PLACED:
        args[0] = some_place(rng, block)
    elif op in COUNTED:
        args = [some_number(rng) for _ in args]
        if op in (OP["CallKw"], OP["CallSpread"], OP["MakeFunction"]):
            args[-1] = rng.randrange(len(file.lists) or 1)
        if op == OP["MakeFunction"]:
            args[0] = rng.randrange(len(file.blocks))
    return Instruction(op, args)


def swap(rng, file):
    """Two neighbours, or any two."""
    code = some_block(rng, file).code
    one = rng.randrange(len(code))
    other = min(one + 1, len(code) - 1) if rng.random() < 0.6 else rng.randrange(len(code))
    code[one], code[other] = code[other], code[one]


def drop(rng, file):
    block = some_block(rng, file)
    if len(block.code) > 1:
        block.remove(some_at(rng, block))


def duplicate(rng, file):
    block = some_block(rng, file)
    at = some_at(rng, block)
    block.code.insert(at, Instruction(block.code[at].op, block.code[at].args))


def insert(rng, file):
    block = some_block(rng, file)
    block.code.insert(rng.randrange(len(block.code) + 1), some_instruction(rng, block, file))


def insert_exit(rng, file):
    """A Leave, or an end of a part."""
    block = some_block(rng, file)
    name = rng.choice(("Leave", "Leave", "Leave", "EndFinally", "Normal", "Exit", "EndHandler", "Return", "Rethrow"))
    it = Instruction(OP[name], [some_place(rng, block)] if name == "Leave" else [])
    block.code.insert(rng.randrange(len(block.code) + 1), it)


def replace(rng, file):
    """Another operation with as many operands of the same sort."""
    block = some_block(rng, file)
    it = rng.choice(block.code)
    others = [op for op in range(81) if OPERANDS[op] == OPERANDS[it.op] and (op in PLACED) == (it.op in PLACED)]
    it.op = rng.choice(others)


def retarget(rng, file):
    block = some_block(rng, file)
    placed = [it for it in block.code if it.op in PLACED]
    if placed:
        rng.choice(placed).args[0] = some_place(rng, block)


def change_operand(rng, file):
    block = some_block(rng, file)
    given = [it for it in block.code if it.args and it.op not in PLACED]
    if given:
        it = rng.choice(given)
        it.args[rng.randrange(len(it.args))] = some_number(rng) if it.op in COUNTED else some_operand(rng, block, file)


def add_row(rng, file):
    """A handler row, before or behind the others."""
    block = some_block(rng, file)
    one, other = sorted((some_at(rng, block), some_at(rng, block)))
    row = [block.code[one], block.code[other], some_place(rng, block), rng.choice((0, 0, 0, 1, 2, some_number(rng))), rng.randrange(2)]
    block.handlers.insert(rng.choice((0, len(block.handlers))), row)


def change_row(rng, file):
    block = some_block(rng, file)
    if not block.handlers:
        return
    row = rng.choice(block.handlers)
    field = rng.randrange(5)
    row[field] = some_place(rng, block) if field < 3 else beside(rng, row[3]) if field == 3 else row[4] ^ 1
    if rng.random() < 0.01:
        row[3] = some_number(rng)


def vary_row(rng, file):
    """A row as there is one, but with another depth or target, in front of it or behind it."""
    rows = some_block(rng, file).handlers
    if rows:
        at = rng.randrange(len(rows))
        rows.insert(at + rng.randrange(2), list(rows[at]))
        row = rows[at]
        if rng.random() < 0.7:
            row[3] = beside(rng, row[3])
        else:
            row[2] = rng.choice(rows)[2]


def order_rows(rng, file):
    rows = some_block(rng, file).handlers
    if rng.random() < 0.4 and rows:
        del rows[rng.randrange(len(rows))]
    elif rng.random() < 0.3 and rows:
        rows.append(list(rng.choice(rows)))
    else:
        rng.shuffle(rows)


def change_marks(rng, file):
    block = some_block(rng, file)
    chance = rng.random()
    if chance < 0.5 and block.marks:
        del block.marks[rng.randrange(len(block.marks))]
    elif chance < 0.6:
        block.marks = []
    elif chance < 0.65:
        rng.shuffle(block.marks)
    elif chance < 0.7 and block.marks:
        rng.choice(block.marks)[0] = some_place(rng, block)
    else:
        marked = {id(mark[0]): mark for mark in block.marks}
        marked.setdefault(id(it := rng.choice(block.code)), [it, 0, 1, 0])
        block.marks = [marked[id(it)] for it in block.code if id(it) in marked]


def change_starts(rng, file):
    block = some_block(rng, file)
    if rng.random() < 0.5 and block.starts:
        rng.choice(block.starts)[0] = some_place(rng, block)
    elif rng.random() < 0.3:
        rng.shuffle(block.starts)
    else:
        block.starts = [[it, n] for n, it in enumerate(block.code) if rng.random() < 0.3]


def cover(rng, file):
    """A `finally` part or a handler around some instructions, behind all others."""
    block = some_block(rng, file)
    one, other = sorted((some_at(rng, block), some_at(rng, block)))
    always = rng.randrange(2)
    handler = Instruction(OP["EndFinally" if always else "EndHandler"])
    behind = Instruction(OP["Jump"], [some_place(rng, block)])
    row = [block.code[one], block.code[other], handler, rng.choice((0, 0, 1, 2)), always]
    block.code += [handler, behind]
    block.handlers.insert(rng.choice((0, len(block.handlers))), row)


def splice(rng, file):
    """Instructions of a block once more in another, with the handler rows within and the jumps among them."""
    source, block = some_block(rng, file), some_block(rng, file)
    one = some_at(rng, source)
    part = source.code[one:one + rng.randrange(1, 12)]
    copies = {id(it): Instruction(it.op, it.args) for it in part}

    def mapped(of):
        return copies.get(id(of), of)
    for it in part:
        copies[id(it)].args = [mapped(arg) for arg in it.args]
    at = rng.randrange(len(block.code) + 1)
    rows = [row for row in source.handlers if all(id(place) in copies for place in row[:2])]
    block.code[at:at] = [copies[id(it)] for it in part]
    block.handlers += [[mapped(f), mapped(t), mapped(target), *rest] for f, t, target, *rest in rows]


def change_block(rng, file):
    """Another kind, other parameters or names."""
    block = some_block(rng, file)
    field = rng.choice(("kind", "kind", "parameters", "keyword_only", "flags", "locals", "cells", "free", "free"))
    if field == "kind":
        block.kind = rng.choice(KINDS)
    elif field in ("locals", "cells", "free"):
        names = getattr(block, field)
        names[:] = names[:-1] if names and rng.random() < 0.5 else names + [rng.randrange(len(file.texts) or 1)]
    else:
        setattr(block, field, rng.randrange(4))


def change_lists(rng, file):
    if file.lists:
        each = rng.choice(file.lists)
        each[:] = each[:-1] if each and rng.random() < 0.5 else each + [rng.randrange(len(file.texts) or 1)]


def change_texts(rng, file):
    """A text that is there twice."""
    if file.texts:
        file.texts[rng.randrange(len(file.texts))] = rng.choice(file.texts)


def change_blocks(rng, file):
    if rng.random() < 0.5:
        file.blocks.append(some_block(rng, file))
    elif len(file.blocks) > 1:
        del file.blocks[rng.randrange(1, len(file.blocks))]


def deepen(rng, file):
    """Many slots between two instructions, or as many that are to be there."""
    block = some_block(rng, file)
    at, count = rng.randrange(len(block.code) + 1), rng.choice(EXTREMES)
    up = [Instruction(OP["Const"], [0]), Instruction(OP["Unpack"], [count])] if rng.random() < 0.9 else []
    block.code[at:at] = [*up, Instruction(OP[rng.choice(("Tuple", "List", "Set", "Join"))], [count]), Instruction(OP["Pop"])]


SHAPED = (swap, drop, drop, duplicate, insert, insert, insert_exit, insert_exit, replace, retarget, retarget, change_operand, change_operand,
          add_row, change_row, change_row, vary_row, vary_row, order_rows, deepen, change_marks, change_marks, change_starts, cover, cover, splice, splice, change_block,
          change_lists, change_texts, change_blocks)


def changed(rng, file):
    """One to four changes of the shape of a file, which is copied first."""
    file = file.copied()
    for _ in range(rng.choice((1, 1, 1, 2, 2, 3, 4))):
        rng.choice(SHAPED)(rng, file)
    return file


def changed_bytes(rng, data):
    """A bit, a byte or a number that is another, bytes more or fewer, or a cut."""
    at, way = rng.randrange(len(data)), rng.randrange(7)
    if way == 0:
        return data[:at] + bytes([data[at] ^ 1 << rng.randrange(8)]) + data[at + 1:]
    if way == 1:
        return data[:at] + bytes([rng.randrange(256)]) + data[at + 1:]
    if way == 2:
        return data[:at] + rng.choice(EXTREMES).to_bytes(4, "little") + data[at + 4:]
    if way == 3:
        return data[:at]
    if way == 4:
        return data + bytes(rng.randrange(1, 4))
    if way == 5:
        return data[:at] + data[at + 1:]
    return data[:at] + bytes([rng.randrange(4)]) + data[at:]
